//! The inventories that are measured.

use crate::interface::LIMIT;
use crate::random::Xorshift;

/// The flag of every entry: a sensor.
pub const FLAG: u16 = 1;

fn push(inventory: &mut Vec<u8>, kind: u32, index: u32, code: &[u8]) {
    let length = 12 + code.len() as u16;
    for half in [length, 16, FLAG] {
        inventory.extend(half.to_le_bytes());
    }
    inventory.extend(kind.to_le_bytes());
    inventory.extend(index.to_le_bytes());
    inventory.extend(code);
}

/// As many sensors as the limit has room for, of random types from 1 to `kinds`, with random codes of `length` bytes.
pub fn sensors(length: usize, kinds: u64) -> Vec<u8> {
    let mut random = Xorshift::new();
    let mut inventory = Vec::new();
    for index in 0..LIMIT / (14 + length) {
        let kind = 1 + u32::from(random.below(kinds));
        let code: Vec<u8> = (0..length).map(|_| 1 + random.below(255) as u8).collect();
        push(&mut inventory, kind, index as u32, &code);
    }
    inventory
}
