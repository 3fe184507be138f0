//! Journals and inventories, good and broken.

use crate::random::Random;
use crate::records::record;

/// A record of kinds 1 to 4. One in twenty has a node type that is drawn from all near the good ones.
fn node(random: &mut Random) -> Vec<u8> {
    let kind = 1 + random.below(4);
    let good = if kind == 4 { 15 + random.below(2) } else { 1 + random.below(14) };
    let node_type = if random.one_in(20) { random.below(18) } else { good };
    let operands = random.bytes([4, 4, 8, 12][kind - 1]);
    record(kind as u16, &[&(node_type as u16).to_le_bytes()[..], &operands].concat())
}

/// A record of kind 5 or 6. One in twenty has a name that is empty or too long, or a value that is too long.
fn property(random: &mut Random) -> Vec<u8> {
    let broken = random.one_in(20);
    let name = if broken { random.pick(&[0, 1, 31, 32, 33]) } else { 1 + random.below(31) };
    let long = broken && random.one_in(2);
    let value = if long { random.pick(&[32_767, 32_768, 32_769]) } else { random.below(40) };
    let head = [random.bytes(4), letters(random, name), vec![0]].concat();
    match random.one_in(2) {
        true => record(5, &[head, random.bytes(value)].concat()),
        false => record(6, &head),
    }
}

/// A record of an inventory. One in twenty has a code that is empty or too long, or a flag that is drawn from more.
pub fn entry(random: &mut Random) -> Vec<u8> {
    let broken = random.one_in(20);
    let code = if broken { random.pick(&[0, 1, 1023, 1024]) } else { 1 + random.below(40) };
    let flag = if broken { random.below(4) } else { random.below(2) };
    let numbers = random.bytes(8);
    record(16, &[&(flag as u16).to_le_bytes()[..], &numbers, &letters(random, code)].concat())
}

pub fn change(random: &mut Random) -> Vec<u8> {
    if random.one_in(2) {
        node(random)
    } else {
        property(random)
    }
}

/// So many bytes, none zero.
fn letters(random: &mut Random, count: usize) -> Vec<u8> {
    (0..count).map(|_| 1 + random.below(255) as u8).collect()
}

/// Up to a few records, and then often something that breaks one.
pub fn buffer(random: &mut Random, one: fn(&mut Random) -> Vec<u8>) -> Vec<u8> {
    let count = random.below(6);
    let mut bytes: Vec<u8> = (0..count).flat_map(|_| one(random)).collect();
    let place = random.below(bytes.len() + 1);
    match random.below(6) {
        0 => bytes.truncate(place),
        1 => bytes.extend(random.bytes(5)),
        2 if place < bytes.len() => bytes[place] = random.pick(&[0, 1, 2, 8, 9, 16, 32, 255]),
        3 if place < bytes.len() => bytes[place] ^= 1 << random.below(8),
        4 => bytes.insert(place, random.below(20) as u8),
        _ => {}
    }
    bytes
}

/// A record with this kind and this length, of which all else is good for some kind: a node type, and letters.
pub fn with_head(kind: u16, length: u16) -> Vec<u8> {
    let node_type = if kind == 4 { 15 } else { 1 };
    let body = [&[node_type, 0][..], &[b'a'; 65_535]].concat();
    let mut bytes = [length.to_le_bytes(), kind.to_le_bytes()].concat();
    bytes.extend(&body[..usize::from(length).saturating_sub(2)]);
    // Kinds 5 and 6 end their name with a NUL; the value of kind 5 follows it.
    if kind == 6 || (kind == 5 && length < 39) {
        *bytes.last_mut().unwrap() = 0;
    } else if kind == 5 {
        bytes[4 + 4 + 31] = 0;
    }
    bytes
}
