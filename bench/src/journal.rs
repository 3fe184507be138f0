//! The journals that are measured.

use crate::interface::LIMIT;
use crate::random::Xorshift;

/// Two units that differ in the last byte alone.
pub const UNITS: [u64; 2] = [0x8000_0000_2000_0002, 0x8000_0000_2000_0003];

fn push(journal: &mut Vec<u8>, kind: u16, node: u16, operands: u64) {
    let length: u16 = if kind == 3 { 12 } else { 8 };
    for half in [length, kind, node] {
        journal.extend(half.to_le_bytes());
    }
    journal.extend(&operands.to_le_bytes()[..usize::from(length) - 4]);
}

/// A record of kind 4 with one of the two units.
fn push_unit(journal: &mut Vec<u8>, random: &mut Xorshift) {
    let (node, unit) = (15 + random.below(2), UNITS[usize::from(random.below(2))]);
    for half in [16, 4, node] {
        journal.extend(half.to_le_bytes());
    }
    journal.extend(unit.to_le_bytes());
    journal.extend((random.next() as u32).to_le_bytes());
}

/// The node whose properties are asked for.
pub const NODE: u32 = 0x1234_5678;

/// One property of the node, with a value of this length.
pub fn one_property(length: usize) -> Vec<u8> {
    properties_in(length + 25, length)
}

/// As many properties of the node as the limit has room for, with values of this length.
pub fn properties(length: usize) -> Vec<u8> {
    properties_in(LIMIT, length)
}

/// As many properties of the node as so many bytes have room for, with names of 8 to 16 bytes and values of this length,
/// all of random bytes. A record takes up to 25 bytes beside its value.
fn properties_in(most: usize, length: usize) -> Vec<u8> {
    let mut random = Xorshift::new();
    let mut journal = Vec::new();
    loop {
        let name = 8 + usize::from(random.below(9));
        let size = 8 + name + 1 + length;
        if journal.len() + size > most {
            return journal;
        }
        journal.extend((size as u16 - 2).to_le_bytes());
        journal.extend(5u16.to_le_bytes());
        journal.extend(NODE.to_le_bytes());
        journal.extend((0..name).map(|_| 1 + random.below(255) as u8));
        journal.push(0);
        journal.extend((0..length).map(|_| random.below(256) as u8));
    }
}

/// As many deletes of node type 10 as so many bytes have room for.
pub fn uniform(size: usize) -> Vec<u8> {
    let mut journal = Vec::new();
    for phandle in 0..size / 10 {
        push(&mut journal, 1, 10, phandle as u64);
    }
    journal
}

/// As many records of kind 4 as so many bytes have room for, each of one of two units at random.
pub fn two_units(size: usize) -> Vec<u8> {
    let mut random = Xorshift::new();
    let mut journal = Vec::new();
    for _ in 0..size / 18 {
        push_unit(&mut journal, &mut random);
    }
    journal
}

/// Whether records of 10 and of 14 bytes can fill so many bytes exactly.
fn fillable(bytes: usize) -> bool {
    (0..5).any(|additions| bytes >= 14 * additions && (bytes - 14 * additions).is_multiple_of(10))
}

/// Records of random kinds from 1 to 3 and node types that fill `size` bytes exactly.
pub fn mixed(size: usize) -> Vec<u8> {
    of_kinds(size, 3)
}

/// Records of all four kinds, with random node types and units, that fill `size` bytes exactly.
pub fn four_kinds(size: usize) -> Vec<u8> {
    of_kinds(size, 4)
}

fn of_kinds(size: usize, kinds: u64) -> Vec<u8> {
    assert!(fillable(size));
    let mut random = Xorshift::new();
    let mut journal = Vec::new();
    while journal.len() < size {
        let kind = 1 + random.below(kinds);
        let record = [10, 10, 14, 18][usize::from(kind) - 1];
        let left = size - journal.len();
        if record > left || !fillable(left - record) {
            continue;
        }
        if kind == 4 {
            push_unit(&mut journal, &mut random);
        } else {
            let node = 1 + random.below(14);
            push(&mut journal, kind, node, random.next());
        }
    }
    journal
}
