//! Damage to journals and inventories.

use super::inventories::{self, LONGEST};
use super::properties;
use crate::buffers::{inventory_record, journal_record, record, record_places, unit_record};
use crate::random::Random;

/// Puts one record more into a buffer of records.
pub fn insert(random: &mut Random, buffer: &mut Vec<u8>, record: &[u8]) {
    let places = record_places(buffer);
    let at = places.get(random.between(0, places.len())).map_or(buffer.len(), |place| place.0);
    buffer.splice(at..at, record.iter().copied());
}

/// A journal record, whole by its length, that breaks one rule.
fn bad_journal_record(random: &mut Random) -> Vec<u8> {
    let kind = random.between(1, 3) as u16;
    let body = [10, 0, 1, 2, 3, 4, 5, 6, 7, 8, 9, 10, 11, 12];
    let unit_body = [15, 0, 1, 2, 3, 4, 5, 6, 7, 8, 9, 10, 11, 12, 13, 14];
    match random.below(10) {
        0 => journal_record(kind, random.pick(&[0, 15, 15, 16, 16, 17, 17, 0x101, 0x0a00, 0xffff]), 7, 7),
        1 => record(kind, &body[..if kind == 3 { 6 } else { 10 }]),
        2 => record(kind, &body[..random.pick(&[0, 1, 2, 5, 7, 9, 11, 14])]),
        3 => unit_record(random.pick(&[0, 1, 10, 14, 14, 17, 17, 0x10f, 0x0f00, 0xffff]), 7, 7),
        4 => record(4, &unit_body[..random.pick(&[0, 2, 6, 10, 13, 13, 15, 15, 16])]),
        5 | 6 => record(random.pick(&[0, 7, 7, 16, 0x101, 0x104, 0x105, 0xffff]), &body[..random.pick(&[6, 10, 14])]),
        _ => properties::bad_record(random),
    }
}

/// An inventory record, whole by its length, that breaks one rule.
fn bad_inventory_record(random: &mut Random) -> Vec<u8> {
    let mut code = inventories::code(random);
    let body = [1, 0, 1, 2, 3, 4, 5, 6, 7, 8, 9, 10, 11, 12];
    match random.below(6) {
        0 => inventory_record(0, 9000, 7, &[]),
        1 => inventory_record(0, 9000, 7, &vec![b'a'; LONGEST + random.pick(&[1, 1, 1, 2, 5, 1025])]),
        2 => {
            let anywhere = random.below(code.len());
            let nul = random.pick(&[0, anywhere, code.len() - 1]);
            code[nul] = 0;
            inventory_record(1, 9000, 7, &code)
        }
        3 => inventory_record(random.pick(&[2, 2, 3, 0x100, 0x101, 0xffff]), 9000, 7, &code),
        4 => record(random.pick(&[0, 1, 3, 15, 17, 0x1001, 0x1000]), &body[..random.pick(&[6, 11, 14])]),
        _ => record(16, &body[..random.pick(&[0, 1, 2, 6, 9])]),
    }
}

/// Makes a journal malformed.
pub fn damage_journal(random: &mut Random, journal: &mut Vec<u8>) {
    if random.one_in(2) {
        return damage(random, journal);
    }
    let record = bad_journal_record(random);
    insert(random, journal, &record);
}

/// Makes an inventory malformed.
pub fn damage_inventory(random: &mut Random, inventory: &mut Vec<u8>) {
    if random.one_in(2) {
        return damage(random, inventory);
    }
    let record = bad_inventory_record(random);
    insert(random, inventory, &record);
}

/// Another value for a field of two bytes.
fn other_number(random: &mut Random, old: u16) -> u16 {
    match random.below(6) {
        0 => old.wrapping_add(1),
        1 => old.wrapping_sub(1),
        2 => old ^ (1 << random.below(16)),
        3 => old ^ 0x0100,
        4 => random.pick(&[
            0, 1, 2, 3, 4, 5, 6, 7, 8, 12, 13, 15, 16, 38, 39, 91, 92, 1035, 1036, 32_806, 32_807, 0x0101, 0xff, 0xffff,
        ]),
        _ => random.next() as u16,
    }
}

fn change_number(random: &mut Random, buffer: &mut [u8], at: usize) {
    if let Some(field) = buffer.get_mut(at..at + 2) {
        let old = u16::from_le_bytes([field[0], field[1]]);
        field.copy_from_slice(&other_number(random, old).to_le_bytes());
    }
}

/// The place of one record of the buffer.
fn one_record(random: &mut Random, buffer: &[u8]) -> (usize, usize) {
    let places = record_places(buffer);
    match random.below(3) {
        0 => places[0],
        1 => places[places.len() - 1],
        _ => random.pick(&places),
    }
}

/// Bytes behind the last record: a part of a record, or a header whose body is missing.
fn add_tail(random: &mut Random, buffer: &mut Vec<u8>) {
    match random.below(3) {
        0 => buffer.extend(&[8, 0, 1, 0][..random.between(1, 4)]),
        1 => buffer.extend(vec![0; random.between(1, 5)]),
        _ => {
            let mut tail = vec![0; random.between(1, 13)];
            random.fill(&mut tail);
            buffer.extend(tail);
        }
    }
}

/// Damages a buffer of records in one place. Some damage leaves it well formed.
fn damage(random: &mut Random, buffer: &mut Vec<u8>) {
    if buffer.is_empty() {
        return add_tail(random, buffer);
    }
    let (from, to) = one_record(random, buffer);
    match random.below(9) {
        0 => {
            let at = random.below(buffer.len());
            buffer[at] ^= random.nonzero_byte();
        }
        1 => change_number(random, buffer, from),
        2 => change_number(random, buffer, from + 2),
        3 | 4 => change_number(random, buffer, from + 4),
        5 => buffer.truncate(buffer.len() - random.between(1, to - from).min(buffer.len())),
        6 => add_tail(random, buffer),
        7 => {
            let at = random.between(from, to - 1);
            buffer[at] = 0;
        }
        _ => {
            buffer.remove(random.between(from, to - 1));
        }
    }
}
