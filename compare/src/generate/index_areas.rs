//! Index areas for the reader.

use super::inventories::{self, AMPLE, FIELD, LONGEST};
use crate::buffers::{arguments, put_word, words};
use crate::case::ReadCase;
use crate::paper;
use crate::random::Random;

pub fn case(random: &mut Random) -> ReadCase {
    let mut area = match random.below(10) {
        0..=2 => written(random),
        _ => built(random),
    };
    if random.one_in(3) {
        damage(random, &mut area);
    }
    let entries = paper::readers::read_indices(&area).map_or(2, |entries| entries.len());
    let out = super::room(random, 3 * entries);
    ReadCase { area, out }
}

/// An area that get-indices wrote over any bytes.
fn written(random: &mut Random) -> Vec<u8> {
    let entries = random.between(1, 12);
    let stock = inventories::stock(random, 0, 9000, entries);
    let mut area = vec![0; random.between(AMPLE, 2500)];
    random.fill(&mut area);
    let args = arguments(2, &[0, 9000, 0, area.len() as u32, 1], &[0, 0]);
    super::call_paper(args, &mut area, &[], &stock.bytes);
    area
}

/// A code with its NULs, good or on the wrong side of a line.
fn field(random: &mut Random) -> Vec<u8> {
    let mut field = inventories::code(random);
    let padded = 4 * (field.len() / 4 + 1);
    match random.below(16) {
        0 => field.clear(),
        1 => field.resize(padded, b'x'),
        2 => field.resize((padded + 4).min(FIELD), 0),
        3 => {
            field.resize(padded, 0);
            field[padded - 1] = random.nonzero_byte();
        }
        4 => long_field(random, &mut field),
        _ => field.resize(padded, 0),
    }
    if field.is_empty() {
        field.resize(padded, 0);
    }
    field
}

/// A field at the limit: the longest code, none that ends, or one word too many, whole or cut off.
fn long_field(random: &mut Random, field: &mut Vec<u8>) {
    let letters = random.pick(&[LONGEST - 4, LONGEST - 3, LONGEST, LONGEST, FIELD, FIELD + 3]);
    field.resize(letters, b'x');
    field.resize(random.pick(&[FIELD, FIELD, FIELD + 4]), 0);
    if random.one_in(3) {
        field.pop();
    }
}

fn length_word(random: &mut Random, field: usize) -> u32 {
    match random.below(20) {
        0 => random.pick(&[0, 1, 2, 3, 6, 79, 81, 82, 1022, 1023, 1025, 1026, 1028, 1032]),
        1 => random.pick(&[80, 84, 1024, 1028, 0x8000_0004, 0xffff_fffc, 0x100, 0x0400_0000]),
        2 => field as u32 + random.pick(&[4, 8]),
        // A field that is cut off has the length that it would have.
        _ => field.next_multiple_of(4) as u32,
    }
}

/// An area built of sets around the lines.
fn built(random: &mut Random) -> Vec<u8> {
    let sets = if random.one_in(3) { random.between(0, 2) } else { random.between(0, 8) };
    let count = match random.below(8) {
        0 => sets as u32 + 1,
        1 => random.pick(&[0, 0xffff_ffff, 0x8000_0000, 1]),
        2 => (sets as u32).saturating_sub(1),
        _ => sets as u32,
    };
    let mut area = words(&[count]);
    for _ in 0..sets {
        let field = field(random);
        area.extend(words(&[random.word(), length_word(random, field.len())]));
        area.extend(field);
    }
    add_tail(random, &mut area);
    area
}

/// Bytes behind the last set: none, a few, or the beginning of one set more.
fn add_tail(random: &mut Random, area: &mut Vec<u8>) {
    match random.below(4) {
        0 => area.extend(&[0, 0, 0, 7, 0, 0, 0, 4, b'a'][..random.between(1, 9)]),
        1 => {
            let mut tail = vec![0; random.between(1, 30)];
            random.fill(&mut tail);
            area.extend(tail);
        }
        _ => {}
    }
}

fn damage(random: &mut Random, area: &mut Vec<u8>) {
    match random.below(5) {
        0 => area.truncate(random.pick(&[0, 1, 3, 4, 5, 11, 12, 15, 16])),
        1 => area.truncate(random.between(0, area.len())),
        2 if area.len() >= 12 => {
            let length = length_word(random, 4);
            put_word(area, 8, length);
        }
        3 => area.truncate(area.len().saturating_sub(random.between(1, 4))),
        _ => damage_byte(random, area),
    }
}

fn damage_byte(random: &mut Random, area: &mut [u8]) {
    if !area.is_empty() {
        let at = random.below(area.len());
        area[at] = if random.one_in(2) { 0 } else { random.nonzero_byte() };
    }
}
