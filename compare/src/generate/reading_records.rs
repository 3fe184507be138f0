//! Editions, and records of the reading in progress (M-105): none, one that names what a call asks for, one that
//! differs from it in a field or two, and odd ones.

use super::inventories;
use crate::library::ReadingRecord;
use crate::random::Random;

/// An edition: at the bottom, at the top, where a half of it ends, or any.
pub fn edition(random: &mut Random) -> u32 {
    match random.below(6) {
        0 => random.pick(&[0, 0, 1]),
        1 => random.pick(&[0xffff_ffff, 0xffff_ffff, 0xffff_fffe]),
        2 => random.pick(&[0xffff, 0x1_0000, 0x7fff_ffff, 0x8000_0000]),
        3 => random.between(2, 9) as u32,
        _ => random.word(),
    }
}

/// Another number that is easily taken for this one: one apart, mostly, or with a bit or a half of its own.
fn near(random: &mut Random, number: u32) -> u32 {
    match random.below(8) {
        0..=2 => number.wrapping_add(1),
        3..=5 => number.wrapping_sub(1),
        6 => number ^ 1 << random.below(32),
        _ => number ^ (1 + random.word() % 0xffff) << random.pick(&[0, 16]),
    }
}

fn other_flag(random: &mut Random, flag: u32) -> u32 {
    flag ^ random.pick(&[1, 1, 1, 2, 3, 0x100, 0x1_0000, 0x8000_0000])
}

fn other_kind(random: &mut Random, kind: u32) -> u32 {
    let other = inventories::kind(random);
    if other == kind || random.one_in(2) {
        return near(random, kind);
    }
    other
}

/// Another number: one apart, or one that stands for no entry.
fn other_number(random: &mut Random, number: u32) -> u32 {
    let odd = random.pick(&[0, 1, 0x8000_0000, 0xffff_ffff]);
    if odd == number || random.one_in(2) {
        return near(random, number);
    }
    odd
}

/// Changes one field.
fn change(random: &mut Random, record: &mut ReadingRecord) {
    match random.below(8) {
        0 => record.flag = other_flag(random, record.flag),
        1 => record.kind = other_kind(random, record.kind),
        2 | 3 => record.number = other_number(random, record.number),
        _ => record.edition = near(random, record.edition),
    }
}

/// A record that no reading leaves: its number is 0, or 1 beside other fields, or far above any list.
fn odd(random: &mut Random) -> ReadingRecord {
    let number = random.pick(&[0, 0, 1, 1, 0xffff_ffff, 0x8000_0000, 100_000]);
    ReadingRecord { number, ..in_progress(random) }
}

/// A reading in progress of any list, in any edition.
pub fn in_progress(random: &mut Random) -> ReadingRecord {
    let flag = random.below(2) as u32;
    let kind = inventories::good_kind(random, flag);
    ReadingRecord { flag, kind, number: random.between(2, 20) as u32, edition: edition(random) }
}

pub fn any(random: &mut Random) -> ReadingRecord {
    match random.below(6) {
        0 | 1 => ReadingRecord::NONE,
        2 | 3 => in_progress(random),
        4 => odd(random),
        _ => {
            let [flag, kind, number, edition] = [0; 4].map(|_: u32| random.word());
            ReadingRecord { flag, kind, number, edition }
        }
    }
}

/// A record for a call of get-indices, which `named` names in its edition.
pub fn for_call(random: &mut Random, named: ReadingRecord, entries: u32) -> ReadingRecord {
    if named.number == 1 {
        return before_a_first_call(random, named, entries);
    }
    let mut record = named;
    match random.below(20) {
        0..=11 => {}
        12..=15 => change(random, &mut record),
        16 | 17 => {
            change(random, &mut record);
            change(random, &mut record);
        }
        18 => record = ReadingRecord::NONE,
        _ => record = any(random),
    }
    record
}

/// Mostly a reading in progress, of the same list or another one.
fn before_a_first_call(random: &mut Random, named: ReadingRecord, entries: u32) -> ReadingRecord {
    let mut record = ReadingRecord { number: random.between(2, entries.max(2) as usize) as u32, ..named };
    match random.below(8) {
        0 | 1 => {}
        2 | 3 => change(random, &mut record),
        4 => record = named,
        5 => record = in_progress(random),
        6 => record = any(random),
        _ => record = ReadingRecord::NONE,
    }
    record
}
