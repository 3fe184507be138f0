//! Journals.

use super::properties;
use crate::buffers::{journal_record, unit_record};
use crate::case::Wanted;
use crate::random::Random;

/// How large the journals of a case are.
#[derive(Clone, Copy, PartialEq, Eq)]
pub enum Size {
    Small,
    /// About one area's worth of operations.
    Area,
    /// Several areas' worth.
    Areas,
    /// At the limit of 1,048,576 bytes.
    Full,
}

pub fn size_for_call(random: &mut Random) -> Size {
    match random.below(1400) {
        0 => Size::Full,
        1..=60 => Size::Areas,
        61..=360 => Size::Area,
        _ => Size::Small,
    }
}

/// A good scope and, in scope 3, a unit.
pub fn wanted(random: &mut Random) -> Wanted {
    let scope = match random.below(11) {
        0 => 0x8000_0000,
        1 => 0xffff_ffff,
        2 => 0x8000_0000 | random.word(),
        3..=5 => 1,
        6 | 7 => 2,
        _ => return Wanted { scope: 3, unit: unit(random) },
    };
    Wanted { scope, unit: 0 }
}

/// A unit address: small, large, or with one of its words zero.
fn unit(random: &mut Random) -> u64 {
    match random.below(6) {
        0 => 0,
        1 => random.below(4) as u64,
        2 => u64::from(random.word()),
        3 => u64::from(random.word()) << 32,
        4 => random.pick(&[1 << 32, 1 << 63, 0x0100_0000_0000_0000, u64::MAX, 0x0102_0304_0506_0708]),
        _ => random.next(),
    }
}

/// A unit that is easily taken for this one, and sometimes is this one.
pub fn near_unit(random: &mut Random, unit: u64) -> u64 {
    match random.below(8) {
        0 => unit ^ 1 << random.below(64),
        1 => unit ^ u64::from(random.nonzero_byte()) << random.pick(&[0, 24, 32, 56]),
        2 => unit ^ u64::from(random.word() | 1),
        3 => unit ^ u64::from(random.word() | 1) << 32,
        4 => unit.swap_bytes(),
        5 => unit.rotate_left(32),
        6 => unit.wrapping_add(random.pick(&[1, u64::MAX])),
        _ => 0,
    }
}

/// The node types of kinds 1 to 3 that a scope reports.
fn reported_types(scope: u32, kind: u16) -> &'static [u16] {
    match (scope, kind) {
        (3, _) => &[],
        (1, 2) => &[1, 2, 3, 4, 5, 6, 7, 8, 9, 10, 11, 12, 13, 14],
        (1, _) => &[6, 9, 10, 11, 12, 13, 14],
        (2, 2) => &[3],
        (2, _) => &[],
        (_, 2) => &[5, 8, 9, 10, 11, 12, 13, 14],
        (_, _) => &[10, 11, 12, 13, 14],
    }
}

/// An operand: any word, and words that look like something else.
pub fn operand(random: &mut Random) -> u32 {
    match random.below(6) {
        0 => random.pick(&[0, 1, 0x0100_0001, 0x0200_0001, 0x0300_0002, 0xffff_ffff]),
        1 => random.below(8) as u32,
        _ => random.word(),
    }
}

fn record_of(random: &mut Random, kind: u16, node_type: u16) -> Vec<u8> {
    journal_record(kind, node_type, operand(random), operand(random))
}

/// A record of kind 4.
fn record_of_unit(random: &mut Random, unit: u64) -> Vec<u8> {
    let node_type = random.pick(&[15, 16]);
    unit_record(node_type, unit, operand(random))
}

/// A record of kind 4, mostly of another unit.
fn record_of_other_unit(random: &mut Random, unit: u64) -> Vec<u8> {
    let other = if random.one_in(8) { random.next() } else { near_unit(random, unit) };
    record_of_unit(random, other)
}

/// A record of any kind and node type.
pub fn any_record(random: &mut Random, wanted: Wanted) -> Vec<u8> {
    if random.one_in(6) {
        return properties::short_record(random);
    }
    if random.one_in(if wanted.scope == 3 { 2 } else { 4 }) {
        return record_of_other_unit(random, wanted.unit);
    }
    let (kind, node_type) = (random.between(1, 3) as u16, random.between(1, 14) as u16);
    record_of(random, kind, node_type)
}

/// A record of this opcode that is reported. An opcode is the kind, but for the updates of scope 3.
fn reported_record(random: &mut Random, wanted: Wanted, opcode: u16) -> Vec<u8> {
    if wanted.scope == 3 {
        return record_of_unit(random, wanted.unit);
    }
    let node_type = random.pick(reported_types(wanted.scope, opcode));
    record_of(random, opcode, node_type)
}

/// A record that is passed over.
fn passed_over_record(random: &mut Random, wanted: Wanted) -> Vec<u8> {
    if random.one_in(6) {
        return properties::short_record(random);
    }
    if random.one_in(2) {
        return record_of_other_unit(random, wanted.unit);
    }
    let reported = reported_types(wanted.scope, 1);
    let passed_over: Vec<u16> = (1..=14).filter(|node_type| !reported.contains(node_type)).collect();
    let node_type = random.pick(&passed_over);
    record_of(random, 1, node_type)
}

/// The opcodes that a scope reports.
fn opcodes_of(scope: u32) -> &'static [u16] {
    if matches!(scope, 2 | 3) {
        &[2]
    } else {
        &[1, 2, 3]
    }
}

/// A few records; about half of them are such as the scope reports.
fn small(random: &mut Random, wanted: Wanted) -> Vec<u8> {
    let number = match random.below(6) {
        0 => random.below(3),
        1..=4 => random.below(12),
        _ => random.below(40),
    };
    let mut journal = Vec::new();
    let mut last = Vec::new();
    for _ in 0..number {
        // "Equal records stay as separate operations."
        if last.is_empty() || !random.one_in(8) {
            last = if random.one_in(2) {
                any_record(random, wanted)
            } else {
                let opcode = random.pick(opcodes_of(wanted.scope));
                reported_record(random, wanted, opcode)
            };
        }
        journal.extend(&last);
    }
    journal
}

/// Deletes and updates that cost about the words of one area, with a few additions behind them.
fn additions_at_the_end(random: &mut Random) -> [usize; 3] {
    let operands = 1019 - random.below(6);
    let deletes = random.pick(&[0, 0, 1, 500]);
    let updates = operands - deletes - if deletes == 0 { 1 } else { 2 };
    [deletes, updates, random.between(1, 3)]
}

/// Numbers of deletes, updates and additions that cost about the words of one area.
fn about_one_area(random: &mut Random, scope: u32) -> [usize; 3] {
    let mut opcodes: Vec<u16> = opcodes_of(scope).to_vec();
    if opcodes.len() == 3 && random.one_in(4) {
        return additions_at_the_end(random);
    }
    random.shuffle(&mut opcodes);
    let present = random.between(1, opcodes.len());
    let mut words = 1030 - random.below(21) - present;
    let mut numbers = [0; 3];
    for (place, &opcode) in opcodes[..present].iter().enumerate() {
        let cost = if opcode == 3 { 2 } else { 1 };
        let most = words / cost;
        let number = if place + 1 == present { most } else { share(random, most) };
        numbers[opcode as usize - 1] = number;
        words -= number * cost;
    }
    // More operations of an opcode that is not there yet, or more of one that is.
    if random.one_in(2) {
        let opcode = random.pick(&opcodes);
        numbers[opcode as usize - 1] += random.between(1, 3);
    }
    numbers
}

fn share(random: &mut Random, most: usize) -> usize {
    match random.below(3) {
        0 => random.between(1, 3).min(most),
        1 => most.saturating_sub(random.between(1, 3)),
        _ => random.between(0, most),
    }
}

/// Numbers of operations that take several areas.
fn several_areas(random: &mut Random, scope: u32) -> [usize; 3] {
    let mut numbers = [0; 3];
    for &opcode in opcodes_of(scope) {
        numbers[opcode as usize - 1] = random.pick(&[0, 1, 600, 1018, 1019, 2036]) + random.below(30);
    }
    numbers
}

/// Reported records in these numbers, in any order, with some that are passed over between.
fn of_numbers(random: &mut Random, wanted: Wanted, numbers: [usize; 3]) -> Vec<u8> {
    let mut opcodes: Vec<u16> = (1..=3).flat_map(|opcode| vec![opcode; numbers[opcode as usize - 1]]).collect();
    if random.one_in(2) {
        random.shuffle(&mut opcodes);
    }
    let passed_over_in = if wanted.scope == 3 { random.pick(&[1, 2, 60]) } else { 60 };
    let mut journal = Vec::new();
    for opcode in opcodes {
        journal.extend(reported_record(random, wanted, opcode));
        if random.one_in(passed_over_in) {
            journal.extend(passed_over_record(random, wanted));
        }
    }
    journal
}

/// 1,048,576 bytes of records exactly, or one record more, or one less.
fn full(random: &mut Random, wanted: Wanted) -> Vec<u8> {
    // 10 bytes for a delete or an update, 14 for an addition, 18 for a record of kind 4.
    let (additions, units) = match random.below(3) {
        0 => (4 + 5 * random.below(14_900), 0),
        1 => (4, 5 * random.below(11_600)),
        _ => (4 + 5 * random.below(8_000), 5 * random.below(5_000)),
    };
    let mut left = [(1_048_576 - 14 * additions - 18 * units) / 10, additions, units];
    match random.below(4) {
        0 => left[0] += 1,
        1 => left[0] -= 1,
        _ => {}
    }
    let mut journal = Vec::new();
    while left != [0, 0, 0] {
        let place = random.below(left[0] + left[1] + left[2]);
        let sort = usize::from(place >= left[0]) + usize::from(place >= left[0] + left[1]);
        left[sort] -= 1;
        journal.extend(match sort {
            0 => {
                let kind = random.between(1, 2) as u16;
                full_record(random, wanted, kind)
            }
            1 => full_record(random, wanted, 3),
            _ if random.one_in(2) => record_of_unit(random, wanted.unit),
            _ => record_of_other_unit(random, wanted.unit),
        });
    }
    journal
}

/// A record of kinds 1 to 3, mostly of a node type that is reported.
fn full_record(random: &mut Random, wanted: Wanted, kind: u16) -> Vec<u8> {
    let types = reported_types(wanted.scope, kind);
    let node_type = if types.is_empty() || random.one_in(20) { 3 } else { random.pick(types) };
    record_of(random, kind, node_type)
}

/// A journal that is well formed, but for a full one that may be oversized.
pub fn journal(random: &mut Random, wanted: Wanted, size: Size) -> Vec<u8> {
    match size {
        Size::Small => small(random, wanted),
        Size::Area => {
            let numbers = about_one_area(random, wanted.scope);
            of_numbers(random, wanted, numbers)
        }
        Size::Areas => {
            let numbers = several_areas(random, wanted.scope);
            of_numbers(random, wanted, numbers)
        }
        Size::Full => full(random, wanted),
    }
}
