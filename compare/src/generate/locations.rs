//! Index areas, fixed lists and indices for lookups and views (M-112). Much of it lies about a line.

use super::inventories;
use crate::buffers::{put_word, words};
use crate::library::locations::Cursor;
use crate::locations::case::LocationsCase;
use crate::paper;
use crate::random::Random;

/// The library counts NULs in blocks of so many bytes.
const BLOCK: usize = 64;

/// An area, and where its sets begin.
struct Built {
    area: Vec<u8>,
    places: Vec<usize>,
}

pub fn case(random: &mut Random) -> LocationsCase {
    match random.below(8) {
        0..=3 => lookup(random),
        4 | 5 => {
            let damaged = random.one_in(2);
            LocationsCase::View { area: area(random, damaged).area, beyond: random.below(6) }
        }
        _ => step(random),
    }
}

fn lookup(random: &mut Random) -> LocationsCase {
    let damaged = random.one_in(4);
    let Built { area, places } = if random.one_in(4) { no_sets() } else { area(random, damaged) };
    let fixed = fixed_list(random);
    let index = match random.below(12) {
        0..=4 if !places.is_empty() => listed(random, &area, &places),
        5 => u32::MAX,
        6 => random.word(),
        _ => entry_number(random, &fixed),
    };
    LocationsCase::Lookup { area, fixed, index }
}

/// An index that the area lists, as far as damage left it.
fn listed(random: &mut Random, area: &[u8], places: &[usize]) -> u32 {
    let place = random.pick(places);
    area.get(place..place + 4).map_or(0, |index| paper::words::big(index) as u32)
}

/// The number of an entry: the first, the last, any, or one behind the last.
fn entry_number(random: &mut Random, fixed: &[u8]) -> u32 {
    let entries = paper::locations::fixed_entries(fixed).len();
    let number = match random.below(6) {
        0 => 0,
        1 => entries.saturating_sub(1),
        2 => entries + random.below(2),
        _ => random.between(0, entries),
    };
    number as u32
}

/// An index of a set: few, so that some come twice and some are entries of the fixed list.
fn index(random: &mut Random) -> u32 {
    match random.below(12) {
        0 => u32::MAX,
        1 => random.pick(&[u32::MAX - 1, 1 << 31, 0x0100_0000, 256]),
        2 => random.word(),
        _ => random.below(10) as u32,
    }
}

fn no_sets() -> Built {
    Built { area: words(&[0]), places: Vec::new() }
}

/// A good area, or one with one thing wrong.
fn area(random: &mut Random, damaged: bool) -> Built {
    let sets = match random.below(12) {
        0 => 0,
        1 => random.between(10, 60),
        _ => random.between(1, 8),
    };
    let mut built = Built { area: words(&[sets as u32]), places: Vec::new() };
    for _ in 0..sets {
        let code = inventories::code(random);
        let padded = 4 * (code.len() / 4 + 1);
        built.places.push(built.area.len());
        built.area.extend(words(&[index(random), padded as u32]));
        built.area.extend(&code);
        built.area.resize(built.area.len() + padded - code.len(), 0);
    }
    if random.one_in(3) {
        let mut tail = vec![0; random.between(1, 30)];
        random.fill(&mut tail);
        built.area.extend(tail);
    }
    if damaged {
        damage(random, &mut built);
    }
    built
}

/// Damages the count, or a field of one of the sets.
fn damage(random: &mut Random, built: &mut Built) {
    let Built { area, places } = built;
    if places.is_empty() || random.one_in(8) {
        let count = places.len() as u32;
        let other = random.pick(&[count + 1, count.saturating_sub(1), count + 200, u32::MAX, 1 << 31]);
        return put_word(area, 0, other);
    }
    let at = random.pick(places);
    let length = paper::words::word(area, at + 4) as usize;
    match random.below(8) {
        0 => area.truncate(random.between(at, at + 8)),
        1 => area.truncate(random.between(at, at + 8 + length - 1)),
        2 => area.truncate(random.below(6)),
        3 => put_word(area, at + 4, random.pick(&[0, 1, 2, 3, 1023, 1025, 1028, 0x8000_0004, u32::MAX - 3])),
        4 => put_word(area, at + 4, (length + 4) as u32),
        5 => put_word(area, at + 4, (length as u32).wrapping_add_signed(random.pick(&[-4, -1, 1, 2]))),
        6 => area[at + 8 + random.below(length)] = 0,
        _ => area[at + 8 + length - random.between(1, 4).min(length)] = random.nonzero_byte(),
    }
}

/// The bytes of an entry that begins so far behind the list's front; some end with a block, or about there.
fn entry_length(random: &mut Random, from: usize) -> usize {
    match random.below(18) {
        0..=3 => 0,
        4 => random.between(BLOCK - 3, BLOCK + 2),
        5 => random.between(2 * BLOCK - 3, 2 * BLOCK + 2),
        6 => random.pick(&[1022, 1023, 1024, 1025, 5000]),
        7 => random.between(1, 300),
        8 | 9 => (BLOCK - 1 - from % BLOCK).saturating_sub(random.below(3)),
        _ => random.between(1, 12),
    }
}

/// Codes with their NULs; some empty, some long, the last at times without its NUL.
fn fixed_list(random: &mut Random) -> Vec<u8> {
    let entries = match random.below(10) {
        0 => 0,
        1 => random.between(20, 150),
        _ => random.between(1, 12),
    };
    let mut list = Vec::new();
    for _ in 0..entries {
        let from = list.len();
        list.resize(from + entry_length(random, from), 0);
        random.fill(&mut list[from..]);
        list[from..].iter_mut().for_each(|byte| *byte = (*byte).max(1));
        list.push(0);
    }
    match random.below(8) {
        0 | 1 => list.truncate(list.len().saturating_sub(1)),
        2 => end_with_block(&mut list),
        3 => list.truncate(random.between(0, list.len())),
        4 => list.extend(vec![0; random.between(1, 2 * BLOCK)]),
        _ => {}
    }
    list
}

/// Makes the last entry end with a block.
fn end_with_block(list: &mut Vec<u8>) {
    list.pop();
    list.resize((list.len() + 1).next_multiple_of(BLOCK) - 1, b'e');
    list.push(0);
}

/// A place far out of range; often so near the top that a word behind it would wrap.
fn far(random: &mut Random) -> u64 {
    match random.below(4) {
        0 => random.pick(&[1 << 63, (1 << 32) + 4]),
        1 => random.next(),
        _ => u64::MAX - random.below(17) as u64,
    }
}

/// One step from a cursor at a set, near one, near the end, or far out of range.
fn step(random: &mut Random) -> LocationsCase {
    let damaged = random.one_in(3);
    let Built { area, places } = area(random, damaged);
    let end = area.len() as u64;
    let at = match random.below(8) {
        0..=2 if !places.is_empty() => random.pick(&places) as u64,
        3 if !places.is_empty() => random.pick(&places) as u64 + random.below(9) as u64,
        4 => end.saturating_sub(random.below(14) as u64),
        5 => end + random.below(10) as u64,
        6 => far(random),
        _ => random.below(area.len() + 1) as u64,
    };
    let left = match random.below(8) {
        0 => 0,
        1 => u64::MAX,
        2 => u64::from(u32::MAX),
        3 => random.next(),
        _ => random.between(1, 3) as u64,
    };
    LocationsCase::Step { area, cursor: Cursor { at, left } }
}
