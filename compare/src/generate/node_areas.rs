//! Node areas for the reader.

use super::journals::{self, Size};
use crate::buffers::{arguments, put_word, word_at};
use crate::case::{Case, ReadCase};
use crate::paper;
use crate::random::Random;

pub fn case(random: &mut Random) -> Case {
    let (mut area, mut scope) = match random.below(10) {
        0..=2 => written(random),
        _ => built(random),
    };
    // No scope is refused by the reader.
    if random.one_in(6) {
        scope = random.pick(&[0, 1, 2, 3, 4, 0x103, 0x0300_0000, 0x8000_0003, 0xffff_ffff]);
    }
    if random.one_in(3) {
        damage(random, &mut area);
    }
    if random.one_in(25) {
        area.resize(random.pick(&[0, 1, 15, 16, 4092, 4095, 4097, 4100, 8192]), 0);
    }
    let out = room(random, &area, scope);
    Case::ReadNodes { scope, read: ReadCase { area, out } }
}

/// An area that update-nodes wrote over any bytes, and the scope.
fn written(random: &mut Random) -> (Vec<u8>, u32) {
    let wanted = journals::wanted(random);
    let size = if random.one_in(12) { Size::Area } else { Size::Small };
    let journal = journals::journal(random, wanted, size);
    let mut area = vec![0; 4096];
    random.fill(&mut area[16..]);
    area[0..16].copy_from_slice(&wanted.first_bytes());
    super::call_paper(arguments(1, &[0, wanted.scope], &[0]), &mut area, &journal, &[]);
    (area, wanted.scope)
}

/// Operators with no operands, which are passed over whatever their opcode.
const EMPTY: [u32; 6] = [0x0100_0000, 0x0200_0000, 0x0300_0000, 0x0400_0000, 0x8000_0000, 0xff00_0000];

/// One operator, good or on the wrong side of a line, that stands at `at` behind one of `last` opcode.
fn operator(random: &mut Random, at: usize, last: u32) -> u32 {
    let left = ((4096 - at - 4) / 4) as u32;
    let opcode = match random.below(24) {
        0 => random.pick(&[0, 4, 4, 5, 0x80, 0xff]),
        1 | 2 => random.between(1, 3) as u32,
        _ => random.between(last.max(1) as usize, 3) as u32,
    };
    let count = match random.below(24) {
        0 => 0,
        1 => left,
        2 => left.saturating_sub(1),
        3 => left + 1,
        4 => left + 2,
        5 => random.pick(&[0xff_ffff, 0x80_0000, 0x40_0000, 0x40_0002, left + 1000]),
        6 | 7 => random.between(1, left.max(1) as usize) as u32,
        _ => random.between(1, 9) as u32,
    };
    let odd_addition = opcode == 3 && count % 2 == 1 && !random.one_in(6);
    opcode << 24 | if odd_addition { count + 1 } else { count } & 0xff_ffff
}

/// An area built of operators around the lines, and its scope; the terminator comes by chance, or never.
fn built(random: &mut Random) -> (Vec<u8>, u32) {
    let wanted = journals::wanted(random);
    let mut area = vec![0; 4096];
    random.fill(&mut area);
    area[4..16].copy_from_slice(&wanted.first_bytes()[4..]);
    if random.one_in(2) {
        area[0..4].fill(0);
    }
    let ends_in = random.pick(&[2, 5, 1000]);
    let empty_in = random.pick(&[2, 8, 1000]);
    let mut at = 16;
    let mut last = 0;
    while at < 4096 {
        if random.one_in(ends_in) {
            put_word(&mut area, at, 0);
            break;
        }
        if random.one_in(empty_in) {
            put_word(&mut area, at, random.pick(&EMPTY));
            at += 4;
            continue;
        }
        let operator = operator(random, at, last);
        put_word(&mut area, at, operator);
        last = last.max((operator >> 24).min(3));
        at += 4 + 4 * (operator & 0xff_ffff) as usize;
    }
    (area, wanted.scope)
}

fn damage(random: &mut Random, area: &mut [u8]) {
    match random.below(4) {
        0 => {
            let at = if random.one_in(2) { random.between(4, 15) } else { random.pick(&[4, 11, 12, 15]) };
            area[at] = random.nonzero_byte();
        }
        1 => area[random.between(16, 40)] ^= random.nonzero_byte(),
        2 => {
            let at = 16 + 4 * random.below(8);
            put_word(area, at, random.pick(&[0, 1, 0x0100_0000, 0x0100_0001, 0x0300_0001, 0x0400_0000, 0x0500_0001]));
        }
        _ => {
            let at = 4 * random.below(1024);
            put_word(area, at, random.word());
        }
    }
}

/// Room for all entries, a number less or more, nothing, or much.
fn room(random: &mut Random, area: &[u8], scope: u32) -> usize {
    let entries = match paper::readers::read_nodes(area, u64::from(scope)) {
        Ok(nodes) => nodes.operations.len(),
        Err(_) => word_at(area, 16).map_or(0, |word| (word & 0xff) as usize),
    };
    super::room(random, 3 * entries)
}
