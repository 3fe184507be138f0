//! Property areas for the reader.

use super::journals::Size;
use super::properties;
use crate::buffers::{arguments, put_word, word_at};
use crate::case::ReadCase;
use crate::paper;
use crate::random::Random;

pub fn case(random: &mut Random) -> ReadCase {
    let mut area = match random.below(10) {
        0..=2 => written(random),
        _ => built(random),
    };
    if random.one_in(3) {
        damage(random, &mut area);
    }
    if random.one_in(25) {
        area.resize(random.pick(&[0, 1, 15, 16, 20, 4092, 4095, 4097, 4100, 8192]), 0);
    }
    let entries = match paper::readers::read_properties(&area) {
        Ok(properties) => properties.list.len(),
        Err(_) => word_at(&area, 16).map_or(0, |count| (count & 0xf) as usize),
    };
    ReadCase { out: super::room(random, 5 * entries), area }
}

/// An area that update-properties wrote over any bytes.
fn written(random: &mut Random) -> Vec<u8> {
    let size = if random.one_in(3) { Size::Area } else { Size::Small };
    let stock = properties::stock(random, size);
    let mut area = vec![0; 4096];
    random.fill(&mut area[16..]);
    put_word(&mut area, 0, stock.phandle);
    super::call_paper(arguments(4, &[0, 1], &[0]), &mut area, &stock.journal, &[]);
    area
}

/// A name's length, good or on the wrong side of a line.
fn name_length(random: &mut Random) -> usize {
    match random.below(24) {
        0 => 0,
        1 => 32,
        2 => random.between(33, 60),
        3 | 4 => random.pick(&[30, 31, 31]),
        5 => 1,
        _ => random.between(1, 12),
    }
}

/// A descriptor where this many bytes are left behind it.
fn descriptor(random: &mut Random, left: usize) -> u32 {
    let left = left as u32;
    match random.below(32) {
        0..=4 => 0,
        5..=8 => 0x8000_0000,
        9 => left,
        10 => left + 1,
        11 => left.wrapping_neg(),
        12 => (left + 1).wrapping_neg(),
        13 => random.pick(&[0x8000_0001, 0x7fff_ffff, 0xffff_0000, 0x0001_0000, 0x8000_1000]),
        14 => left.saturating_sub(random.between(1, 40) as u32),
        15 => random.between(0, left as usize) as u32,
        16..=20 => (random.between(1, 20) as u32).wrapping_neg(),
        _ => random.between(1, 20) as u32,
    }
}

/// Puts one property at `at`, as far as the area has room; gives where the next one stands.
fn put_property(random: &mut Random, area: &mut [u8], at: usize) -> usize {
    let name = name_length(random).min(4096 - at);
    for byte in &mut area[at..at + name] {
        *byte = random.nonzero_byte();
    }
    let nul = at + name;
    if nul < 4096 && !random.one_in(60) {
        area[nul] = 0;
    }
    let value_at = nul + 5;
    if value_at > 4096 {
        return 4096;
    }
    let descriptor = descriptor(random, 4096 - value_at);
    put_word(area, nul + 1, descriptor);
    let length = if descriptor == 0x8000_0000 { 0 } else { (descriptor as i32).unsigned_abs() as usize };
    (value_at + length).min(4096)
}

/// An area built of properties around the lines.
fn built(random: &mut Random) -> Vec<u8> {
    let mut area = vec![0; 4096];
    random.fill(&mut area);
    area[8..16].fill(0);
    if random.one_in(4) {
        area[..8].fill(0);
    }
    let ends_in = random.pick(&[2, 5, 40]);
    let mut at = if random.one_in(6) { put_last(random, &mut area) } else { 20 };
    let mut properties = u32::from(at > 20);
    while at < 4096 && !random.one_in(ends_in) {
        at = put_property(random, &mut area, at);
        properties += 1;
    }
    let count = match random.below(10) {
        0 => properties + 1,
        1 => properties.saturating_sub(1),
        2 => random.pick(&[0, 1, 0xffff_ffff, 0x8000_0000]),
        _ => properties,
    };
    put_word(&mut area, 16, count);
    area
}

/// A first property that leaves a few bytes, in which a second one is begun.
fn put_last(random: &mut Random, area: &mut [u8]) -> usize {
    let left = random.between(0, 12);
    area[20..22].copy_from_slice(b"a\0");
    let length = (4070 - left) as u32;
    put_word(area, 22, if random.one_in(2) { length } else { length.wrapping_neg() });
    4096 - left
}

fn damage(random: &mut Random, area: &mut [u8]) {
    match random.below(5) {
        0 => {
            let at = if random.one_in(2) { random.between(4, 16) } else { random.pick(&[7, 8, 15]) };
            area[at] = random.nonzero_byte();
        }
        1 => area[random.between(16, 60)] ^= random.nonzero_byte(),
        2 => put_word(area, 16, random.pick(&[0, 1, 2, 679, 680, 0xffff_ffff])),
        3 => area[random.between(20, 60)] = 0,
        _ => {
            let at = random.below(4096);
            area[at] = if random.one_in(2) { 0 } else { random.nonzero_byte() };
        }
    }
}
