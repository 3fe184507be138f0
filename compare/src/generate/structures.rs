//! Kernel dump structures: good ones, and such as break exactly one rule.

use super::memories::gap;
use crate::buffers::put_word;
use crate::random::Random;

/// A structure and where its parts stand.
pub struct Structure {
    pub bytes: Vec<u8>,
    sections: usize,
    first: usize,
    /// The path's first byte and its NUL, with a disk.
    path: Option<(usize, usize)>,
}

impl Structure {
    fn sections_end(&self) -> usize {
        self.first + 40 * self.sections
    }

    fn put_short(&mut self, at: usize, value: u16) {
        self.bytes[at..at + 2].copy_from_slice(&value.to_be_bytes());
    }

    /// The offsets of the sections.
    pub fn section_places(&self) -> Vec<usize> {
        (0..self.sections).map(|number| self.first + 40 * number).collect()
    }

    /// Gives a section another type, source, requested length and destination.
    pub fn put_section(&mut self, at: usize, kind: u16, [source, requested, destination]: [u64; 3]) {
        self.put_short(at + 4, kind);
        for (place, number) in [(8, source), (16, requested), (32, destination)] {
            self.bytes[at + place..at + place + 8].copy_from_slice(&number.to_be_bytes());
        }
    }

    /// The offset of one of the sections.
    fn one_section(&self, random: &mut Random) -> usize {
        self.first + 40 * random.below(self.sections)
    }
}

/// A structure with gaps of any length, which may hold anything, between its parts.
pub fn good(random: &mut Random) -> Structure {
    let sections = if random.one_in(5) { 10 } else { random.between(1, 10) };
    let room = 512 - 40 - 40 * sections;
    let mut structure = Structure { bytes: Vec::new(), sections, first: 40, path: None };
    let length = if random.one_in(2) {
        place_without_disk(random, &mut structure, room)
    } else {
        place_with_disk(random, &mut structure, room)
    };
    structure.bytes = vec![0; length];
    random.fill(&mut structure.bytes);
    write_header(random, &mut structure);
    for number in 0..sections {
        write_section(random, &mut structure, number);
    }
    write_path(random, &mut structure);
    structure
}

/// Chooses the offset of the sections; gives the length.
fn place_without_disk(random: &mut Random, structure: &mut Structure, room: usize) -> usize {
    let before = if random.one_in(6) { room } else { gap(random, room) };
    let after = if random.one_in(6) { room - before } else { gap(random, room - before) };
    structure.first = 40 + before;
    structure.sections_end() + after
}

/// Chooses the offsets of the sections and of the path, before or after them; gives the length.
fn place_with_disk(random: &mut Random, structure: &mut Structure, room: usize) -> usize {
    let path = if random.one_in(3) { 1 } else { random.between(1, (room - 1).min(40)) };
    let mut left = room - path - 1;
    let gaps = [0; 3].map(|_| {
        let chosen = gap(random, left);
        left -= chosen;
        chosen
    });
    if random.one_in(2) {
        let start = 40 + gaps[0];
        structure.path = Some((start, start + path));
        structure.first = start + path + 1 + gaps[1];
        structure.sections_end() + gaps[2]
    } else {
        structure.first = 40 + gaps[0];
        let start = structure.sections_end() + gaps[1];
        structure.path = Some((start, start + path));
        start + path + 1 + gaps[2]
    }
}

fn write_header(random: &mut Random, structure: &mut Structure) {
    put_word(&mut structure.bytes, 0, 1);
    structure.put_short(4, structure.sections as u16);
    structure.put_short(6, 0);
    put_word(&mut structure.bytes, 8, structure.first as u32);
    match structure.path {
        None => structure.bytes[12..36].fill(0),
        Some((start, _)) => {
            let block_size = random.pick(&[1, 512, 4096, 0x0100_0000, 0x8000_0000, 0xffff_ffff]);
            put_word(&mut structure.bytes, 12, block_size);
            put_word(&mut structure.bytes, 32, start as u32);
        }
    }
    if random.one_in(4) {
        structure.bytes[36..40].fill(0);
    }
}

fn write_section(random: &mut Random, structure: &mut Structure, number: usize) {
    let at = structure.first + 40 * number;
    let request = if structure.path.is_none() { 1 } else { random.below(2) as u32 };
    put_word(&mut structure.bytes, at, request);
    let kind = match random.below(3) {
        0 => random.pick(&[0x100, 0x101, 0x1100, 0xffff]),
        1 => 0x100 + random.below(0xff00) as u16,
        _ => random.pick(&[1, 2, 0x11, 0x12]),
    };
    structure.put_short(at + 4, kind);
    structure.put_short(at + 6, 0);
    structure.bytes[at + 24..at + 32].fill(0);
}

fn write_path(random: &mut Random, structure: &mut Structure) {
    if let Some((start, nul)) = structure.path {
        for at in start..nul {
            structure.bytes[at] = random.nonzero_byte();
        }
        structure.bytes[nul] = 0;
    }
}

/// Breaks one rule of a good structure; one that was cut off before stays as it is.
pub fn break_one_rule(random: &mut Random, structure: &mut Structure) {
    if structure.bytes.len() < structure.sections_end() {
        return;
    }
    match random.below(7) {
        0 => break_header(random, structure),
        1 => break_offset(random, structure),
        2 | 3 => break_section(random, structure),
        _ if structure.path.is_none() => break_no_disk(random, structure),
        _ => break_path(random, structure),
    }
}

fn break_header(random: &mut Random, structure: &mut Structure) {
    match random.below(4) {
        0 => put_word(&mut structure.bytes, 0, random.pick(&[0, 2, 0x101, 0x0100_0000, 0x8000_0001, 0xffff_ffff])),
        1 => structure.put_short(4, random.pick(&[0, 11, 12, 0x100, 0x101, 0xffff])),
        2 => structure.put_short(4, random.pick(&[0, 11])),
        _ => structure.put_short(6, 1 << random.below(16)),
    }
}

/// Breaks "from an offset of at least 40 and end within the length".
fn break_offset(random: &mut Random, structure: &mut Structure) {
    let length = structure.bytes.len();
    let past = (length - 40 * structure.sections + 1) as u32;
    match random.below(6) {
        0 => {
            let sections = structure.bytes[structure.first..structure.sections_end()].to_vec();
            structure.bytes[39..39 + sections.len()].copy_from_slice(&sections);
            put_word(&mut structure.bytes, 8, 39);
        }
        1 => put_word(&mut structure.bytes, 8, random.pick(&[0, 1, 8, 36, 39])),
        2 => put_word(&mut structure.bytes, 8, past),
        3 => put_word(&mut structure.bytes, 8, 0u32.wrapping_sub(random.between(1, 400) as u32)),
        4 => put_word(&mut structure.bytes, 8, random.pick(&[0x7fff_ffff, 0x8000_0000, 0xffff_ffff, 0x1_0028])),
        _ => structure.bytes.truncate(structure.sections_end() - 1),
    }
}

fn break_section(random: &mut Random, structure: &mut Structure) {
    let at = structure.one_section(random);
    match random.below(5) {
        0 => put_word(&mut structure.bytes, at, random.pick(&[2, 2, 3, 0x100, 0x0100_0000, 0x8000_0001, 0xffff_ffff])),
        1 | 2 => structure.put_short(at + 4, random.pick(&[0, 3, 0x10, 0x13, 0xff, 0x21])),
        3 => structure.put_short(at + 6, 1 << random.below(16)),
        _ => structure.bytes[at + 24 + random.below(8)] = random.nonzero_byte(),
    }
}

fn break_no_disk(random: &mut Random, structure: &mut Structure) {
    match random.below(4) {
        0 => structure.bytes[16 + random.below(8)] = random.nonzero_byte(),
        1 => structure.bytes[24 + random.below(8)] = random.nonzero_byte(),
        2 => put_word(&mut structure.bytes, 32, random.pick(&[1, 40, 40, 400, 0xffff_ffff])),
        _ => {
            let at = structure.one_section(random);
            put_word(&mut structure.bytes, at, 0);
        }
    }
}

fn break_path(random: &mut Random, structure: &mut Structure) {
    let Some((start, nul)) = structure.path else {
        return;
    };
    let length = structure.bytes.len();
    match random.below(9) {
        0 => {
            // A non-empty path from byte 39 on: the milliseconds' last byte and what follows.
            structure.bytes[39] = random.nonzero_byte();
            put_word(&mut structure.bytes, 32, 39);
        }
        1 => put_word(&mut structure.bytes, 32, random.pick(&[0, 1, 8, 39])),
        2 => structure.bytes[start] = 0,
        3 => fill_path(structure, nul, length),
        4 => put_word(&mut structure.bytes, 32, (length + random.pick(&[0, 1, 100])) as u32),
        5 => put_word(&mut structure.bytes, 32, random.pick(&[0x8000_0000, 0xffff_ffff, 0xffff_fff0, 0x1_0028])),
        6 => path_into_sections(random, structure, start, nul),
        _ => path_from_sections(random, structure),
    }
}

/// Leaves no NUL from the path on.
fn fill_path(structure: &mut Structure, nul: usize, length: usize) {
    for at in nul..length {
        if structure.bytes[at] == 0 {
            structure.bytes[at] = b'/';
        }
    }
}

/// A path before the sections runs into them: the first section's request flags begin with a NUL.
fn path_into_sections(random: &mut Random, structure: &mut Structure, start: usize, nul: usize) {
    if start > structure.first {
        return path_from_sections(random, structure);
    }
    fill_path(structure, nul, structure.first);
}

/// A path that starts inside the sections, or on their last byte.
fn path_from_sections(random: &mut Random, structure: &mut Structure) {
    let section = structure.one_section(random);
    let start = match random.below(3) {
        0 => section + random.pick(&[8, 15, 16, 23]),
        _ => structure.sections_end() - 1,
    };
    structure.bytes[start] = random.nonzero_byte();
    put_word(&mut structure.bytes, 32, start as u32);
}
