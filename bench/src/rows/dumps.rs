//! The run of a dump that copies one long section, beside memmove of the same bytes in the same memory.

use super::Range;
use crate::dump::{registered, Section, PARTITION, PLATFORM};
use crate::interface::Registration;
use crate::library;
use crate::timing::{medians, Effort, Work};
use std::cell::RefCell;
use std::hint::black_box;

/// The bytes that a section copies.
const LENGTH: usize = 64 << 20;

/// A distance of the destination from its source that is short beside the length.
const PAGE: usize = 4096;

/// The sections that are measured, each with its name.
pub const SECTIONS: [(&str, Section); 6] = [
    ("partition memory, apart", Section { kind: PARTITION, source: 0, length: LENGTH, destination: LENGTH }),
    ("behind its source by 1", Section { kind: PARTITION, source: 0, length: LENGTH, destination: 1 }),
    ("behind its source by 4,096", Section { kind: PARTITION, source: 0, length: LENGTH, destination: PAGE }),
    ("before its source by 1", Section { kind: PARTITION, source: 1, length: LENGTH, destination: 0 }),
    ("before its source by 4,096", Section { kind: PARTITION, source: PAGE, length: LENGTH, destination: 0 }),
    ("platform memory", Section { kind: PLATFORM, source: 0, length: LENGTH, destination: 0 }),
];

/// A section, with the median times in microseconds.
pub struct Dumped {
    pub over: &'static str,
    pub bytes: usize,
    pub memmove: f64,
    pub proved: f64,
    /// The least and the largest ratio to memmove, over the runs.
    pub ratios: Range,
}

pub fn dumps(effort: Effort) -> Vec<Dumped> {
    SECTIONS.iter().map(|(over, section)| dumped(over, *section, effort)).collect()
}

fn dumped(over: &'static str, section: Section, effort: Effort) -> Dumped {
    let memory = RefCell::new(section.memory());
    let platform = section.platform();
    let [memmove, proved] =
        medians([moving(&memory, &platform, section), running(&memory, &platform, section)], effort);
    Dumped { over, bytes: section.length, memmove, proved, ratios: (proved / memmove, proved / memmove) }
}

/// Moves the bytes.
fn moving<'a>(memory: &'a RefCell<Vec<u8>>, platform: &'a [u8], section: Section) -> Work<'a> {
    Box::new(move || {
        let mut memory = memory.borrow_mut();
        section.move_bytes(black_box(&mut memory), black_box(platform));
        memory[section.destination].into()
    })
}

/// Runs the dump of the section.
fn running<'a>(memory: &'a RefCell<Vec<u8>>, platform: &'a [u8], section: Section) -> Work<'a> {
    let registration: Registration = registered(&section);
    Box::new(move || {
        let mut memory = memory.borrow_mut();
        let run = library::run_dump(black_box(registration), black_box(&mut memory), black_box(platform));
        assert_eq!((run.number, run.status, run.registration.phase), (0, 0, 2));
        memory[section.destination].into()
    })
}
