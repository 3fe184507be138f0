//! A journal that arrives in bursts, beside Rust that keeps a vector, and in one burst beside its scan and memcpy.

use super::Range;
use crate::inputs::SCOPE_1;
use crate::intakes::{Received, Receiver, PROVED};
use crate::interface::{LIMIT, SIDES};
use crate::journal;
use crate::plain::intakes as plain;
use crate::timing::{medians, Effort, Work};
use std::hint::black_box;

/// The bytes of a burst.
pub const BURSTS: [usize; 4] = [1, 64, 4_096, 1_048_576];

/// The journals that arrive, with their names.
pub fn journals() -> [(&'static str, Vec<u8>); 4] {
    [
        ("uniform", journal::uniform(LIMIT)),
        ("kinds 1 to 4", journal::four_kinds(LIMIT)),
        ("200-byte values", journal::properties(200)),
        ("32,768-byte values", journal::properties(32_768)),
    ]
}

/// A full journal in bursts of so many bytes, with the median times in microseconds.
pub struct Bursts {
    pub over: &'static str,
    pub bytes: usize,
    pub burst: usize,
    pub rust: f64,
    pub proved: f64,
    /// The least and the largest ratio, over the runs.
    pub ratios: Range,
}

/// A full journal in one burst, beside its scan and memcpy of its bytes.
pub struct Whole {
    pub over: &'static str,
    pub bytes: usize,
    pub scan: f64,
    pub memcpy: f64,
    pub proved: f64,
    /// The least and the largest ratio to both together, over the runs.
    pub ratios: Range,
}

impl Whole {
    /// The time of the scan and of memcpy together.
    pub fn both(&self) -> f64 {
        self.scan + self.memcpy
    }
}

/// What is measured of intakes.
pub struct Intakes {
    pub bursts: Vec<Bursts>,
    pub wholes: Vec<Whole>,
}

pub fn intakes(effort: Effort) -> Intakes {
    let journals = journals();
    let pairs = journals.iter().flat_map(|journal| BURSTS.map(|burst| (journal, burst)));
    let bursts = pairs.map(|((over, journal), burst)| in_bursts(over, journal, burst, effort)).collect();
    let wholes = journals.iter().map(|(over, journal)| in_one(over, journal, effort)).collect();
    Intakes { bursts, wholes }
}

/// A whole journal in bursts, which leaves all of its bytes in use.
fn arriving<'a>(mut receiver: impl Receiver + 'a, journal: &'a [u8], burst: usize) -> Work<'a> {
    Box::new(move || {
        receiver.restart();
        for bytes in black_box(journal).chunks(burst) {
            receiver.burst(bytes);
        }
        let left = receiver.left();
        assert_eq!((left.used, left.fault), (journal.len(), 0));
        left.number
    })
}

fn in_bursts(over: &'static str, journal: &[u8], burst: usize, effort: Effort) -> Bursts {
    let works = [
        arriving(plain::Received::new(LIMIT), journal, burst),
        arriving(Received::new(&PROVED, LIMIT), journal, burst),
    ];
    let [rust, proved] = medians(works, effort);
    Bursts { over, bytes: journal.len(), burst, rust, proved, ratios: (proved / rust, proved / rust) }
}

fn in_one(over: &'static str, journal: &[u8], effort: Effort) -> Whole {
    let mut copy = vec![0; LIMIT];
    let works: [Work; 3] = [
        Box::new(move || (SIDES[2].scan_journal)(black_box(journal), SCOPE_1)),
        Box::new(move || {
            black_box(&mut copy)[..journal.len()].copy_from_slice(black_box(journal));
            copy[0].into()
        }),
        arriving(Received::new(&PROVED, LIMIT), journal, journal.len()),
    ];
    let [scan, memcpy, proved] = medians(works, effort);
    let ratio = proved / (scan + memcpy);
    Whole { over, bytes: journal.len(), scan, memcpy, proved, ratios: (ratio, ratio) }
}
