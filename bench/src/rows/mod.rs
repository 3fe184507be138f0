//! The rows that are measured, one file for each kind.

pub mod copying;
pub mod dumps;
pub mod get_indices;
pub mod growth;
pub mod intakes;
pub mod locations;
pub mod readers;
pub mod replays;
pub mod scans;
pub mod slowest;
pub mod tallies;
pub mod update_nodes;
pub mod update_properties;

use crate::bare;
use crate::interface::{Side, SIDES};
use crate::timing::{medians, Effort, Work};
use std::hint::black_box;

/// What a row measures, over which bytes. A session goes over them once for each of its calls; so do the bare ways.
pub struct Subject<'a> {
    pub what: &'static str,
    pub over: &'a str,
    pub bytes: &'a [u8],
    pub passes: usize,
    pub stepping: fn(&[u8]) -> u64,
}

/// A row with its median times in microseconds.
pub struct Row {
    pub what: &'static str,
    pub over: String,
    pub bytes: usize,
    pub passes: usize,
    pub streaming: f64,
    pub stepping: f64,
    pub rust: f64,
    pub independent: f64,
    pub proved: f64,
    /// The least and the largest ratio to Rust, over the runs.
    pub ratios: Range,
}

/// The least and the largest of some numbers.
pub type Range = (f64, f64);

pub fn joined(a: Range, b: Range) -> Range {
    (a.0.min(b.0), a.1.max(b.1))
}

impl<'a> Subject<'a> {
    /// Measures what the work does on each side. The independent program is measured after the others: it fills the
    /// caches and the branch predictor with its own, and would slow down the one that follows it.
    pub fn measure(&self, effort: Effort, work: impl Fn(&'static Side) -> Work<'a>) -> Row {
        let [rust, independent, proved] = SIDES.each_ref().map(work);
        let works = [self.bare(bare::streaming), self.bare(self.stepping), rust, proved];
        let [streaming, stepping, rust, proved] = medians(works, effort);
        let [independent] = medians([independent], effort);
        Row {
            what: self.what,
            over: self.over.to_string(),
            bytes: self.bytes.len(),
            passes: self.passes,
            streaming,
            stepping,
            rust,
            independent,
            proved,
            ratios: (proved / rust, proved / rust),
        }
    }

    fn bare(&self, way: fn(&[u8]) -> u64) -> Work<'a> {
        let (bytes, passes) = (self.bytes, self.passes);
        Box::new(move || (0..passes).map(|_| way(black_box(bytes))).fold(0, u64::wrapping_add))
    }
}
