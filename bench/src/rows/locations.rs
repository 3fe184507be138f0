//! Lookups of location codes: the last entry of an area, and the last of a fixed list.

use super::Range;
use crate::locations::{area, fixed_list, CODES, NO_ENTRIES, PROVED};
use crate::plain::locations as plain;
use crate::report::grouped;
use crate::timing::{medians, Effort, Work};
use std::hint::black_box;

/// The most that a lookup may take beside Rust.
pub const ALLOWED: f64 = 0.7;

/// A lookup with its median times in microseconds.
pub struct Located {
    pub what: &'static str,
    pub over: String,
    pub bytes: usize,
    pub rust: f64,
    pub proved: f64,
    /// The least and the largest ratio to Rust, over the runs.
    pub ratios: Range,
}

pub fn locations(effort: Effort) -> Vec<Located> {
    let in_area = CODES.map(|length| {
        let (area, index) = area(length);
        located("the last entry of an area", length, area.len(), [&area, &[]], index, effort)
    });
    let in_fixed = CODES.map(|length| {
        let (fixed, index) = fixed_list(length);
        located("the last entry of a fixed list", length, fixed.len(), [&NO_ENTRIES, &fixed], index, effort)
    });
    in_area.into_iter().chain(in_fixed).collect()
}

/// The lookup of an index in an area and a fixed list, of which one has so many bytes and codes of this length.
fn located(
    what: &'static str,
    length: usize,
    bytes: usize,
    [area, fixed]: [&[u8]; 2],
    index: u32,
    effort: Effort,
) -> Located {
    let works = [plain::lookup, PROVED].map(|lookup| -> Work {
        Box::new(move || lookup(black_box(area), black_box(fixed), black_box(index)).offset as u64)
    });
    let [rust, proved] = medians(works, effort);
    let over = format!("{}-byte codes", grouped(length as u64));
    Located { what, over, bytes, rust, proved, ratios: (proved / rust, proved / rust) }
}
