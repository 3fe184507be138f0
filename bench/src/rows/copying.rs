//! How fast a session of update-properties copies long values, beside memcpy.

use crate::interface::{Side, SIDES};
use crate::partition::{Partition, AREA_SIZE};
use crate::timing::{medians, Effort, Work};
use std::hint::black_box;

/// The bytes before the first property of an area.
const HEAD: usize = 20;

/// A session over a journal of so many bytes, and the same bytes copied by memcpy, an area's worth at a time; median times
/// in microseconds.
pub struct Copying {
    pub over: String,
    pub bytes: usize,
    pub memcpy: f64,
    pub rust: f64,
    pub proved: f64,
}

pub fn copying(over: &str, journal: &[u8], effort: Effort) -> Copying {
    let [plain, _, library] = &SIDES;
    let session = |side: &'static Side| -> Work {
        let mut partition = Partition::of_properties(journal);
        Box::new(move || partition.session(side))
    };
    let [memcpy, rust, proved] = medians([bare_copies(journal), session(plain), session(library)], effort);
    Copying { over: over.to_string(), bytes: journal.len(), memcpy, rust, proved }
}

/// Copies all bytes into one area, as many at a time as it has room for.
fn bare_copies(journal: &[u8]) -> Work<'_> {
    let mut area = vec![0; AREA_SIZE];
    Box::new(move || {
        for part in black_box(journal).chunks(AREA_SIZE - HEAD) {
            black_box(&mut area)[HEAD..HEAD + part.len()].copy_from_slice(part);
        }
        area[HEAD].into()
    })
}
