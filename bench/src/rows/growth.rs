//! How a session of update-nodes grows with the journal.

use crate::inputs::SCOPE_1;
use crate::interface::{Side, SIDES};
use crate::journal;
use crate::partition::Partition;
use crate::timing::{medians, Effort, Work};

pub const SIZES: [usize; 4] = [64 << 10, 256 << 10, 512 << 10, 1 << 20];

/// A session over a journal of so many bytes and reportable operations, with its median times in microseconds.
pub struct Growth {
    pub bytes: usize,
    pub operations: u64,
    pub calls: u64,
    pub rust: f64,
    pub proved: f64,
}

/// Sessions over mixed journals of four sizes.
pub fn growth(effort: Effort) -> Vec<Growth> {
    SIZES.iter().map(|&size| over(&journal::mixed(size), effort)).collect()
}

fn over(journal: &[u8], effort: Effort) -> Growth {
    let [plain, _, library] = &SIDES;
    let session = |side: &'static Side| -> Work {
        let mut partition = Partition::of_journal(journal, SCOPE_1);
        Box::new(move || partition.session(side))
    };
    let [rust, proved] = medians([session(plain), session(library)], effort);
    let operations = (plain.scan_journal)(journal, SCOPE_1);
    let calls = Partition::of_journal(journal, SCOPE_1).session(plain);
    Growth { bytes: journal.len(), operations, calls, rust, proved }
}

/// The nanoseconds of a session for each of its operations.
pub fn each(growth: &Growth, session: f64) -> f64 {
    1e3 * session / growth.operations as f64
}
