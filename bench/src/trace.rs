//! The traces that are replayed: sessions of a partition, recorded, and bytes of memory that are set.

use crate::interface::{Replayed, SIDES};
use crate::partition::{Partition, AREA_AT};

/// The kinds of a trace's records.
const BEFORE: u16 = 32;
const AFTER: u16 = 33;
const MEMORY: u16 = 34;

/// The bytes that a record sets at the most.
pub const PAGE: usize = 4096;

fn push(trace: &mut Vec<u8>, kind: u16, body: &[&[u8]]) {
    let length: usize = body.iter().map(|part| part.len()).sum();
    trace.extend((length as u16 + 2).to_le_bytes());
    trace.extend(kind.to_le_bytes());
    body.iter().for_each(|part| trace.extend(*part));
}

/// Sessions of a partition, one after the other, and their trace.
pub struct Recorded<'a> {
    /// As it was before the first.
    pub partition: Partition<'a>,
    pub sessions: usize,
    pub calls: u64,
    pub trace: Vec<u8>,
}

impl<'a> Recorded<'a> {
    pub fn new(partition: Partition<'a>, sessions: usize) -> Recorded<'a> {
        let mut recorded = Recorded { partition: partition.clone(), sessions, calls: 0, trace: Vec::new() };
        let mut own = partition;
        for _ in 0..sessions {
            recorded.record(&mut own);
        }
        recorded
    }

    /// The sixteen bytes that the area begins with, and the calls of one session.
    fn record(&mut self, own: &mut Partition) {
        own.begin_session();
        push(&mut self.trace, MEMORY, &[&(AREA_AT as u32).to_le_bytes(), &own.area()[..16]]);
        loop {
            push(&mut self.trace, BEFORE, &[&own.args]);
            own.call(&SIDES[0]);
            push(&mut self.trace, AFTER, &[&own.args]);
            self.calls += 1;
            if own.status() != 1 {
                return;
            }
            own.carry_on();
        }
    }

    /// What is replayed, in bursts of so many bytes.
    pub fn replayed(&self, burst: usize) -> Replayed<'_> {
        let Partition { journal, inventory, edition, .. } = self.partition;
        Replayed { journal, inventory, edition, trace: &self.trace, burst }
    }
}

/// A trace of records that set a page each, one behind the other.
pub fn pages(records: usize) -> Vec<u8> {
    let mut trace = Vec::new();
    for record in 0..records {
        let bytes: Vec<u8> = (0..PAGE).map(|at| (record + 7 * at) as u8).collect();
        push(&mut trace, MEMORY, &[&((PAGE * record) as u32).to_le_bytes(), &bytes]);
    }
    trace
}

/// The bytes that the records of such a trace set.
pub fn set_bytes(trace: &[u8]) -> impl Iterator<Item = &[u8]> {
    trace.chunks_exact(8 + PAGE).map(|record| &record[8..])
}
