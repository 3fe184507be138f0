//! The proved side: libdraugsten_tallies.a over its C interface.

use super::{Keeping, Kept, Recount, Tallied};

pub const KEEPING: Keeping = Keeping { append, join, recount };

extern "C" {
    fn draugsten_tallies_append(
        buffer: *mut u8,
        buffer_len: usize,
        journal: Tallied,
        record: *const u8,
        record_len: usize,
    ) -> Kept;

    fn draugsten_tallies_join(
        buffer: *mut u8,
        buffer_len: usize,
        journal: Tallied,
        part: *const u8,
        part_len: usize,
    ) -> Kept;

    fn draugsten_tallies_recount(journal: *const u8, journal_len: usize) -> Recount;
}

fn append(buffer: &mut [u8], journal: Tallied, record: &[u8]) -> Kept {
    let (bytes, length) = (buffer.as_mut_ptr(), buffer.len());
    // SAFETY: each pointer comes with the length of the slice that it was taken from, and none is kept.
    unsafe { draugsten_tallies_append(bytes, length, journal, record.as_ptr(), record.len()) }
}

fn join(buffer: &mut [u8], journal: Tallied, part: &[u8]) -> Kept {
    let (bytes, length) = (buffer.as_mut_ptr(), buffer.len());
    // SAFETY: as above.
    unsafe { draugsten_tallies_join(bytes, length, journal, part.as_ptr(), part.len()) }
}

fn recount(journal: &[u8]) -> Recount {
    // SAFETY: as above.
    unsafe { draugsten_tallies_recount(journal.as_ptr(), journal.len()) }
}
