//! The part of the C interface that is `libdraugsten_tallies.a`.

/// How many operations of each opcode a scope holds.
#[repr(C)]
#[derive(Clone, Copy, PartialEq, Eq, Debug)]
pub struct Tally {
    pub deletes: u64,
    pub updates: u64,
    pub additions: u64,
}

/// Negative scopes, scopes 1 and 2, and scope 3 over all units.
#[repr(C)]
#[derive(Clone, Copy, PartialEq, Eq, Debug)]
pub struct Tallies {
    pub negative: Tally,
    pub first: Tally,
    pub second: Tally,
    pub third: Tally,
}

/// The bytes of a buffer in use, and the tallies of the journal that they are. A use beyond the buffer, or a count above
/// the use, is that of no journal.
#[repr(C)]
#[derive(Clone, Copy, PartialEq, Eq, Debug)]
pub struct Tallied {
    pub used: usize,
    pub tallies: Tallies,
}

#[repr(C)]
pub struct Kept {
    pub number: u32,
    pub journal: Tallied,
}

#[repr(C)]
pub struct Recount {
    pub number: u32,
    pub tallies: Tallies,
}

#[repr(C)]
pub struct ForecastAnswer {
    pub status: u32,
    pub next: u64,
}

extern "C" {
    fn draugsten_tallies_cleared() -> Tallied;

    fn draugsten_tallies_append(
        buffer: *mut u8,
        buffer_length: usize,
        journal: Tallied,
        record: *const u8,
        record_length: usize,
    ) -> Kept;

    fn draugsten_tallies_join(
        buffer: *mut u8,
        buffer_length: usize,
        journal: Tallied,
        part: *const u8,
        part_length: usize,
    ) -> Kept;

    fn draugsten_tallies_recount(journal: *const u8, journal_length: usize) -> Recount;

    fn draugsten_forecast(tallies: Tallies, scope: u32, state: u32) -> ForecastAnswer;
}

pub fn cleared() -> Tallied {
    // SAFETY: it takes nothing, and there is no global state.
    unsafe { draugsten_tallies_cleared() }
}

pub fn append(buffer: &mut [u8], journal: Tallied, record: &[u8]) -> Kept {
    // SAFETY: both pointers are slices', with their lengths; `buffer`, which is written, is borrowed by `&mut`.
    unsafe { draugsten_tallies_append(buffer.as_mut_ptr(), buffer.len(), journal, record.as_ptr(), record.len()) }
}

pub fn join(buffer: &mut [u8], journal: Tallied, part: &[u8]) -> Kept {
    // SAFETY: both pointers are slices', with their lengths; `buffer`, which is written, is borrowed by `&mut`.
    unsafe { draugsten_tallies_join(buffer.as_mut_ptr(), buffer.len(), journal, part.as_ptr(), part.len()) }
}

pub fn recount(journal: &[u8]) -> Recount {
    // SAFETY: the pointer is a slice's, with its length.
    unsafe { draugsten_tallies_recount(journal.as_ptr(), journal.len()) }
}

pub fn forecast(tallies: Tallies, scope: u32, state: u32) -> ForecastAnswer {
    // SAFETY: it takes any numbers, and there is no global state.
    unsafe { draugsten_forecast(tallies, scope, state) }
}

/// The sizes and places of fields, which tests/tallies.c holds the header to.
#[cfg(test)]
mod tests {
    use super::{ForecastAnswer, Kept, Recount, Tallied, Tallies, Tally};
    use std::mem::{offset_of, size_of};

    #[test]
    fn the_layout_of_tallies() {
        assert_eq!([size_of::<Tally>(), size_of::<Tallies>()], [24, 96]);
        assert_eq!([offset_of!(Tally, deletes), offset_of!(Tally, updates), offset_of!(Tally, additions)], [0, 8, 16]);
        assert_eq!([offset_of!(Tallies, negative), offset_of!(Tallies, first)], [0, 24]);
        assert_eq!([offset_of!(Tallies, second), offset_of!(Tallies, third)], [48, 72]);
    }

    #[test]
    fn the_layout_of_what_the_functions_give() {
        assert_eq!([size_of::<Tallied>(), size_of::<Kept>()], [104, 112]);
        assert_eq!([size_of::<Recount>(), size_of::<ForecastAnswer>()], [104, 16]);
        assert_eq!([offset_of!(Tallied, used), offset_of!(Tallied, tallies)], [0, 8]);
        assert_eq!([offset_of!(Kept, number), offset_of!(Kept, journal)], [0, 8]);
        assert_eq!([offset_of!(Recount, number), offset_of!(Recount, tallies)], [0, 8]);
        assert_eq!([offset_of!(ForecastAnswer, status), offset_of!(ForecastAnswer, next)], [0, 8]);
    }
}
