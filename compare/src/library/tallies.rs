//! The C interface of the tallies and of forecasts.

#[cfg(not(feature = "without-library"))]
use super::Library;
#[cfg(not(feature = "without-library"))]
use crate::tallies::subject::Keeping;

/// The counts of negative scopes, of scopes 1 and 2, and of scope 3; each deletes, updates, additions.
#[repr(C)]
#[derive(Clone, Copy, PartialEq, Eq, Debug)]
pub struct Tallies {
    pub rows: [[u64; 3]; 4],
}

impl Tallies {
    pub const ZERO: Tallies = Tallies { rows: [[0; 3]; 4] };
}

/// The bytes in use, and the tallies.
#[repr(C)]
#[derive(Clone, Copy, PartialEq, Eq, Debug)]
pub struct Tallied {
    pub used: u64,
    pub tallies: Tallies,
}

impl Tallied {
    pub const EMPTY: Tallied = Tallied { used: 0, tallies: Tallies::ZERO };

    pub fn text(&self) -> String {
        format!("{} bytes in use, tallies {:?}", self.used, self.tallies.rows)
    }
}

/// What an operation gives back. The rule that refused it is told by the paper's side only.
#[derive(Clone, Copy, Debug)]
pub struct Kept {
    pub number: u32,
    pub journal: Tallied,
    pub rule: &'static str,
}

/// What a recount gives back.
#[repr(C)]
#[derive(Clone, Copy, PartialEq, Eq, Debug)]
pub struct Recount {
    pub number: u32,
    pub tallies: Tallies,
}

/// What a forecast gives back.
#[repr(C)]
#[derive(Clone, Copy, PartialEq, Eq, Debug)]
pub struct Forecast {
    pub status: u32,
    pub next: u64,
}

#[cfg(not(feature = "without-library"))]
mod functions {
    //! The types and functions of include/draugsten.h.

    use super::{Forecast, Recount, Tallied, Tallies};

    #[repr(C)]
    pub struct Kept {
        pub number: u32,
        pub journal: Tallied,
    }

    extern "C" {
        pub fn draugsten_tallies_cleared() -> Tallied;

        pub fn draugsten_tallies_append(
            buffer: *mut u8,
            buffer_len: usize,
            journal: Tallied,
            record: *const u8,
            record_len: usize,
        ) -> Kept;

        pub fn draugsten_tallies_join(
            buffer: *mut u8,
            buffer_len: usize,
            journal: Tallied,
            part: *const u8,
            part_len: usize,
        ) -> Kept;

        pub fn draugsten_tallies_recount(journal: *const u8, journal_len: usize) -> Recount;

        pub fn draugsten_forecast(tallies: Tallies, scope: u32, state: u32) -> Forecast;
    }
}

#[cfg(not(feature = "without-library"))]
impl From<functions::Kept> for Kept {
    fn from(functions::Kept { number, journal }: functions::Kept) -> Kept {
        Kept { number, journal, rule: "" }
    }
}

#[cfg(not(feature = "without-library"))]
impl Keeping for Library {
    fn cleared(&self) -> Tallied {
        // SAFETY: the function takes nothing.
        unsafe { functions::draugsten_tallies_cleared() }
    }

    fn append(&self, buffer: &mut [u8], journal: &Tallied, record: &[u8]) -> Kept {
        let (bytes, length) = (buffer.as_mut_ptr(), buffer.len());
        // SAFETY: each pointer comes with the length of the slice that it was taken from, here and below.
        unsafe { functions::draugsten_tallies_append(bytes, length, *journal, record.as_ptr(), record.len()) }.into()
    }

    fn join(&self, buffer: &mut [u8], journal: &Tallied, part: &[u8]) -> Kept {
        let (bytes, length) = (buffer.as_mut_ptr(), buffer.len());
        unsafe { functions::draugsten_tallies_join(bytes, length, *journal, part.as_ptr(), part.len()) }.into()
    }

    fn recount(&self, journal: &[u8]) -> Recount {
        unsafe { functions::draugsten_tallies_recount(journal.as_ptr(), journal.len()) }
    }

    fn forecast(&self, tallies: &Tallies, scope: u32, state: u32) -> Forecast {
        // SAFETY: the function takes numbers alone.
        unsafe { functions::draugsten_forecast(*tallies, scope, state) }
    }
}
