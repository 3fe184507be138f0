//! The month in the C interface (M-111).

#[cfg(not(feature = "without-library"))]
use super::{c, Library};
use super::{Replay, Report};
#[cfg(not(feature = "without-library"))]
use crate::month::subject::Month;
#[cfg(not(feature = "without-library"))]
use crate::subject::Feeding;

/// The counts of a trace so far: the calls of the tokens 1 to 4 by status, and of update-nodes the operations that were
/// handed out and the words that they took.
#[repr(C)]
#[derive(Clone, Copy, PartialEq, Eq, Debug)]
pub struct Counts {
    pub calls: [[u64; 7]; 4],
    pub operations: u64,
    pub used: u64,
}

impl Counts {
    pub const NONE: Counts = Counts { calls: [[0; 7]; 4], operations: 0, used: 0 };
}

/// Totals over traces: beside such counts the calls of each token, and the words available.
#[repr(C)]
#[derive(Clone, Copy, PartialEq, Eq, Debug)]
pub struct Totals {
    pub calls: [[u64; 7]; 4],
    pub token_calls: [u64; 4],
    pub operations: u64,
    pub used: u64,
    pub available: u64,
}

impl Totals {
    /// Of no trace.
    pub const NONE: Totals = Totals::of_figures(&[0; 35]);

    /// All figures in their order.
    pub fn figures(&self) -> [u64; 35] {
        let Totals { calls, token_calls, operations, used, available } = *self;
        let all = calls.into_iter().flatten().chain(token_calls).chain([operations, used, available]);
        let mut figures = [0; 35];
        figures.iter_mut().zip(all).for_each(|(figure, one)| *figure = one);
        figures
    }

    pub const fn of_figures(figures: &[u64; 35]) -> Totals {
        let mut calls = [[0; 7]; 4];
        let mut place = 0;
        while place < 28 {
            calls[place / 7][place % 7] = figures[place];
            place += 1;
        }
        let token_calls = [figures[28], figures[29], figures[30], figures[31]];
        Totals { calls, token_calls, operations: figures[32], used: figures[33], available: figures[34] }
    }
}

/// A share of the available words.
#[repr(C)]
#[derive(Clone, Copy, PartialEq, Eq, Debug)]
pub struct Share {
    pub part: u64,
    pub whole: u64,
}

/// A replay and its counts.
#[derive(Clone, Copy, PartialEq, Eq, Debug)]
pub struct Counting {
    pub replay: Replay,
    pub counts: Counts,
}

/// What a feed gives back. The rule that refused it is told by the paper's side only, here and below.
pub struct Counted {
    pub number: u32,
    pub counting: Counting,
    pub rule: &'static str,
}

/// What adding a trace gives back.
pub struct Added {
    pub number: u32,
    pub report: Report,
    pub totals: Totals,
    pub rule: &'static str,
}

/// What merging totals gives back.
pub struct Merged {
    pub number: u32,
    pub totals: Totals,
    pub rule: &'static str,
}

#[cfg(not(feature = "without-library"))]
mod functions {
    //! The types and functions of include/draugsten.h.

    use super::{c, Counts, Share, Totals};

    #[repr(C)]
    pub struct Counting {
        pub replay: c::Replay,
        pub counts: Counts,
    }

    #[repr(C)]
    pub struct Counted {
        pub number: u32,
        pub counting: Counting,
    }

    #[repr(C)]
    pub struct Added {
        pub number: u32,
        pub report: c::Report,
        pub totals: Totals,
    }

    #[repr(C)]
    pub struct Merged {
        pub number: u32,
        pub totals: Totals,
    }

    extern "C" {
        pub fn draugsten_month_start(edition: u32) -> Counting;

        pub fn draugsten_month_feed(
            held: *mut u8,
            held_len: usize,
            args: *mut u8,
            args_len: usize,
            memory: *mut u8,
            memory_len: usize,
            journal: *const u8,
            journal_len: usize,
            inventory: *const u8,
            inventory_len: usize,
            counting: Counting,
            bytes: *const u8,
            len: usize,
        ) -> Counted;

        pub fn draugsten_month_add(totals: Totals, counting: Counting) -> Added;

        pub fn draugsten_month_merge(totals: Totals, more: Totals) -> Merged;

        pub fn draugsten_month_share(totals: Totals) -> Share;
    }
}

#[cfg(not(feature = "without-library"))]
impl From<Counting> for functions::Counting {
    fn from(Counting { replay, counts }: Counting) -> functions::Counting {
        functions::Counting { replay: replay.into(), counts }
    }
}

#[cfg(not(feature = "without-library"))]
impl From<functions::Counting> for Counting {
    fn from(functions::Counting { replay, counts }: functions::Counting) -> Counting {
        Counting { replay: replay.into(), counts }
    }
}

#[cfg(not(feature = "without-library"))]
impl Month for Library {
    fn start(&self, edition: u32) -> Counting {
        // SAFETY: the function takes a number alone.
        unsafe { functions::draugsten_month_start(edition) }.into()
    }

    fn feed(&self, feeding: Feeding, counting: &Counting, bytes: &[u8]) -> Counted {
        let Feeding { held, args, memory, journal, inventory } = feeding;
        // SAFETY: each pointer comes with the length of the slice that it was taken from.
        let counted = unsafe {
            functions::draugsten_month_feed(
                held.as_mut_ptr(),
                held.len(),
                args.as_mut_ptr(),
                args.len(),
                memory.as_mut_ptr(),
                memory.len(),
                journal.as_ptr(),
                journal.len(),
                inventory.as_ptr(),
                inventory.len(),
                (*counting).into(),
                bytes.as_ptr(),
                bytes.len(),
            )
        };
        Counted { number: counted.number, counting: counted.counting.into(), rule: "" }
    }

    fn add(&self, totals: &Totals, counting: &Counting) -> Added {
        // SAFETY: the function takes figures alone, here and below.
        let added = unsafe { functions::draugsten_month_add(*totals, (*counting).into()) };
        Added { number: added.number, report: added.report.into(), totals: added.totals, rule: "" }
    }

    fn merge(&self, totals: &Totals, more: &Totals) -> Merged {
        let merged = unsafe { functions::draugsten_month_merge(*totals, *more) };
        Merged { number: merged.number, totals: merged.totals, rule: "" }
    }

    fn share(&self, totals: &Totals) -> Share {
        unsafe { functions::draugsten_month_share(*totals) }
    }
}
