//! The C interface of a month's table.

#[cfg(not(feature = "without-library"))]
use super::Library;
use crate::paper::table::Figures;
#[cfg(not(feature = "without-library"))]
use crate::tables::subject::Tabling;

/// What writing gives back: number 0 with the text's length, 60 with the length that is needed, or 62.
#[repr(C)]
#[derive(Clone, Copy, PartialEq, Eq, Debug)]
pub struct Written {
    pub number: u32,
    pub length: usize,
}

/// What reading gives back: number 0 with the figures and the number of sessions, 60 with the number of sessions, or 61
/// with the line. The figures lie as struct draugsten_table does.
#[repr(C)]
#[derive(Clone, Copy, PartialEq, Eq, Debug)]
pub struct Found {
    pub number: u32,
    pub line: u64,
    pub sessions: u64,
    pub figures: Figures,
}

#[cfg(not(feature = "without-library"))]
mod functions {
    //! The functions of include/draugsten.h.

    use super::{Figures, Found, Written};

    #[repr(C)]
    pub struct MonthTable {
        pub figures: Figures,
    }

    extern "C" {
        pub fn draugsten_table_write(
            table: MonthTable,
            digests: *const u8,
            digests_len: usize,
            out: *mut u8,
            out_len: usize,
        ) -> Written;

        pub fn draugsten_table_read(text: *const u8, text_len: usize, digests: *mut u8, digests_len: usize) -> Found;
    }
}

#[cfg(not(feature = "without-library"))]
impl Tabling for Library {
    fn write(&self, figures: &Figures, digests: &[u8], out: &mut [u8]) -> Written {
        let table = functions::MonthTable { figures: *figures };
        // SAFETY: each pointer comes with the length of the slice that it was taken from, here and below.
        unsafe { functions::draugsten_table_write(table, digests.as_ptr(), digests.len(), out.as_mut_ptr(), out.len()) }
    }

    fn read(&self, text: &[u8], digests: &mut [u8]) -> (Found, &'static str) {
        let found =
            unsafe { functions::draugsten_table_read(text.as_ptr(), text.len(), digests.as_mut_ptr(), digests.len()) };
        (found, "")
    }
}
