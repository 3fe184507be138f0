//! The C interface of lookups and of views.

#[cfg(not(feature = "without-library"))]
use super::Library;
#[cfg(not(feature = "without-library"))]
use crate::locations::subject::Locating;

/// What a lookup gives back: number 0 with the buffer, 1 the area or 2 the fixed list, and the place of the code in it; 34
/// not found; 30 to 33 with the offset in the area.
#[repr(C)]
#[derive(Clone, Copy, PartialEq, Eq, Debug)]
pub struct Location {
    pub number: u32,
    pub buffer: u32,
    pub offset: u64,
    pub length: u64,
}

/// Where a view stands.
#[repr(C)]
#[derive(Clone, Copy, PartialEq, Eq, Debug)]
pub struct Cursor {
    pub at: u64,
    pub left: u64,
}

/// What a step gives back: number 0 with an entry; 35 at the end; 30 to 33 with the offset.
#[repr(C)]
#[derive(Clone, Copy, PartialEq, Eq, Debug)]
pub struct Step {
    pub number: u32,
    pub index: u32,
    pub offset: u64,
    pub length: u64,
    pub cursor: Cursor,
}

#[cfg(not(feature = "without-library"))]
mod functions {
    //! The functions of include/draugsten.h.

    use super::{Cursor, Location, Step};

    extern "C" {
        pub fn draugsten_lookup(
            area: *const u8,
            area_len: usize,
            fixed: *const u8,
            fixed_len: usize,
            index: u32,
        ) -> Location;

        pub fn draugsten_view_start(area: *const u8, area_len: usize) -> Cursor;

        pub fn draugsten_view_step(area: *const u8, area_len: usize, cursor: Cursor) -> Step;
    }
}

#[cfg(not(feature = "without-library"))]
impl Locating for Library {
    fn lookup(&self, area: &[u8], fixed: &[u8], index: u32) -> Location {
        // SAFETY: each pointer comes with the length of the slice that it was taken from, here and below.
        unsafe { functions::draugsten_lookup(area.as_ptr(), area.len(), fixed.as_ptr(), fixed.len(), index) }
    }

    fn view_start(&self, area: &[u8]) -> Cursor {
        unsafe { functions::draugsten_view_start(area.as_ptr(), area.len()) }
    }

    fn view_step(&self, area: &[u8], cursor: Cursor) -> Step {
        unsafe { functions::draugsten_view_step(area.as_ptr(), area.len(), cursor) }
    }
}
