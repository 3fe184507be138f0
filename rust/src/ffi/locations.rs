//! The part of the C interface that is `libdraugsten_locations.a`.

/// The number of a lookup, and where the code stands: in buffer 1 the area, in 2 the fixed list.
#[repr(C)]
pub struct Location {
    pub number: u32,
    pub buffer: u32,
    pub offset: usize,
    pub length: usize,
}

/// Where a view stands. Any value is answered.
#[repr(C)]
#[derive(Clone, Copy, PartialEq, Eq, Debug)]
pub struct Cursor {
    pub at: usize,
    pub left: usize,
}

#[repr(C)]
pub struct Step {
    pub number: u32,
    pub index: u32,
    pub offset: usize,
    pub length: usize,
    pub cursor: Cursor,
}

extern "C" {
    fn draugsten_lookup(
        area: *const u8,
        area_length: usize,
        fixed: *const u8,
        fixed_length: usize,
        index: u32,
    ) -> Location;

    fn draugsten_view_start(area: *const u8, area_length: usize) -> Cursor;

    fn draugsten_view_step(area: *const u8, area_length: usize, cursor: Cursor) -> Step;
}

pub fn lookup(area: &[u8], fixed: &[u8], index: u32) -> Location {
    // SAFETY: both pointers are slices', with their lengths, and nothing is written.
    unsafe { draugsten_lookup(area.as_ptr(), area.len(), fixed.as_ptr(), fixed.len(), index) }
}

pub fn view_start(area: &[u8]) -> Cursor {
    // SAFETY: the pointer is a slice's, with its length, and nothing is written.
    unsafe { draugsten_view_start(area.as_ptr(), area.len()) }
}

pub fn view_step(area: &[u8], cursor: Cursor) -> Step {
    // SAFETY: the pointer is a slice's, with its length, and nothing is written; any cursor is answered.
    unsafe { draugsten_view_step(area.as_ptr(), area.len(), cursor) }
}

/// The sizes and places of fields, which tests/locations.c holds the header to.
#[cfg(test)]
mod tests {
    use super::{Cursor, Location, Step};
    use std::mem::{offset_of, size_of};

    #[test]
    fn the_layout_of_a_location() {
        assert_eq!(size_of::<Location>(), 24);
        assert_eq!([offset_of!(Location, number), offset_of!(Location, buffer)], [0, 4]);
        assert_eq!([offset_of!(Location, offset), offset_of!(Location, length)], [8, 16]);
    }

    #[test]
    fn the_layout_of_a_cursor_and_a_step() {
        assert_eq!([size_of::<Cursor>(), size_of::<Step>()], [16, 40]);
        assert_eq!([offset_of!(Cursor, at), offset_of!(Cursor, left)], [0, 8]);
        assert_eq!([offset_of!(Step, number), offset_of!(Step, index)], [0, 4]);
        assert_eq!([offset_of!(Step, offset), offset_of!(Step, length), offset_of!(Step, cursor)], [8, 16, 24]);
    }
}
