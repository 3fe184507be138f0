//! The part of the C interface that is the table of a month, in `libdraugsten_replay.a`.

use super::Totals;

/// Every value is a table.
#[repr(C)]
#[derive(Clone, Copy, PartialEq, Eq, Debug)]
pub struct Table {
    pub totals: Totals,
    pub added: u64,
    pub refused: u64,
    pub unread: u64,
    pub agreed: u64,
}

#[repr(C)]
pub struct Written {
    pub number: u32,
    pub length: usize,
}

#[repr(C)]
pub struct Found {
    pub number: u32,
    pub line: u64,
    pub sessions: u64,
    pub table: Table,
}

extern "C" {
    fn draugsten_table_write(
        table: Table,
        digests: *const u8,
        digests_length: usize,
        out: *mut u8,
        out_length: usize,
    ) -> Written;

    fn draugsten_table_read(text: *const u8, text_length: usize, digests: *mut u8, digests_length: usize) -> Found;
}

pub fn write(table: Table, digests: &[u8], out: &mut [u8]) -> Written {
    // SAFETY: both pointers are slices', with their lengths; `out`, which is written, is borrowed by `&mut`.
    unsafe { draugsten_table_write(table, digests.as_ptr(), digests.len(), out.as_mut_ptr(), out.len()) }
}

pub fn read(text: &[u8], digests: &mut [u8]) -> Found {
    // SAFETY: both pointers are slices', with their lengths; `digests`, which is written, is borrowed by `&mut`.
    unsafe { draugsten_table_read(text.as_ptr(), text.len(), digests.as_mut_ptr(), digests.len()) }
}

/// The sizes and places of fields, which tests/table.c holds the header to.
#[cfg(test)]
mod tests {
    use super::{Found, Table, Written};
    use std::mem::{offset_of, size_of};

    #[test]
    fn the_layout_of_a_table() {
        assert_eq!(size_of::<Table>(), 39 * 8);
        assert_eq!([offset_of!(Table, totals), offset_of!(Table, added), offset_of!(Table, refused)], [0, 280, 288]);
        assert_eq!([offset_of!(Table, unread), offset_of!(Table, agreed)], [296, 304]);
    }

    #[test]
    fn the_layout_of_what_the_functions_give() {
        assert_eq!([size_of::<Written>(), size_of::<Found>()], [16, 336]);
        assert_eq!([offset_of!(Written, number), offset_of!(Written, length)], [0, 8]);
        assert_eq!([offset_of!(Found, number), offset_of!(Found, line)], [0, 8]);
        assert_eq!([offset_of!(Found, sessions), offset_of!(Found, table)], [16, 24]);
    }
}
