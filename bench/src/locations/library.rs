//! The proved side: libdraugsten_locations.a over its C interface.

use super::Location;

extern "C" {
    fn draugsten_lookup(area: *const u8, area_len: usize, fixed: *const u8, fixed_len: usize, index: u32) -> Location;
}

pub fn lookup(area: &[u8], fixed: &[u8], index: u32) -> Location {
    // SAFETY: each pointer comes with the length of the slice that it was taken from, and none is kept.
    unsafe { draugsten_lookup(area.as_ptr(), area.len(), fixed.as_ptr(), fixed.len(), index) }
}
