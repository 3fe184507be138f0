//! The sides that look up location codes.

use crate::locations::{area, fixed_list, Location, CODES, INDEPENDENT, NO_ENTRIES, PROVED};
use crate::plain::locations as plain;

/// What all sides answer; panics where they differ.
fn same(area: &[u8], fixed: &[u8], index: u32) -> Location {
    let told = PROVED(area, fixed, index);
    assert_eq!(told, INDEPENDENT(area, fixed, index), "the lookup of {index}");
    assert_eq!(told, plain::lookup(area, fixed, index), "the lookup of {index}");
    told
}

/// Lookups by Rust, by the independent program and by the library: in an area, in the fixed list, in both, in neither, and
/// over areas that are refused.
pub fn locations() {
    for length in CODES {
        let ((area, listed), (fixed, last)) = (area(length), fixed_list(length));
        assert_eq!(same(&area, &fixed, listed).buffer, 1);
        assert_eq!(same(&NO_ENTRIES, &fixed, last).buffer, 2);
        assert_eq!(same(&NO_ENTRIES, &fixed[..fixed.len() - 1], last), Location::NOT_FOUND);
        for index in [0, 1, listed / 2, listed + 1, last / 2, last - 1, last + 1, u32::MAX - 1, u32::MAX] {
            same(&area, &fixed, index);
            same(&NO_ENTRIES, &fixed, index);
            same(&area, &[], index);
        }
        gaps(&area, &fixed);
        refusals(&area, &fixed, listed);
    }
}

/// Entries of the fixed list that are empty.
fn gaps(area: &[u8], fixed: &[u8]) {
    let mut list = fixed[..1000.min(fixed.len())].to_vec();
    for at in [0, 1, 63, 64, 65, 127, 500, 999] {
        list[at] = 0;
        (0..140).for_each(|index| _ = (same(&NO_ENTRIES, &list, index), same(area, &list, index)));
    }
}

/// Each byte of the area's first sets changed in three ways, and the area cut off.
fn refusals(area: &[u8], fixed: &[u8], listed: u32) {
    for at in (0..40).chain(1030..1050) {
        for change in [1, 4, 0x80] {
            let mut changed = area.to_vec();
            changed[at] ^= change;
            same(&changed, fixed, listed);
        }
    }
    for length in [0, 3, 4, 11, 12, 20, 2000, area.len() - 1] {
        same(&area[..length], fixed, listed);
    }
    assert_eq!(same(&area[..1000], fixed, 0).number, 31);
}
