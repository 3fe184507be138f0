//! The lookup of a location code: one loop over the area that judges each set and remembers the first match, and then the
//! entries of the fixed list up to the one asked for.

use super::read_indices::{entry_at, Entry, Refused};
use super::words::be32;
use crate::locations::Location;

/// An index that is never found.
const NO_INDEX: u32 = u32::MAX;

#[inline(never)]
pub fn lookup(area: &[u8], fixed: &[u8], index: u32) -> Location {
    match first_listed(area, index) {
        Err((number, offset)) => Location::refused(number, offset),
        Ok(_) if index == NO_INDEX => Location::NOT_FOUND,
        Ok(Some([_, offset, length])) => {
            Location { number: 0, buffer: 1, offset: offset as usize, length: length as usize }
        }
        Ok(None) => in_fixed(fixed, index).unwrap_or(Location::NOT_FOUND),
    }
}

/// The first entry with an index, where the whole area is good.
fn first_listed(area: &[u8], index: u32) -> Result<Option<Entry>, Refused> {
    if area.len() < 4 {
        return Err((30, 0));
    }
    let (mut found, mut at) = (None, 4);
    for _ in 0..be32(area, 0) {
        let (entry, end) = entry_at(area, at)?;
        if entry[0] == u64::from(index) && found.is_none() {
            found = Some(entry);
        }
        at = end;
    }
    Ok(found)
}

/// The entry with a number, where it has a code and its NUL.
fn in_fixed(fixed: &[u8], index: u32) -> Option<Location> {
    let code = fixed.split(|&byte| byte == 0).nth(index as usize)?;
    let offset = code.as_ptr() as usize - fixed.as_ptr() as usize;
    let has_nul = offset + code.len() < fixed.len();
    (has_nul && !code.is_empty()).then_some(Location { number: 0, buffer: 2, offset, length: code.len() })
}
