//! The inventory: its records, the scan, and the search alone.

use super::words::{le16, le32};
use crate::interface::{Asked, Judged, LIMIT, MALFORMED};

/// The bytes of a record's head, which the code follows, and of the longest code.
const HEAD: usize = 14;
pub const CODE_LIMIT: usize = 1023;

/// The size of the record that the bytes begin with, if it is a good one.
fn good_size(rest: &[u8]) -> Option<usize> {
    if rest.len() < HEAD + 1 {
        return None;
    }
    let size = 2 + usize::from(le16(rest, 0));
    if !(HEAD + 1..=HEAD + CODE_LIMIT).contains(&size) || rest.len() < size {
        return None;
    }
    if le16(rest, 2) != 16 || le16(rest, 4) > 1 || rest[HEAD..size].contains(&0) {
        return None;
    }
    Some(size)
}

/// Whether a record has the flag and type that are asked for.
pub fn is_asked(record: &[u8], asked: Asked) -> bool {
    u32::from(le16(record, 4)) == asked.flag && le32(record, 6) == asked.kind
}

/// Judges every record, counts the entries asked for, and notes the place of the one with the number.
pub fn counted(inventory: &[u8], asked: Asked) -> Option<(usize, usize)> {
    if inventory.len() > LIMIT {
        return None;
    }
    let [mut at, mut count, mut due] = [0; 3];
    while at < inventory.len() {
        let rest = &inventory[at..];
        let size = good_size(rest)?;
        if is_asked(rest, asked) {
            count += 1;
            if count == asked.number as usize {
                due = at;
            }
        }
        at += size;
    }
    Some((count, due))
}

/// How many entries there are. As in the proved scan that is measured, the place of the one due is not handed on.
pub fn scan(inventory: &[u8], asked: Asked) -> u64 {
    counted(inventory, asked).map_or(MALFORMED, |(count, _due)| count as u64)
}

/// The index of the last entry asked for, or 0 where there is none. The inventory was judged before: nothing is judged here.
pub fn search(judged: Judged) -> u32 {
    let mut rest = judged.inventory();
    let mut last = 0;
    while !rest.is_empty() {
        let (record, behind) = rest.split_at(2 + usize::from(le16(rest, 0)));
        rest = behind;
        if is_asked(record, judged.asked()) {
            last = le32(record, 10);
        }
    }
    last
}
