//! The journal: what a scope reports, the scan, and what a good record of each kind is.

use super::words::{le16, le64};
pub use crate::interface::LIMIT;
use crate::interface::{Wanted, MALFORMED};

/// The bytes of the longest name and of the longest value.
pub const NAME_LIMIT: usize = 31;
const VALUE_LIMIT: usize = 32_768;

/// The sets that a scope reports, by node type. Delete is 1, update 2, add 4.
pub type Row = [u8; 17];

/// The rows of the negative scopes, and of scopes 1, 2 and 3.
pub const ROWS: [Row; 4] = [
    [0, 0, 0, 0, 0, 2, 0, 0, 2, 2, 7, 7, 7, 7, 7, 0, 0],
    [0, 2, 2, 2, 2, 2, 7, 2, 2, 7, 7, 7, 7, 7, 7, 0, 0],
    [0, 0, 0, 2, 0, 0, 0, 0, 0, 0, 0, 0, 0, 0, 0, 0, 0],
    [0, 0, 0, 0, 0, 0, 0, 0, 0, 0, 0, 0, 0, 0, 0, 2, 2],
];

/// The row of a valid scope.
pub fn row(scope: u32) -> Option<&'static Row> {
    match scope {
        0x8000_0000.. => Some(&ROWS[0]),
        1 => Some(&ROWS[1]),
        2 => Some(&ROWS[2]),
        3 => Some(&ROWS[3]),
        _ => None,
    }
}

/// A good record of kind 5 or 6: its size, the bytes of its name, and where its value begins.
pub struct Property {
    pub size: usize,
    pub name: usize,
    pub value_from: usize,
}

impl Property {
    /// The bytes of its value.
    pub fn value(&self) -> usize {
        self.size - self.value_from
    }
}

/// The record of kind 5 or 6 that these bytes, ten at the least, begin with, if it is a good one.
pub fn property(rest: &[u8]) -> Option<Property> {
    let size = 2 + usize::from(le16(rest, 0));
    if size < 10 || rest.len() < size {
        return None;
    }
    let text = &rest[8..size.min(8 + NAME_LIMIT + 1)];
    let name = text.iter().position(|&byte| byte == 0)?;
    let property = Property { size, name, value_from: 8 + name + 1 };
    let most = if le16(rest, 2) == 5 { VALUE_LIMIT } else { 0 };
    (name > 0 && property.value() <= most).then_some(property)
}

/// The size of the record of kinds 1 to 4 that these bytes, ten at the least, begin with, if it is a good one.
pub fn node_size(rest: &[u8]) -> Option<usize> {
    let (length, kind, node) = (le16(rest, 0), le16(rest, 2), le16(rest, 4));
    let size = 2 + usize::from(length);
    let good = match kind {
        1 | 2 => length == 8 && (1..=14).contains(&node),
        3 => length == 12 && (1..=14).contains(&node),
        4 => length == 16 && (15..=16).contains(&node),
        _ => false,
    };
    (good && rest.len() >= size).then_some(size)
}

/// Judges every record and counts the deletes, updates and additions that the row reports, of kind 4 those of the unit.
#[inline(never)]
pub fn counts(journal: &[u8], row: &Row, unit: u64) -> Option<[usize; 3]> {
    if journal.len() > LIMIT {
        return None;
    }
    let [mut deletes, mut updates, mut additions] = [0; 3];
    let mut at = 0;
    while at < journal.len() {
        let rest = &journal[at..];
        if rest.len() < 10 {
            return None;
        }
        let (length, kind, node) = (le16(rest, 0), le16(rest, 2), le16(rest, 4));
        if kind == 4 {
            if length != 16 || rest.len() < 18 || !(15..=16).contains(&node) {
                return None;
            }
            let set = usize::from(row[usize::from(node)]);
            updates += set >> 1 & usize::from(le64(rest, 6) == unit);
            at += 18;
            continue;
        }
        let size = 2 + usize::from(length);
        if rest.len() < size {
            return None;
        }
        if kind < 4 && (1..=14).contains(&node) {
            let set = usize::from(row[usize::from(node)]);
            match kind {
                1 if length == 8 => deletes += set & 1,
                2 if length == 8 => updates += set >> 1 & 1,
                3 if length == 12 => additions += set >> 2 & 1,
                _ => return None,
            }
        } else if !matches!(kind, 5 | 6) || property(rest).is_none() {
            return None;
        }
        at += size;
    }
    Some([deletes, updates, additions])
}

/// How many operations the scope reports, all counted in one pass.
pub fn scan(journal: &[u8], wanted: Wanted) -> u64 {
    let row = row(wanted.scope).unwrap_or(&[0; 17]);
    counts(journal, row, wanted.unit).map_or(MALFORMED, |counts| counts.iter().sum::<usize>() as u64)
}
