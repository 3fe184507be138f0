//! The scans of a journal and of an inventory, and the search in one that was judged.

use super::{Row, Subject};
use crate::bare;
use crate::interface::{Asked, Judged, Wanted};
use crate::timing::Effort;
use std::hint::black_box;

pub fn journal(over: &str, journal: &[u8], wanted: Wanted, effort: Effort) -> Row {
    let stepping = bare::stepping_records;
    let subject = Subject { what: "journal scan", over, bytes: journal, passes: 1, stepping };
    subject.measure(effort, |side| Box::new(move || (side.scan_journal)(black_box(journal), black_box(wanted))))
}

pub fn inventory(over: &str, inventory: &[u8], asked: Asked, effort: Effort) -> Row {
    let stepping = bare::stepping_records;
    let subject = Subject { what: "inventory scan", over, bytes: inventory, passes: 1, stepping };
    subject.measure(effort, |side| Box::new(move || (side.scan_inventory)(black_box(inventory), black_box(asked))))
}

/// The search alone, from the first entry asked for to the last.
pub fn search(over: &str, inventory: &[u8], asked: Asked, effort: Effort) -> Row {
    let judged = Judged::new(inventory, asked);
    let stepping = bare::stepping_records;
    let subject = Subject { what: "search for one type", over, bytes: inventory, passes: 1, stepping };
    subject.measure(effort, |side| Box::new(move || (side.search)(black_box(judged)).into()))
}
