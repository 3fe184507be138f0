//! The calls of get-indices, with an area of 4,096 bytes.

use super::{Row, Subject};
use crate::bare;
use crate::interface::{Asked, SIDES};
use crate::partition::Partition;
use crate::timing::Effort;

/// One call for the entry with the number that is asked for.
pub fn one_call(over: &str, inventory: &[u8], asked: Asked, effort: Effort) -> Row {
    let stepping = bare::stepping_records;
    let subject = Subject { what: "get-indices, one call", over, bytes: inventory, passes: 1, stepping };
    subject.measure(effort, |side| {
        let mut partition = Partition::of_inventory(inventory, asked);
        Box::new(move || partition.answered_call(side, asked.number))
    })
}

/// All calls from Starting Number 1 to status 0.
pub fn session(over: &str, inventory: &[u8], asked: Asked, effort: Effort) -> Row {
    let stepping = bare::stepping_records;
    let passes = Partition::of_inventory(inventory, asked).session(&SIDES[0]) as usize;
    let subject = Subject { what: "get-indices, session", over, bytes: inventory, passes, stepping };
    subject.measure(effort, |side| {
        let mut partition = Partition::of_inventory(inventory, asked);
        Box::new(move || partition.session(side))
    })
}
