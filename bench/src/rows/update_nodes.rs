//! The calls of update-nodes.

use super::{Row, Subject};
use crate::bare;
use crate::interface::{Wanted, SIDES};
use crate::partition::Partition;
use crate::timing::Effort;

/// One call from state 0.
pub fn one_call(over: &str, journal: &[u8], wanted: Wanted, effort: Effort) -> Row {
    let stepping = bare::stepping_records;
    let subject = Subject { what: "update-nodes, one call", over, bytes: journal, passes: 1, stepping };
    subject.measure(effort, |side| {
        let mut partition = Partition::of_journal(journal, wanted);
        Box::new(move || partition.answered_call(side, 0))
    })
}

/// All calls from state 0 to status 0.
pub fn session(over: &str, journal: &[u8], wanted: Wanted, effort: Effort) -> Row {
    let stepping = bare::stepping_records;
    let passes = Partition::of_journal(journal, wanted).session(&SIDES[0]) as usize;
    let subject = Subject { what: "update-nodes, session", over, bytes: journal, passes, stepping };
    subject.measure(effort, |side| {
        let mut partition = Partition::of_journal(journal, wanted);
        Box::new(move || partition.session(side))
    })
}
