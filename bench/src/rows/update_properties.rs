//! The calls of update-properties, for the one node of a journal.

use super::{Row, Subject};
use crate::bare;
use crate::interface::SIDES;
use crate::partition::Partition;
use crate::timing::Effort;

/// One call in the middle of the session.
pub fn one_call(over: &str, journal: &[u8], effort: Effort) -> Row {
    let stepping = bare::stepping_records;
    let states = Partition::of_properties(journal).property_states(&SIDES[0]);
    let state = states[states.len() / 2];
    let subject = Subject { what: "update-properties, one call", over, bytes: journal, passes: 1, stepping };
    subject.measure(effort, |side| {
        let mut partition = Partition::of_properties(journal);
        Box::new(move || partition.answered_call(side, state))
    })
}

/// All calls from state 0 to status 0.
pub fn session(over: &str, journal: &[u8], effort: Effort) -> Row {
    let stepping = bare::stepping_records;
    let passes = Partition::of_properties(journal).session(&SIDES[0]) as usize;
    let subject = Subject { what: "update-properties, session", over, bytes: journal, passes, stepping };
    subject.measure(effort, |side| {
        let mut partition = Partition::of_properties(journal);
        Box::new(move || partition.session(side))
    })
}
