//! The cases of the tallies.

use crate::library::tallies::{Tallied, Tallies};
use crate::text;

/// What is done with a journal that is kept.
#[derive(Clone)]
pub enum Operation {
    Append(Vec<u8>),
    Join(Vec<u8>),
    Clear,
    /// Every byte of the buffer behind the use gets this value, by somebody else.
    Overwrite(u8),
}

impl Operation {
    pub fn name(&self) -> &'static str {
        match self {
            Operation::Append(_) => "append",
            Operation::Join(_) => "join",
            Operation::Clear => "clear",
            Operation::Overwrite(_) => "bytes behind the use change",
        }
    }

    fn text(&self) -> String {
        match self {
            Operation::Append(bytes) | Operation::Join(bytes) => text::records(self.name(), bytes),
            Operation::Clear => String::from("  clear\n"),
            Operation::Overwrite(byte) => format!("  all bytes behind the use become {byte:02x}\n"),
        }
    }
}

/// So many operations are told.
const MOST_OPERATIONS: usize = 12;

#[derive(Clone)]
pub enum TalliesCase {
    /// Operations on a journal in this buffer, from an empty one on.
    List { buffer: Vec<u8>, operations: Vec<Operation> },
    /// One operation over a use and tallies that may be those of no journal.
    State { buffer: Vec<u8>, journal: Tallied, operation: Operation },
    /// A journal that is counted.
    Recount(Vec<u8>),
    /// Three journals joined in both ways, in buffers of so many bytes.
    Three { parts: [Vec<u8>; 3], room: usize },
    /// A call of update-nodes over this journal, and its forecast from the recount.
    Call { journal: Vec<u8>, scope: u32, state: u32 },
    /// A forecast from any tallies.
    Forecast { tallies: Tallies, scope: u32, state: u32 },
}

impl TalliesCase {
    pub fn text(&self) -> String {
        match self {
            TalliesCase::List { buffer, operations } => {
                let told: String = operations.iter().take(MOST_OPERATIONS).map(Operation::text).collect();
                format!("{} operations on a buffer of {} bytes\n{told}", operations.len(), buffer.len())
            }
            TalliesCase::State { buffer, journal, operation } => {
                format!("an operation on a buffer of {} bytes, {}\n{}", buffer.len(), journal.text(), operation.text())
            }
            TalliesCase::Recount(journal) => format!("a recount\n{}", text::records("journal", journal)),
            TalliesCase::Three { parts, room } => {
                let told: String = parts.iter().map(|part| text::records("part", part)).collect();
                format!("three journals joined both ways, with room for {room} bytes\n{told}")
            }
            TalliesCase::Call { journal, scope, state } => {
                let journal = text::records("journal", journal);
                format!("a call and its forecast, scope {scope:#010x}, state {state}\n{journal}")
            }
            TalliesCase::Forecast { tallies, scope, state } => {
                format!("a forecast, tallies {:?}, scope {scope:#010x}, state {state}\n", tallies.rows)
            }
        }
    }

    /// The bytes that are made smaller, by their place.
    pub fn part(&self, place: usize) -> Option<&Vec<u8>> {
        match (self, place) {
            (TalliesCase::Recount(journal) | TalliesCase::Call { journal, .. }, 0) => Some(journal),
            (TalliesCase::State { operation: Operation::Append(bytes) | Operation::Join(bytes), .. }, 0) => Some(bytes),
            (TalliesCase::Three { parts, .. }, _) => parts.get(place),
            _ => None,
        }
    }

    pub fn part_mut(&mut self, place: usize) -> Option<&mut Vec<u8>> {
        match (self, place) {
            (TalliesCase::Recount(journal) | TalliesCase::Call { journal, .. }, 0) => Some(journal),
            (TalliesCase::State { operation: Operation::Append(bytes) | Operation::Join(bytes), .. }, 0) => Some(bytes),
            (TalliesCase::Three { parts, .. }, _) => parts.get_mut(place),
            _ => None,
        }
    }

    /// Leaves out an operation of a list; false where it has no such one.
    pub fn without_operation(&mut self, place: usize) -> bool {
        match self {
            TalliesCase::List { operations, .. } if place < operations.len() => {
                operations.remove(place);
                true
            }
            _ => false,
        }
    }
}
