//! What is wrong with the journal and the inventory that a command is given, as its messages say it.

use super::judge::{judge_inventory, judge_journal};
use super::names::shown;
use std::path::Path;

#[derive(Clone, Copy, PartialEq, Eq, Debug)]
pub enum Records {
    Journal,
    Inventory,
}

impl Records {
    pub fn name(self) -> &'static str {
        match self {
            Records::Journal => "journal",
            Records::Inventory => "inventory",
        }
    }
}

/// The message on the bytes of a file, if they are malformed. Records that are not given are empty, and well formed.
pub fn flaw(what: Records, path: Option<&Path>, bytes: &[u8]) -> Option<String> {
    let judged = match what {
        Records::Journal => judge_journal(bytes),
        Records::Inventory => judge_inventory(bytes),
    };
    let name = path.map(shown).unwrap_or_default();
    judged.err().map(|flaw| format!("the {} {name} is malformed: {flaw}", what.name()))
}

/// What is wrong with the journal and with the inventory of a session.
#[derive(Clone, PartialEq, Eq, Debug, Default)]
pub struct Flaws {
    pub journal: Option<String>,
    pub inventory: Option<String>,
}

impl Flaws {
    pub fn all(&self) -> impl Iterator<Item = &String> {
        self.journal.iter().chain(&self.inventory)
    }
}
