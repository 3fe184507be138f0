//! What a file of records holds, one item after another.

use crate::shared::judge::{self, Change, Flaw, Listed, Sort, INVENTORY, JOURNAL};
use crate::shared::trace::{first_step, Step, TRACE};

/// What a file is.
#[derive(Clone, Copy, PartialEq, Eq, Debug)]
pub enum File {
    Journal,
    Inventory,
    Trace,
}

impl File {
    pub fn name(self) -> &'static str {
        match self {
            File::Journal => "journal",
            File::Inventory => "inventory",
            File::Trace => "trace",
        }
    }

    fn sort(self) -> &'static Sort {
        match self {
            File::Journal => &JOURNAL,
            File::Inventory => &INVENTORY,
            File::Trace => &TRACE,
        }
    }

    /// The file that has records of a kind.
    pub fn of_kind(kind: u16) -> Option<File> {
        let has = |file: &File| file.sort().kinds.iter().any(|found| found.number == kind);
        [File::Journal, File::Inventory, File::Trace].into_iter().find(has)
    }
}

/// Where an item stands: the number of its first record, from 1 on, the byte that this starts at, from 0 on, and the number
/// that a call has or would have there, from 1 on.
#[derive(Clone, Copy, PartialEq, Eq, Debug)]
pub struct Place {
    pub record: u64,
    pub offset: u64,
    pub call: u64,
}

/// A record, or the two of a call.
#[derive(Clone, Copy, PartialEq, Eq, Debug)]
pub enum Item<'a> {
    Change(Change<'a>),
    Listed(Listed<'a>),
    Step(Step<'a>),
}

/// The item that stands first in bytes which are the rest of a file from a place on, and how many bytes it takes; or why
/// its record is malformed.
pub fn first_item(file: File, rest: &[u8], place: Place) -> Result<(Item<'_>, usize), Flaw> {
    let Place { record, offset, .. } = place;
    if file == File::Trace {
        return first_step(rest, record, offset).map(|step| (Item::Step(step), step_size(&step)));
    }
    let found = judge::first(file.sort(), rest, offset).and_then(|found| {
        let item = match file {
            File::Journal => judge::change(&found).map(Item::Change),
            _ => judge::listed(&found).map(Item::Listed),
        };
        item.map(|item| (item, found.size()))
    });
    found.map_err(|what| Flaw { record, offset, what })
}

fn step_size(step: &Step<'_>) -> usize {
    match step {
        Step::Memory { bytes, .. } => 4 + 4 + bytes.len(),
        Step::Call { before, after } => 4 + before.len() + 4 + after.len(),
    }
}

impl Item<'_> {
    pub fn is_call(&self) -> bool {
        matches!(self, Item::Step(Step::Call { .. }))
    }

    /// The kind of its first record, and the kind's name.
    pub fn kind(&self) -> (u16, &'static str) {
        match self {
            Item::Change(Change::Delete { .. }) => (1, "delete"),
            Item::Change(Change::Update { .. }) => (2, "update"),
            Item::Change(Change::Add { .. }) => (3, "add"),
            Item::Change(Change::UpdateInUnit { .. }) => (4, "update in a unit"),
            Item::Change(Change::NewValue { .. }) => (5, "new value"),
            Item::Change(Change::DeletedProperty { .. }) => (6, "deleted property"),
            Item::Listed(_) => (16, "entry"),
            Item::Step(Step::Call { .. }) => (32, "before"),
            Item::Step(Step::Memory { .. }) => (34, "memory"),
        }
    }
}

/// The second record of a call.
pub const AFTER: (u16, &str) = (33, "after");

/// The place of the second record of a call.
pub fn after(place: Place, before: &[u8]) -> Place {
    Place { record: place.record + 1, offset: place.offset + 4 + before.len() as u64, ..place }
}

const NODE_TYPES: [&str; 16] = [
    "root",
    "openprom",
    "rtas",
    "vdevice",
    "cpu",
    "cache",
    "options",
    "memory",
    "ibm,dynamic-reconfiguration-memory",
    "ibm,platform-facilities",
    "random",
    "compression",
    "encryption",
    "memory-utilization instrumentation",
    "coherent platform facility",
    "coherent platform function",
];

/// The name of a node type from 1 to 16.
pub fn node_type_name(node_type: u16) -> &'static str {
    NODE_TYPES[usize::from(node_type) - 1]
}

/// What the flag of an inventory's entry says.
pub fn flag_name(flag: u16) -> &'static str {
    ["indicator", "sensor"][usize::from(flag)]
}
