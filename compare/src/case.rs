//! The cases that are compared.

use crate::intakes::case::IntakeCase;
use crate::library::{ReadingRecord, Registration, Replay};
use crate::locations::case::LocationsCase;
use crate::month::case::MonthCase;
use crate::paper::dump_run::{section, section_places, Section};
use crate::subject::Platform;
use crate::tables::case::TableCase;
use crate::tallies::case::TalliesCase;
use crate::text;

/// One call through the argument buffer, with everything that it is given.
#[derive(Clone)]
pub struct CallCase {
    pub args: Vec<u8>,
    pub memory: Vec<u8>,
    pub journal: Vec<u8>,
    pub inventory: Vec<u8>,
    /// The inventory's edition.
    pub edition: u32,
    pub registration: Registration,
    /// The record of the reading in progress.
    pub reading: ReadingRecord,
}

/// One reading of an area, with room for `out` numbers.
#[derive(Clone)]
pub struct ReadCase {
    pub area: Vec<u8>,
    pub out: usize,
}

/// What a call of update-nodes asks for: a scope and, in scope 3, a unit. In all other scopes the unit is 0.
#[derive(Clone, Copy, PartialEq, Eq)]
pub struct Wanted {
    pub scope: u32,
    pub unit: u64,
}

impl Wanted {
    /// The unit, in scope 3 alone.
    pub fn unit_in_scope_3(&self) -> Option<u64> {
        (self.scope == 3).then_some(self.unit)
    }

    /// The sixteen bytes that the area of the first call begins with.
    pub fn first_bytes(&self) -> [u8; 16] {
        let mut bytes = [0; 16];
        bytes[4..12].copy_from_slice(&self.unit.to_be_bytes());
        bytes
    }

    fn text(&self) -> String {
        match self.unit_in_scope_3() {
            Some(unit) => format!("scope 3, unit {unit:#018x}"),
            None => format!("scope {:#010x}", self.scope),
        }
    }
}

/// Lists of calls over one journal or one inventory, each up to status 0. The calls follow from `seed`, and so do the
/// edits of the inventory.
#[derive(Clone)]
pub struct SessionCase {
    pub seed: u64,
    /// The journal of update-nodes or update-properties, or the inventory of get-indices before it is edited.
    pub records: Vec<u8>,
    pub asked: Asked,
    /// No refused calls between.
    pub plain: bool,
}

#[derive(Clone)]
pub enum Asked {
    /// A session for each, all at the same time over one journal.
    Nodes(Vec<Wanted>),
    Indices(Listing),
    /// A session for each of these phandles, all at the same time over one journal.
    Properties(Vec<u32>),
}

/// A list that a partition reads. The inventory has this edition at first, and the reading is disturbed up to so many
/// times: by an edit, or by a reading of another list.
#[derive(Clone, Copy)]
pub struct Listing {
    pub flag: u32,
    pub kind: u32,
    pub edition: u32,
    pub disturbances: usize,
}

impl Listing {
    fn text(&self) -> String {
        let Listing { flag, kind, edition, disturbances } = self;
        let disturbed = format!("disturbed up to {disturbances} times");
        format!("get-indices session, flag {flag}, type {kind}, edition {edition:#x}, {disturbed}")
    }
}

/// What is done with the dump of a partition.
#[derive(Clone, Copy, PartialEq, Eq)]
pub enum Step {
    Run,
    /// A command of configure-kernel-dump.
    Command(u32),
}

impl Step {
    pub fn text(&self) -> String {
        match self {
            Step::Run => String::from("run"),
            Step::Command(command) => format!("command {command}"),
        }
    }
}

/// A registration, the memories of the partition and of the platform, and what is done with them, one step after the
/// other. The commands name the structure at this address, of the registration's length.
#[derive(Clone)]
pub struct RunCase {
    pub registration: Registration,
    pub memory: Vec<u8>,
    pub platform: Vec<u8>,
    pub address: u32,
    pub steps: Vec<Step>,
}

/// What a replay is given beside its trace. `held` and `args` may hold anything at first.
#[derive(Clone)]
pub struct Given {
    pub memory: Vec<u8>,
    pub journal: Vec<u8>,
    pub inventory: Vec<u8>,
    pub held: Vec<u8>,
    pub args: Vec<u8>,
}

/// A burst of so many bytes, and whether the replay is asked behind it what it comes to.
#[derive(Clone, Copy)]
pub struct Burst {
    pub length: usize,
    pub end: bool,
}

/// A trace, replayed in bursts. They may be more or fewer than it has bytes; what they leave of it comes in one more.
#[derive(Clone)]
pub struct TraceCase {
    pub given: Given,
    pub edition: u32,
    pub trace: Vec<u8>,
    pub bursts: Vec<Burst>,
}

/// One feed of a replay that stands anywhere, also where no replay can.
#[derive(Clone)]
pub struct StateCase {
    pub given: Given,
    pub replay: Replay,
    pub burst: Vec<u8>,
}

#[derive(Clone)]
#[allow(clippy::large_enum_variant)]
pub enum Case {
    Call(CallCase),
    Run(RunCase),
    /// An edit of an inventory of this edition.
    Edit(u32),
    ReadNodes {
        scope: u32,
        read: ReadCase,
    },
    ReadIndices(ReadCase),
    ReadProperties(ReadCase),
    Session(SessionCase),
    Trace(TraceCase),
    State(StateCase),
    Month(MonthCase),
    Table(TableCase),
    Tallies(TalliesCase),
    Intake(IntakeCase),
    Locations(LocationsCase),
}

impl CallCase {
    pub fn platform(&self) -> Platform<'_> {
        Platform {
            journal: &self.journal,
            inventory: &self.inventory,
            edition: self.edition,
            registration: self.registration,
            reading: self.reading,
        }
    }

    pub fn text(&self) -> String {
        let mut text = String::from("call\n");
        text += &text::buffer("arguments", &self.args);
        text += &text::buffer("memory", &self.memory);
        text += &text::records("journal", &self.journal);
        text += &text::records("inventory", &self.inventory);
        text += &format!("  edition {:#x}\n  reading record: {}\n", self.edition, self.reading.text());
        text + &self.registration.text()
    }
}

impl Registration {
    fn text(&self) -> String {
        let Registration { phase, length, copy } = self;
        format!("  registration: phase {phase}, length {length}\n") + &text::buffer("copy", copy)
    }
}

impl RunCase {
    pub fn text(&self) -> String {
        let steps: Vec<String> = self.steps.iter().map(Step::text).collect();
        let mut text = format!("dump, with the structure at {:#x}: {}\n", self.address, steps.join(", "));
        text += &text::buffer("memory", &self.memory);
        text += &text::buffer("platform memory", &self.platform);
        text + &self.registration.text() + &self.sections_text()
    }

    /// The sections of the copy, as far as they are inside.
    fn sections_text(&self) -> String {
        let places = section_places(&self.registration.copy).into_iter().take_while(|at| at + 40 <= 512);
        let sections = places.take(10).map(|at| section(&self.registration.copy[at..at + 40]));
        let text = |section: Section| {
            let Section { request, kind, source, requested, destination } = section;
            format!(
                "  request {request:#x}, type {kind:#x}: {requested:#x} bytes from {source:#x} to {destination:#x}\n"
            )
        };
        sections.map(text).collect()
    }
}

impl Case {
    pub fn text(&self) -> String {
        match self {
            Case::Call(call) => call.text(),
            Case::Run(run) => run.text(),
            Case::Edit(edition) => format!("an edit of edition {edition:#x}\n"),
            Case::ReadNodes { scope, read } => {
                format!("node area, scope {scope:#010x}, out {}\n", read.out) + &text::buffer("area", &read.area)
            }
            Case::ReadIndices(read) => format!("index area, out {}\n", read.out) + &text::buffer("area", &read.area),
            Case::ReadProperties(read) => {
                format!("property area, out {}\n", read.out) + &text::buffer("area", &read.area)
            }
            Case::Session(session) => session.text(),
            Case::Trace(trace) => trace.text(),
            Case::State(state) => state.text(),
            Case::Month(month) => month.text(),
            Case::Table(case) => case.text(),
            Case::Tallies(case) => case.text(),
            Case::Intake(case) => case.text(),
            Case::Locations(case) => case.text(),
        }
    }
}

impl Given {
    fn text(&self) -> String {
        let mut text = text::buffer("memory", &self.memory);
        text += &text::records("journal", &self.journal);
        text += &text::records("inventory", &self.inventory);
        text + &format!("  held of {} bytes, args of {}\n", self.held.len(), self.args.len())
    }
}

impl TraceCase {
    pub fn text(&self) -> String {
        let bursts: Vec<String> = self.bursts.iter().take(MOST_BURSTS).map(Burst::text).collect();
        let more = if self.bursts.len() > MOST_BURSTS { " .." } else { "" };
        let mut text = format!("replay of a trace, edition {:#x}, bursts: {}{more}\n", self.edition, bursts.join(" "));
        text += &text::records("trace", &self.trace);
        text + &self.given.text()
    }
}

/// So many bursts are told.
const MOST_BURSTS: usize = 40;

impl Burst {
    fn text(&self) -> String {
        format!("{}{}", self.length, if self.end { " (end?)" } else { "" })
    }
}

impl StateCase {
    pub fn text(&self) -> String {
        let mut text = format!("feed of a replay: {}\n", self.replay.text());
        text += &text::records("burst", &self.burst);
        text += &text::buffer("copy", &self.replay.registration.copy);
        text += &text::buffer("held", &self.given.held);
        text += &text::buffer("args", &self.given.args);
        text + &self.given.text()
    }
}

impl SessionCase {
    fn text(&self) -> String {
        let between = if self.plain { "no refused calls between" } else { "refused calls between" };
        let asked = match &self.asked {
            Asked::Nodes(wanted) => {
                let wanted: Vec<String> = wanted.iter().map(Wanted::text).collect();
                format!("update-nodes sessions: {}", wanted.join("; "))
            }
            Asked::Indices(listing) => listing.text(),
            Asked::Properties(phandles) => format!("update-properties sessions of {phandles:#010x?}"),
        };
        format!("{asked}, {between}\n") + &text::records("records", &self.records)
    }
}
