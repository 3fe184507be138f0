//! The rules and lines of a dump's run (M-104), and what is done before and behind it.

use super::{big, Line};
use crate::case::Step;
use crate::library::Registration;
use crate::paper::dump_run::{section, section_places};
use crate::subject::Ran;

pub const RULES: [&str; 23] = [
    "ran",
    "no registration",
    "dump active",
    "nothing registered",
    "length not 40 to 512",
    "version",
    "number of sections",
    "status flags",
    "first section under 40",
    "sections not within the length",
    "request flags",
    "section type",
    "error flags",
    "actual",
    "no disk, first block",
    "no disk, blocks",
    "no disk, path offset",
    "no disk, request flag 0",
    "path under 40",
    "path without NUL",
    "path empty",
    "path shares bytes with the sections",
    "status 0 over a copy with bytes behind its length",
];

/// A step, by the one before it.
pub const STEPS: [&str; 7] = [
    "command 1 behind a run",
    "command 2 behind a run",
    "command 3 behind a run",
    "another command behind a run",
    "a run behind a run",
    "a run behind command 1",
    "a run behind another command",
];

pub fn step_row(before: Option<Step>, step: Step) -> Option<&'static str> {
    match (before?, step) {
        (Step::Run, Step::Command(command @ 1..=3)) => Some(STEPS[command as usize - 1]),
        (Step::Run, Step::Command(_)) => Some(STEPS[3]),
        (Step::Run, Step::Run) => Some(STEPS[4]),
        (Step::Command(1), Step::Run) => Some(STEPS[5]),
        (Step::Command(_), Step::Run) => Some(STEPS[6]),
        _ => None,
    }
}

/// What came of a section that was requested.
struct Copied {
    of_platform: bool,
    kind: u64,
    start: u128,
    requested: u128,
    destination: u128,
    /// The bytes of the buffer that it reads.
    source: u128,
    flags: u64,
    actual: u128,
}

impl Copied {
    /// The bytes that the source has of those requested.
    fn has(&self) -> u128 {
        self.requested.min(self.source.saturating_sub(self.start))
    }

    /// How far the destination lies behind the source in partition memory, where bytes were copied.
    fn behind(&self) -> Option<u128> {
        self.distance(self.destination.checked_sub(self.start))
    }

    /// How far it lies before the source.
    fn before(&self) -> Option<u128> {
        self.distance(self.start.checked_sub(self.destination))
    }

    fn distance(&self, distance: Option<u128>) -> Option<u128> {
        distance.filter(|_| !self.of_platform && self.actual > 0)
    }

    /// Whether it reads a byte that another one wrote.
    fn reads(&self, other: &Copied) -> bool {
        let (end, other_end) = (self.start + self.actual, other.destination + other.actual);
        !self.of_platform && self.start < other_end && other.destination < end && self.actual * other.actual > 0
    }

    /// Whether it writes a byte that another one wrote.
    fn overwrites(&self, other: &Copied) -> bool {
        let (end, other_end) = (self.destination + self.actual, other.destination + other.actual);
        self.destination < other_end && other.destination < end && self.actual * other.actual > 0
    }
}

pub struct Facts {
    memory: u128,
    platform: u128,
    /// Of the sections that were requested, in order; none where the run was refused.
    copied: Vec<Copied>,
    /// All sections.
    sections: usize,
    disk: bool,
    status_flags: u64,
}

pub fn facts(memory: &[u8], platform: &[u8], told: &Ran) -> Facts {
    let ran = told.rule.is_empty();
    let copy = &told.registration.copy;
    let places = if ran { section_places(copy) } else { Vec::new() };
    let (memory, platform) = (memory.len() as u128, platform.len() as u128);
    let copied = places.iter().map(|&at| &copy[at..at + 40]).filter(|bytes| bytes[3] == 1);
    Facts {
        memory,
        platform,
        sections: places.len(),
        disk: ran && copy[12..16] != [0; 4],
        status_flags: if ran { big(&copy[6..8]) } else { 0 },
        copied: copied.map(|bytes| copied_of(bytes, memory, platform)).collect(),
    }
}

fn copied_of(bytes: &[u8], memory: u128, platform: u128) -> Copied {
    let section = section(bytes);
    let of_platform = section.reads_platform();
    Copied {
        of_platform,
        kind: section.kind,
        start: section.source,
        requested: section.requested,
        destination: section.destination,
        source: if of_platform { platform } else { memory },
        flags: big(&bytes[6..8]),
        actual: u128::from(big(&bytes[24..32])),
    }
}

/// The row of a run.
pub fn row(registration: &Registration, told: &Ran) -> &'static str {
    let length = (registration.length as usize).min(512);
    match told.rule {
        "" if registration.copy[length..].iter().any(|&byte| byte != 0) => RULES[22],
        "" => "ran",
        rule => rule,
    }
}

fn any(facts: &Facts, holds: impl Fn(&Copied) -> bool) -> bool {
    facts.copied.iter().any(holds)
}

fn flags(facts: &Facts, flags: u64) -> bool {
    any(facts, |c| c.flags == flags)
}

/// Whether a section of partition memory is copied behind its source by a distance of which this holds, with its length.
fn behind(facts: &Facts, holds: impl Fn(u128, u128) -> bool) -> bool {
    any(facts, |c| c.behind().is_some_and(|distance| holds(distance, c.actual)))
}

/// The same of one that is copied before it.
fn before(facts: &Facts, holds: impl Fn(u128, u128) -> bool) -> bool {
    any(facts, |c| c.before().is_some_and(|distance| holds(distance, c.actual)))
}

/// Whether this holds of a section and an earlier one.
fn pair(facts: &Facts, holds: impl Fn(&Copied, &Copied) -> bool) -> bool {
    let mut later = facts.copied.iter().enumerate();
    later.any(|(place, one)| facts.copied[..place].iter().any(|other| holds(one, other)))
}

/// 2^32 and 2^64.
const WORD: u128 = 1 << 32;
const DOUBLE: u128 = 1 << 64;

pub const LINES: &[Line<Facts>] = &[
    ("one section", |f| f.sections == 1),
    ("ten sections", |f| f.sections == 10),
    ("disk", |f| f.disk),
    ("no disk", |f| f.sections > 0 && !f.disk),
    ("a section without request flag 1", |f| f.copied.len() < f.sections),
    ("no section with request flag 1", |f| f.sections > 0 && f.copied.is_empty()),
    ("no partition memory", |f| f.sections > 0 && f.memory == 0),
    ("no platform memory", |f| f.sections > 0 && f.platform == 0),
    ("type 1, copied", |f| any(f, |c| c.kind == 1 && c.actual > 0)),
    ("type 2, copied", |f| any(f, |c| c.kind == 2 && c.actual > 0)),
    ("type 0x11, copied", |f| any(f, |c| c.kind == 0x11 && c.actual > 0)),
    ("type 0x12, copied", |f| any(f, |c| c.kind == 0x12 && c.actual > 0)),
    ("type 0x100 or above, copied", |f| any(f, |c| c.kind >= 0x100 && c.actual > 0)),
    ("status flags 0x8000", |f| f.status_flags == 0x8000),
    ("status flags 0xa000", |f| f.status_flags == 0xa000),
    ("an error in the first section alone", |f| {
        f.copied.len() > 1 && f.copied.iter().enumerate().all(|(place, c)| (c.flags != 0) == (place == 0))
    }),
    ("an error in the last section alone", |f| {
        f.copied.len() > 1 && f.copied.iter().rev().enumerate().all(|(place, c)| (c.flags != 0) == (place == 0))
    }),
    ("error flags 0", |f| flags(f, 0)),
    ("error flags 0x0800", |f| flags(f, 0x0800)),
    ("error flags 0x1000", |f| flags(f, 0x1000)),
    ("error flags 0x1800", |f| flags(f, 0x1800)),
    ("error flags 0x2000", |f| flags(f, 0x2000)),
    ("error flags 0x2800", |f| flags(f, 0x2800)),
    ("error flags 0x3800", |f| flags(f, 0x3800)),
    ("error flags 0x4000", |f| flags(f, 0x4000)),
    ("error flags 0x5000", |f| flags(f, 0x5000)),
    ("error flags 0x6000", |f| flags(f, 0x6000)),
    ("error flags 0x7000", |f| flags(f, 0x7000)),
    ("platform start one before the end", |f| any(f, |c| c.of_platform && c.start + 1 == c.source)),
    ("platform start at the end", |f| any(f, |c| c.of_platform && c.start == c.source)),
    ("platform start one past the end", |f| any(f, |c| c.of_platform && c.start == c.source + 1)),
    ("partition start one before the end", |f| any(f, |c| !c.of_platform && c.start + 1 == c.source)),
    ("partition start at the end", |f| any(f, |c| !c.of_platform && c.start == c.source)),
    ("partition start one past the end", |f| any(f, |c| !c.of_platform && c.start == c.source + 1)),
    ("platform start inside partition memory alone", |f| {
        any(f, |c| c.of_platform && c.start >= c.source && c.start < f.memory && c.requested > 0)
    }),
    ("partition start inside platform memory alone", |f| {
        any(f, |c| !c.of_platform && c.start >= c.source && c.start < f.platform && c.requested > 0)
    }),
    ("requested 0, inside", |f| any(f, |c| c.requested == 0 && c.start < c.source)),
    ("requested 0, at the end", |f| any(f, |c| c.requested == 0 && c.start == c.source)),
    ("requested 0, past the end", |f| any(f, |c| c.requested == 0 && c.start > c.source)),
    ("ends where its source ends", |f| any(f, |c| c.requested > 0 && c.start + c.requested == c.source)),
    ("ends one past its source", |f| any(f, |c| c.start < c.source && c.start + c.requested == c.source + 1)),
    ("destination one before the end", |f| any(f, |c| c.destination + 1 == f.memory)),
    ("destination at the end", |f| any(f, |c| c.destination == f.memory)),
    ("destination one past the end", |f| any(f, |c| c.destination == f.memory + 1)),
    ("room exactly enough", |f| any(f, |c| c.actual > 0 && c.destination + c.has() == f.memory)),
    ("room one short", |f| any(f, |c| c.actual > 0 && c.destination + c.has() == f.memory + 1)),
    ("room for what the source has, not for what is requested", |f| {
        any(f, |c| c.actual > 0 && c.actual == c.has() && c.destination + c.requested > f.memory)
    }),
    ("both starts outside", |f| any(f, |c| c.start >= c.source && c.destination >= f.memory)),
    ("start plus length is 2^64 - 1", |f| any(f, |c| c.start + c.requested == DOUBLE - 1)),
    ("start plus length is 2^64", |f| any(f, |c| c.start + c.requested == DOUBLE)),
    ("2^64 - 1 plus 2", |f| any(f, |c| c.start == DOUBLE - 1 && c.requested == 2)),
    ("start inside, plus length above 2^64 and wrapped inside", |f| {
        any(f, |c| c.start < c.source && c.start + c.requested > DOUBLE && c.start + c.requested - DOUBLE <= c.source)
    }),
    ("destination outside, plus bytes above 2^64", |f| any(f, |c| c.has() > 0 && c.destination + c.has() > DOUBLE)),
    ("start inside by its low 32 bits alone", |f| any(f, |c| c.start >= c.source && c.start % WORD < c.source)),
    ("length inside by its low 32 bits alone", |f| {
        any(f, |c| c.requested >= WORD && c.start < c.source && c.start + c.requested % WORD <= c.source)
    }),
    ("destination inside by its low 32 bits alone", |f| {
        any(f, |c| c.destination >= f.memory && c.destination % WORD < f.memory)
    }),
    ("onto itself", |f| behind(f, |distance, _| distance == 0)),
    ("behind its source by 1", |f| behind(f, |distance, length| distance == 1 && length > 1)),
    ("behind by less than the length", |f| behind(f, |distance, length| 1 < distance && distance < length)),
    ("behind by the length less 1", |f| behind(f, |distance, length| length > 2 && distance == length - 1)),
    ("behind by the length", |f| behind(f, |distance, length| distance == length)),
    ("behind by more than the length", |f| behind(f, |distance, length| distance > length)),
    ("behind by 1, above 4,096 bytes", |f| behind(f, |distance, length| distance == 1 && length > 4096)),
    ("behind by less than the length, above 8,192 bytes", |f| {
        behind(f, |distance, length| 1 < distance && distance < length && length > 8192)
    }),
    ("before its source by 1", |f| before(f, |distance, length| distance == 1 && length > 1)),
    ("before by less than the length", |f| before(f, |distance, length| 1 < distance && distance < length)),
    ("before by the length less 1", |f| before(f, |distance, length| length > 2 && distance == length - 1)),
    ("before by the length", |f| before(f, |distance, length| distance == length)),
    ("before by more than the length", |f| before(f, |distance, length| distance > length)),
    ("before by 1, above 4,096 bytes", |f| before(f, |distance, length| distance == 1 && length > 4096)),
    ("before by less than the length, above 8,192 bytes", |f| {
        before(f, |distance, length| 1 < distance && distance < length && length > 8192)
    }),
    ("platform memory, above 4,096 bytes", |f| any(f, |c| c.of_platform && c.actual > 4096)),
    ("a section reads what an earlier one wrote", |f| pair(f, Copied::reads)),
    ("a section overwrites what an earlier one wrote", |f| pair(f, Copied::overwrites)),
    ("a section overwrites what an earlier one read", |f| pair(f, |one, other| other.reads(one))),
    ("ten sections, all copied", |f| f.copied.len() == 10 && f.copied.iter().all(|c| c.actual > 0)),
];
