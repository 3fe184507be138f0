//! What the replays of traces came to, and the states of a replay that were refused (M-110).

use super::{little, Line};
use crate::buffers::{record_places, word_at};
use crate::case::{Burst, StateCase, TraceCase};
use crate::library::{Replay, Report};
use crate::paper::replay::{first_record, Record};

pub const RULES: [&str; 11] = [
    "agreed",
    "differs",
    "cut off",
    "length under 2",
    "kind",
    "body above 4,100 bytes",
    "34 body under 5",
    "34 past the end of memory",
    "33 without a 32",
    "32 without a good 33",
    "after the last number",
];

/// The rows of the trace table: all rules but the last, for which a trace would have to be too long.
pub const TRACE_RULES: usize = RULES.len() - 1;

pub struct Facts {
    report: Report,
    memory: u64,
    trace: Vec<u8>,
    bursts: Vec<Burst>,
    /// The places of the trace's records, as far as their lengths lead.
    places: Vec<(usize, usize)>,
    /// How many of them the replay took, without one that is malformed.
    taken: usize,
}

pub fn facts(case: &TraceCase, report: Report) -> Facts {
    let places = record_places(&case.trace);
    let (trace, bursts, memory) = (case.trace.clone(), case.bursts.clone(), case.given.memory.len() as u64);
    let mut facts = Facts { report, memory, trace, bursts, places, taken: 0 };
    facts.taken = match report.verdict {
        0 => facts.places.len(),
        1 => facts.nth_call(report.number) + 2,
        _ => report.number as usize - 1,
    };
    facts
}

/// The kind of a record, or 0 of one that is cut off before.
fn kind(record: &[u8]) -> u64 {
    record.get(2..4).map_or(0, little)
}

/// The bytes behind length and kind.
fn body(record: &[u8]) -> &[u8] {
    record.get(4..).unwrap_or(&[])
}

/// Where the bytes of a 34 end in memory.
fn setting_end(record: &[u8]) -> u64 {
    body(record).get(..4).map_or(0, |address| little(address) + body(record).len() as u64 - 4)
}

impl Facts {
    fn record(&self, place: usize) -> Option<&[u8]> {
        self.places.get(place).map(|&(from, to)| &self.trace[from..to])
    }

    fn records(&self) -> impl Iterator<Item = &[u8]> {
        self.places.iter().map(|&(from, to)| &self.trace[from..to])
    }

    /// The place of the 32 of a call, where the records are good as far; calls count from 1.
    fn nth_call(&self, call: u64) -> usize {
        let mut calls = self.records().enumerate().filter(|(_, record)| kind(record) == 32);
        calls.nth(call as usize - 1).map_or(0, |(place, _)| place)
    }

    /// The row of what the replay came to.
    pub fn rule(&self) -> &'static str {
        match self.report.verdict {
            0 => "agreed",
            1 => "differs",
            _ => rule_of(&self.trace[self.places[self.taken].0..]),
        }
    }

    /// The malformed record.
    fn bad(&self) -> Option<&[u8]> {
        self.record(self.taken).filter(|_| self.report.verdict == 2)
    }

    fn is_bad(&self, holds: impl Fn(&[u8]) -> bool) -> bool {
        self.bad().is_some_and(holds)
    }

    /// What stands behind a 32 that is malformed by it.
    fn behind_32(&self) -> Option<&[u8]> {
        self.record(self.taken + 1).filter(|_| self.rule() == "32 without a good 33")
    }

    fn is_behind_32(&self, holds: impl Fn(&[u8]) -> bool) -> bool {
        self.behind_32().is_some_and(holds)
    }

    /// The buffers of the call that differs, before it and as it was recorded.
    fn differs(&self, holds: impl Fn(&[u8], &[u8]) -> bool) -> bool {
        let buffer = |place: usize| body(self.record(place).unwrap_or(&[]));
        self.report.verdict == 1 && holds(buffer(self.taken - 2), buffer(self.taken - 1))
    }

    /// A record of this kind was taken of which this holds.
    fn took(&self, of: u64, holds: impl Fn(&[u8]) -> bool) -> bool {
        self.records().take(self.taken).any(|record| kind(record) == of && holds(record))
    }

    fn agreed(&self) -> Option<u64> {
        (self.report.verdict == 0).then_some(self.report.number)
    }

    fn offset(&self) -> usize {
        self.report.offset as usize
    }

    /// The replay was asked before its end, at a place of which this holds.
    fn asked_at(&self, holds: impl Fn(usize) -> bool) -> bool {
        let ends = self.bursts.iter().scan(0, |at, burst| {
            *at += burst.length;
            Some((*at, burst.end))
        });
        let mut asked = ends.filter(|end| end.1 && end.0 < self.trace.len());
        asked.any(|end| holds(end.0))
    }

    /// A record that was taken begins there.
    fn begins_at(&self, at: usize) -> bool {
        self.places.iter().take(self.taken).any(|place| place.0 == at)
    }
}

/// The rule that the malformed record breaks which these bytes begin with.
fn rule_of(bytes: &[u8]) -> &'static str {
    match first_record(bytes, 1) {
        Err(rule) => rule,
        Ok((Record { kind: 32, .. }, _)) => "32 without a good 33",
        Ok((Record { kind: 33, .. }, _)) => "33 without a 32",
        Ok((Record { body, .. }, _)) if body.len() < 5 => "34 body under 5",
        Ok(_) => "34 past the end of memory",
    }
}

/// The offset of the status word of the buffer, where it has one.
fn status_at(args: &[u8]) -> Option<usize> {
    Some(12 + 4 * word_at(args, 4)?.min(16) as usize)
}

pub const LINES: &[Line<Facts>] = &[
    ("an empty trace", |f| f.trace.is_empty()),
    ("agreed, records and no call", |f| f.agreed() == Some(0) && f.taken > 0),
    ("agreed, five calls or more", |f| f.agreed() >= Some(5)),
    ("agreed, a 34 behind the last call", |f| f.agreed() > Some(0) && f.records().last().map(kind) == Some(34)),
    ("an empty 32, good", |f| f.took(32, |r| body(r).is_empty())),
    ("a 32 of under 12 bytes, good", |f| f.took(32, |r| (1..12).contains(&body(r).len()))),
    ("a 32 of 4,100 bytes, good", |f| f.took(32, |r| body(r).len() == 4100)),
    ("a 34 body of 5 bytes, good", |f| f.took(34, |r| body(r).len() == 5)),
    ("a 34 body of 4,100 bytes, good", |f| f.took(34, |r| body(r).len() == 4100)),
    ("a 34 that ends where memory does", |f| f.took(34, |r| setting_end(r) == f.memory)),
    ("a 34 one byte past the end of memory", |f| {
        f.rule() == "34 past the end of memory" && f.is_bad(|r| setting_end(r) == f.memory + 1)
    }),
    ("a 34 that ends at 2^32 or behind", |f| {
        f.rule() == "34 past the end of memory" && f.is_bad(|r| setting_end(r) >= 1 << 32)
    }),
    ("a 34 body of 4 bytes", |f| f.is_bad(|r| kind(r) == 34 && r.len() == 8 && r[0] == 6)),
    ("a body of 4,101 bytes", |f| f.is_bad(|r| r.len() > 4 && r.starts_with(&4103u16.to_le_bytes()))),
    ("length 0", |f| f.rule() == "length under 2" && f.is_bad(|r| r[0] == 0)),
    ("length 1", |f| f.rule() == "length under 2" && f.is_bad(|r| r[0] == 1)),
    ("kind 31", |f| f.is_bad(|r| kind(r) == 31)),
    ("kind 35", |f| f.is_bad(|r| kind(r) == 35)),
    ("a kind with another high byte", |f| f.is_bad(|r| kind(r) == 0x120)),
    ("cut off in length or kind", |f| f.rule() == "cut off" && f.is_bad(|r| r.len() < 4)),
    ("cut off in the body", |f| f.rule() == "cut off" && f.is_bad(|r| r.len() >= 4)),
    ("a 32 at the end", |f| f.rule() == "32 without a good 33" && f.behind_32().is_none()),
    ("a 32, then a 32", |f| f.is_behind_32(|r| kind(r) == 32)),
    ("a 32, then a 34", |f| f.is_behind_32(|r| kind(r) == 34)),
    ("a 32, then another kind", |f| f.is_behind_32(|r| r.len() >= 4 && !(32..=34).contains(&kind(r)))),
    ("a 32, then a 33 that is cut off", |f| f.is_behind_32(|r| kind(r) == 33 && rule_of(r) == "cut off")),
    ("a 32, then a 33 above 4,100 bytes", |f| f.is_behind_32(|r| kind(r) == 33 && rule_of(r).starts_with("body"))),
    ("a 33 at the beginning", |f| f.taken == 0 && f.rule() == "33 without a 32"),
    ("a 33 behind a 33", |f| {
        f.taken > 0 && f.rule() == "33 without a 32" && f.record(f.taken - 1).map(kind) == Some(33)
    }),
    ("differs in the first byte", |f| f.differs(|_, after| f.offset() == 0 && !after.is_empty())),
    ("differs in the last byte", |f| {
        f.differs(|before, after| before.len() == after.len() && f.offset() + 1 == after.len())
    }),
    ("differs in the status word", |f| {
        f.differs(|before, _| status_at(before).is_some_and(|at| (at..at + 4).contains(&f.offset())))
    }),
    ("a 33 that is a byte shorter and otherwise agrees", |f| {
        f.differs(|before, after| after.len() + 1 == before.len() && f.offset() == after.len())
    }),
    ("a 33 that is a byte longer and otherwise agrees", |f| {
        f.differs(|before, after| after.len() == before.len() + 1 && f.offset() == before.len())
    }),
    ("a 33 of no bytes beside a 32 of some", |f| f.differs(|before, after| after.is_empty() && !before.is_empty())),
    ("a 33 of 4,100 bytes that differs", |f| f.differs(|_, after| after.len() == 4100)),
    ("differs, after calls that agreed", |f| f.differs(|_, _| f.report.number > 1)),
    ("malformed, after a call that agreed", |f| f.bad().is_some() && f.took(33, |_| true)),
    ("records behind a stop", |f| f.report.verdict != 0 && f.places.len() > f.taken + 2),
    ("one burst", |f| f.bursts.is_empty() && !f.trace.is_empty()),
    ("single bytes", |f| f.trace.len() > 20 && f.bursts.len() > 20 && f.bursts.iter().all(|burst| burst.length < 2)),
    ("a burst of nothing between", |f| f.bursts.len() > 2 && f.bursts[1].length == 0),
    ("asked in the middle, between two records", |f| f.asked_at(|at| f.begins_at(at))),
    ("asked in the middle of a record", |f| f.asked_at(|at| !f.begins_at(at))),
];

/// The rules by which a state is refused, and those that are taken.
pub const STATES: [&str; 30] = [
    "taken, all agreed so far",
    "taken, stopped by a difference",
    "taken, stopped by a malformed record",
    "held under 4,104 bytes",
    "args under 4,100 bytes",
    "registration",
    "records above 4,294,967,295",
    "waiting above 4,101",
    "held above 4,103",
    "held after a stop",
    "bytes behind the copy",
    "none registered, with a copy",
    "copy under 40 bytes",
    "no good structure",
    "active",
    "reading number under 2",
    "reading number above the entries of any inventory",
    "reading of no list",
    "reading in another edition",
    "agreed, offset",
    "agreed, more calls than records",
    "agreed, fewer calls than made",
    "differs, waiting or offset",
    "differs, more calls than records",
    "differs, fewer calls than made",
    "malformed, offset",
    "malformed, not the record behind",
    "malformed, fewer records than calls made",
    "verdict above 2",
    "held bytes that make a record",
];

/// The row of a feed.
pub fn state_row(case: &StateCase, rule: &'static str) -> &'static str {
    match (rule, case.replay.report.verdict) {
        ("", verdict) => STATES[verdict.min(2) as usize],
        (rule, _) => rule,
    }
}

/// A feed of a replay: the replay, the bytes that it held, its number, and what it came to.
pub struct StateFacts {
    given: Replay,
    held: Vec<u8>,
    number: u32,
    report: Report,
}

pub fn state_facts(case: &StateCase, number: u32, report: Report) -> StateFacts {
    let held = case.given.held.get(..case.replay.held.min(8) as usize).unwrap_or(&[]).to_vec();
    StateFacts { given: case.replay, held, number, report }
}

const LAST: u64 = 4_294_967_295;

impl StateFacts {
    /// A feed that is taken, of which this holds.
    fn taken(&self, holds: impl Fn(&Replay) -> bool) -> bool {
        self.number == 0 && holds(&self.given)
    }

    /// A replay that goes on stops at a malformed record of this number.
    fn stops_at(&self, record: u64) -> bool {
        self.taken(|given| given.report.verdict == 0) && (self.report.verdict, self.report.number) == (2, record)
    }
}

pub const STATE_LINES: &[Line<StateFacts>] = &[
    ("a record past the last number", |f| f.stops_at(LAST + 1)),
    ("a 32 that is the last record", |f| f.stops_at(LAST)),
    ("a few records before the last number, all agreed", |f| {
        f.report.verdict == 0 && f.taken(|given| given.records > LAST - 8)
    }),
    ("a difference in a call about number 2^31", |f| {
        f.report.number > (1 << 31) - 5 && f.report.verdict == 1 && f.taken(|given| given.report.verdict == 0)
    }),
    ("records = 2 x number, taken", |f| {
        f.taken(|given| given.report.verdict == 0 && given.records == 2 * given.report.number)
    }),
    ("a registered structure, taken", |f| f.taken(|given| given.registration.phase == 1)),
    ("a reading in progress, taken", |f| f.taken(|given| given.reading.number > 1)),
    ("a reading at number 69,905, taken", |f| f.taken(|given| given.reading.number == 69_905)),
    ("a reading at number 69,906, refused", |f| f.number == 14 && f.given.reading.number == 69_906),
    ("waiting 4,101, taken", |f| f.taken(|given| given.waiting == 4101)),
    ("held 4,103, taken", |f| f.taken(|given| given.held == 4103)),
    ("three held bytes of no record's length, taken", |f| f.held.len() == 3 && f.held[1] > 16 && f.taken(|_| true)),
    ("four held bytes of no record's length, refused", |f| f.held.len() == 4 && f.held[1] > 16 && f.number == 14),
    ("four held bytes of no record's kind, refused", |f| f.held.len() == 4 && f.held[2] == 31 && f.number == 14),
    ("offset 4,099, taken", |f| f.taken(|given| given.report.offset == 4099)),
    ("offset 4,100, refused", |f| f.number == 14 && f.given.report.offset == 4100),
    ("both 15 and 14 due", |f| f.number == 15 && f.given.report.verdict > 2),
];
