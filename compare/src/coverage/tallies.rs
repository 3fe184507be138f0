//! The rules and lines of the tallies (M-106, M-108) and of forecasts (M-107).

use super::{little, Coverage, Line, Table};
use crate::buffers::record_places;
use crate::library::tallies::{Forecast, Kept, Recount, Tallied, Tallies};
use crate::paper;
use crate::tallies::case::Operation;

const APPENDED: [&str; 13] = [
    "done",
    "a use beyond the buffer",
    "a count above the use",
    "malformed: not one record",
    "malformed: records do not fill the buffer",
    "malformed: length",
    "malformed: kind",
    "malformed: node type",
    "malformed: name",
    "malformed: bytes behind a deleted property's name",
    "malformed: value",
    "past the lent buffer",
    "past 1,048,576 bytes",
];

const JOINED: [&str; 13] = [
    "done",
    "a use beyond the buffer",
    "a count above the use",
    "malformed: oversized",
    "malformed: records do not fill the buffer",
    "malformed: length",
    "malformed: kind",
    "malformed: node type",
    "malformed: name",
    "malformed: bytes behind a deleted property's name",
    "malformed: value",
    "past the lent buffer",
    "past 1,048,576 bytes",
];

/// An operation, by the one before it.
const BEHIND: [&str; 9] = [
    "append behind append",
    "append behind join",
    "append behind clear",
    "append behind a refusal",
    "join behind append",
    "join behind join",
    "join behind clear",
    "join behind a refusal",
    "append or join behind a change of the bytes that are not in use",
];

/// An append or a join, and what came of it.
struct Facts {
    join: bool,
    /// Of what is given: its bytes, its records, the kind of the first, and whether it is no journal.
    length: u64,
    records: usize,
    kind: u64,
    malformed: bool,
    /// The bytes of the buffer.
    size: u64,
    before: Tallied,
    number: u32,
    rule: &'static str,
}

/// The most bytes of a journal.
const MOST: u64 = 1_048_576;

impl Facts {
    /// Where the journal would end.
    fn end(&self) -> Option<u64> {
        self.before.used.checked_add(self.length)
    }

    fn ends(&self, join: bool, number: u32, end: u64) -> bool {
        self.join == join && self.number == number && self.end() == Some(end)
    }

    /// Done in a longer buffer, or refused there by the limit alone.
    fn at_limit(&self, join: bool, number: u32, end: u64) -> bool {
        self.size > MOST && self.ends(join, number, end)
    }

    /// An append that is done, of a record of this kind.
    fn kind(&self, kind: u64) -> bool {
        !self.join && self.number == 0 && self.kind == kind
    }

    fn counts(&self) -> impl Iterator<Item = u64> {
        self.before.tallies.rows.into_iter().flatten()
    }

    /// The places of the counts above the use.
    fn above(&self) -> Vec<usize> {
        self.counts().enumerate().filter(|&(_, count)| count > self.before.used).map(|(place, _)| place).collect()
    }
}

const LINES: &[Line<Facts>] = &[
    ("append of kind 1", |f| f.kind(1)),
    ("append of kind 2", |f| f.kind(2)),
    ("append of kind 3", |f| f.kind(3)),
    ("append of kind 4", |f| f.kind(4)),
    ("append of kind 5", |f| f.kind(5)),
    ("append of kind 6", |f| f.kind(6)),
    ("append to the last byte of the buffer", |f| f.ends(false, 0, f.size)),
    ("append, one byte too few", |f| f.ends(false, 51, f.size + 1)),
    ("join to the last byte of the buffer", |f| f.ends(true, 0, f.size)),
    ("join, one byte too few", |f| f.ends(true, 51, f.size + 1)),
    ("append to 1,048,576 bytes", |f| f.at_limit(false, 0, MOST)),
    ("append to 1,048,577 bytes", |f| f.at_limit(false, 51, MOST + 1)),
    ("join to 1,048,576 bytes", |f| f.at_limit(true, 0, MOST)),
    ("join to 1,048,577 bytes", |f| f.at_limit(true, 51, MOST + 1)),
    ("append, malformed and no room", |f| !f.join && f.number == 50 && f.end() > Some(f.size)),
    ("join, malformed and no room", |f| f.join && f.number == 50 && f.end() > Some(f.size)),
    ("append of no bytes", |f| !f.join && f.number == 50 && f.length == 0),
    ("append of two good records", |f| !f.join && f.rule == "malformed: not one record" && f.records == 2),
    ("join of no bytes", |f| f.join && f.number == 0 && f.length == 0),
    ("join of no bytes, the buffer full", |f| f.join && f.number == 0 && f.length == 0 && f.before.used == f.size),
    ("join of one record", |f| f.join && f.number == 0 && f.records == 1),
    ("join of more than a hundred records", |f| f.join && f.number == 0 && f.records > 100),
    ("join of 1,048,576 bytes", |f| f.join && f.number == 0 && f.length == MOST),
    ("join of 1,048,577 bytes or a record more", |f| f.join && f.number == 50 && f.length > MOST),
    ("a use that is the buffer's length", |f| f.before.used == f.size && f.size > 0),
    ("a use one beyond the buffer", |f| f.before.used == f.size + 1),
    ("a use of 2^64 - 1", |f| f.before.used == u64::MAX),
    ("a use above 1,048,576 in a longer buffer", |f| f.number == 51 && f.before.used > MOST),
    ("no bytes joined, a use above 1,048,576", |f| f.number == 51 && f.before.used > MOST && f.length == 0),
    ("a count that is the use", |f| f.number == 0 && f.before.used > 0 && f.counts().any(|c| c == f.before.used)),
    ("a count one above the use", |f| f.number == 52 && f.counts().any(|c| c == f.before.used.wrapping_add(1))),
    ("a count of 2^64 - 1", |f| f.number == 52 && f.counts().any(|c| c == u64::MAX)),
    ("the first count alone above the use", |f| f.number == 52 && f.above() == [0]),
    ("the last count alone above the use", |f| f.number == 52 && f.above() == [11]),
    ("52, and malformed", |f| f.number == 52 && f.malformed),
    ("52, and no room", |f| f.number == 52 && f.before.used <= f.size && f.end() > Some(f.size)),
];

/// The bytes of a journal that is counted, and what came of it.
type Counted = (u64, Recount);

fn counts_in(recount: &Recount, row: usize) -> bool {
    recount.tallies.rows[row] != [0; 3]
}

const RECOUNTS: &[Line<Counted>] = &[
    ("good", |(_, r)| r.number == 0),
    ("malformed", |(_, r)| r.number == 50),
    ("no records", |(length, _)| *length == 0),
    ("1,048,576 bytes", |(length, r)| *length == MOST && r.number == 0),
    ("above 1,048,576 bytes", |(length, r)| *length > MOST && r.number == 50),
    ("records that are counted nowhere alone", |(length, r)| {
        *length > 0 && r.number == 0 && r.tallies == Tallies::ZERO
    }),
    ("operations of negative scopes", |(_, r)| counts_in(r, 0)),
    ("operations of scope 1", |(_, r)| counts_in(r, 1)),
    ("operations of scope 2", |(_, r)| counts_in(r, 2)),
    ("operations of scope 3", |(_, r)| counts_in(r, 3)),
    ("operations of scope 3 and of no other", |(_, r)| counts_in(r, 3) && !counts_in(r, 1)),
];

struct Told {
    scope: u32,
    state: u64,
    counts: [u64; 3],
    told: Forecast,
}

impl Told {
    fn length(&self) -> u128 {
        self.counts.iter().map(|&count| u128::from(count)).sum()
    }

    fn status(&self, status: i32) -> bool {
        self.told.status as i32 == status
    }

    /// One of the scopes that have a forecast.
    fn is_known(&self) -> bool {
        self.scope >= 1 << 31 || matches!(self.scope, 1 | 2)
    }

    fn deletes_alone(&self, deletes: u64) -> bool {
        self.is_known() && self.counts == [deletes, 0, 0] && self.state == 0
    }
}

/// 2^32 and 2^64.
const WORD: u64 = 1 << 32;
const DOUBLE: u128 = 1 << 64;

const FORECASTS: &[Line<Told>] = &[
    ("negative scope, status 0", |f| f.scope >= 1 << 31 && f.status(0)),
    ("negative scope, status 1", |f| f.scope >= 1 << 31 && f.status(1)),
    ("negative scope, status -3", |f| f.scope >= 1 << 31 && f.status(-3)),
    ("scope 1, status 0", |f| f.scope == 1 && f.status(0)),
    ("scope 1, status 1", |f| f.scope == 1 && f.status(1)),
    ("scope 1, status -3", |f| f.scope == 1 && f.status(-3)),
    ("scope 2, status 0", |f| f.scope == 2 && f.status(0)),
    ("scope 2, status 1", |f| f.scope == 2 && f.status(1)),
    ("scope 2, status -3", |f| f.scope == 2 && f.status(-3)),
    ("scope 3 with operations, status -3", |f| f.scope == 3 && f.status(-3) && f.length() > 0),
    ("scope 0", |f| f.scope == 0),
    ("scope 4 to 2^31 - 1", |f| (4..1 << 31).contains(&f.scope)),
    ("scope 0x80000000", |f| f.scope == 1 << 31),
    ("scope 0xffffffff", |f| f.scope == u32::MAX),
    ("state 0 of an empty list", |f| f.is_known() && f.state == 0 && f.length() == 0),
    ("state 1 of an empty list", |f| f.is_known() && f.state == 1 && f.length() == 0),
    ("state one before the length", |f| f.is_known() && f.state > 0 && u128::from(f.state) + 1 == f.length()),
    ("state at the length", |f| f.is_known() && f.state > 0 && u128::from(f.state) == f.length()),
    ("state one past the length", |f| f.is_known() && u128::from(f.state) == f.length() + 1),
    ("state 2^32 - 1, answered", |f| f.is_known() && f.state == WORD - 1 && !f.status(-3)),
    ("1,018 deletes", |f| f.deletes_alone(1018)),
    ("1,019 deletes", |f| f.deletes_alone(1019)),
    ("the run ends between deletes and updates", |f| f.status(1) && f.told.next == f.counts[0] && f.counts[1] > 0),
    ("the run ends between updates and additions", |f| {
        f.status(1) && u128::from(f.told.next) == u128::from(f.counts[0]) + u128::from(f.counts[1])
    }),
    ("the run begins among the additions", |f| {
        f.status(1) && u128::from(f.state) >= u128::from(f.counts[0]) + u128::from(f.counts[1])
    }),
    ("the next state passes 2^32 - 1", |f| f.told.next >= WORD),
    ("the list passes 2^64 - 1", |f| f.is_known() && f.length() >= DOUBLE),
    ("the list is of 2^64 to the state", |f| f.is_known() && (DOUBLE..DOUBLE + 4096).contains(&f.length())),
    ("a count of 2^64 - 1", |f| f.is_known() && f.counts.contains(&u64::MAX)),
];

/// A forecast that was held against the call, by the call's answer.
const CALLS: [&str; 6] = [
    "forecast and call, status 0",
    "forecast and call, status 1",
    "forecast and call, status -3",
    "scope 3, where the call answers and the forecast is -3",
    "three journals joined both ways",
    "three journals, one of them empty, joined both ways",
];

pub fn tables() -> [Table; 7] {
    [
        Table::new("records appended, by rule", APPENDED.into_iter()),
        Table::new("journals joined, by rule", JOINED.into_iter()),
        Table::of_lines("appends and joins, lines", LINES),
        Table::new("operations behind operations", BEHIND.into_iter()),
        Table::of_lines("recounts", RECOUNTS),
        Table::of_lines("forecasts", FORECASTS),
        Table::new("forecasts and calls, joins both ways", CALLS.into_iter()),
    ]
}

fn behind_row(before: (&Operation, u32), operation: &Operation) -> Option<&'static str> {
    let places = match operation {
        Operation::Append(_) => [0, 1, 2, 3],
        Operation::Join(_) => [4, 5, 6, 7],
        _ => return None,
    };
    let place = match before {
        (Operation::Overwrite(_), _) => return Some(BEHIND[8]),
        (Operation::Clear, _) => 2,
        (_, 1..) => 3,
        (Operation::Append(_), 0) => 0,
        (Operation::Join(_), 0) => 1,
    };
    Some(BEHIND[places[place]])
}

impl Coverage {
    /// An operation over this use and tallies, in a buffer of so many bytes.
    pub fn kept(&mut self, operation: &Operation, size: usize, before: &Tallied, told: &Kept) {
        let (join, bytes) = match operation {
            Operation::Append(bytes) => (false, bytes),
            Operation::Join(bytes) => (true, bytes),
            _ => return,
        };
        let row = if told.number == 0 { "done" } else { told.rule };
        self.tallies[usize::from(join)].add(row, 1);
        let facts = Facts {
            join,
            length: bytes.len() as u64,
            records: record_places(bytes).len(),
            kind: bytes.get(2..4).map_or(0, little),
            malformed: paper::tallies::recount(bytes).is_err(),
            size: size as u64,
            before: *before,
            number: told.number,
            rule: told.rule,
        };
        self.tallies[2].count_lines(LINES, &facts);
    }

    /// An operation that is done, behind the one before it and that one's number.
    pub fn kept_behind(&mut self, before: Option<(&Operation, u32)>, operation: &Operation, number: u32) {
        let row = before.filter(|_| number == 0).and_then(|before| behind_row(before, operation));
        row.into_iter().for_each(|row| self.tallies[3].add(row, 1));
    }

    pub fn recount(&mut self, journal: &[u8], told: &Recount) {
        self.tallies[4].count_lines(RECOUNTS, &(journal.len() as u64, *told));
    }

    pub fn forecast(&mut self, tallies: &Tallies, scope: u32, state: u32, told: &Forecast) {
        let counts = match scope {
            1..=3 => tallies.rows[scope as usize],
            _ => tallies.rows[0],
        };
        self.tallies[5].count_lines(FORECASTS, &Told { scope, state: u64::from(state), counts, told: *told });
    }

    /// A forecast that was held against what the call answers.
    pub fn forecast_of_call(&mut self, scope: u32, call: &Forecast) {
        let row = match (scope, call.status as i32) {
            (3, 0 | 1) => CALLS[3],
            (_, 0) => CALLS[0],
            (_, 1) => CALLS[1],
            _ => CALLS[2],
        };
        self.tallies[6].add(row, 1);
    }

    pub fn joined_both_ways(&mut self, parts: &[Vec<u8>; 3], done: bool) {
        let empty = parts.iter().any(|part| part.is_empty());
        self.tallies[6].add(CALLS[4], u64::from(done));
        self.tallies[6].add(CALLS[5], u64::from(done && empty));
    }
}
