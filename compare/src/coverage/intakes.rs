//! The rules and lines of intakes (M-109).

use super::{little, Coverage, Line, Table};
use crate::intakes::Receiver;
use crate::library::intakes::{Burst, End, Intake};
use crate::tallies::case::Operation;

const RULES: [&str; 20] = [
    "taken",
    "after a fault",
    "malformed at four bytes: kind",
    "malformed at four bytes: length",
    "malformed: node type",
    "malformed: name",
    "malformed: bytes behind a deleted property's name",
    "malformed: value",
    "past the lent buffer",
    "past 1,048,576 bytes",
    "a store under 32,808 bytes",
    "number 0",
    "a fault that is none",
    "a fault with bytes held",
    "a use beyond the buffer",
    "a count above the use",
    "more held than the store has",
    "a whole record held",
    "four bytes held that are refused",
    "taken, at number 2^64 - 1",
];

const ENDS: [(u32, &str); 6] = [
    (0, "nothing to say"),
    (53, "unfinished"),
    (50, "malformed"),
    (51, "no room"),
    (54, "a state of no intake"),
    (55, "a store that is too small"),
];

const BETWEEN: [&str; 7] = [
    "append with bytes held",
    "join with bytes held",
    "clear with bytes held",
    "append after a fault",
    "join after a fault",
    "clear after a fault",
    "append with bytes held that is refused",
];

const CUTTINGS: [&str; 4] = [
    "every cutting of a short stream",
    "every cutting of a short stream with a fault",
    "every cutting in two of a stream",
    "every cutting in two of a stream with a fault",
];

/// A longer burst is not looked into.
const MOST: usize = 8192;

/// The most bytes of a journal.
const LIMIT: u64 = 1_048_576;

/// What a burst finds and, once it is known, what it gives.
pub struct Facts {
    before: Intake,
    size: u64,
    store: u64,
    burst: u64,
    /// What is held and the burst, of a short one.
    arrived: Vec<u8>,
    told: Option<Burst>,
}

/// The facts before a burst.
pub fn facts(receiver: &Receiver, bytes: &[u8]) -> Facts {
    let held = receiver.held();
    let arrived = if held.len() + bytes.len() > MOST { Vec::new() } else { [held, bytes].concat() };
    Facts {
        before: receiver.intake(),
        size: receiver.journal.buffer.content().len() as u64,
        store: receiver.store.content().len() as u64,
        burst: bytes.len() as u64,
        arrived,
        told: None,
    }
}

impl Facts {
    fn told(&self) -> &Burst {
        self.told.as_ref().expect("the facts are looked at behind the burst")
    }

    fn is(&self, number: u32) -> bool {
        self.told().number == number
    }

    fn after(&self) -> &Intake {
        &self.told().intake
    }

    /// The bytes that were stored.
    fn stored(&self) -> u64 {
        self.after().journal.used.saturating_sub(self.before.journal.used)
    }

    /// Stopped by this burst.
    fn stops(&self) -> bool {
        self.before.fault == 0 && self.after().fault != 0
    }

    /// What the records that were stored leave of a short burst.
    fn left(&self) -> &[u8] {
        self.arrived.get(self.stored() as usize..).unwrap_or(&[])
    }

    fn stops_at(&self, rule: &str) -> bool {
        self.stops() && self.told().rule.starts_with(rule)
    }

    /// Length and kind of the record that is left.
    fn head(&self) -> Option<(u64, u64)> {
        let head = self.left().get(..4)?;
        Some((little(&head[..2]), little(&head[2..])))
    }

    /// Refused at the first four bytes, of this length and kind.
    fn refused_head(&self, length: u64, kind: u64) -> bool {
        self.stops_at("malformed at four bytes") && self.head() == Some((length, kind))
    }

    /// Good so far, of this length and kind.
    fn good_head(&self, length: u64, kind: u64) -> bool {
        self.is(0) && self.head() == Some((length, kind))
    }

    /// Taken, and so many bytes are held then.
    fn holds(&self, bytes: u64) -> bool {
        self.is(0) && self.after().held == bytes
    }

    /// The room behind the bytes that were stored.
    fn room(&self) -> u64 {
        self.size.min(LIMIT).saturating_sub(self.after().journal.used)
    }

    /// The bytes of the whole record that is left.
    fn record(&self) -> u64 {
        self.head().map_or(0, |(length, _)| 2 + length)
    }

    /// Three bytes and no more are held of a record with this length.
    fn three_of(&self, length: u64) -> bool {
        self.holds(3) && self.left().get(..2).map(little) == Some(length)
    }
}

const LINES: &[Line<Facts>] = &[
    ("a burst of nothing", |f| f.burst == 0 && f.is(0)),
    ("a burst of nothing after a fault", |f| f.burst == 0 && f.before.fault != 0),
    ("a burst of one byte", |f| f.burst == 1 && f.is(0)),
    ("one byte held", |f| f.holds(1)),
    ("two bytes held", |f| f.holds(2)),
    ("three bytes held", |f| f.holds(3)),
    ("four bytes held", |f| f.holds(4)),
    ("all of a record but its last byte held", |f| f.is(0) && f.after().held > 4 && f.after().held + 1 == f.record()),
    ("32,807 bytes held", |f| f.holds(32_807)),
    ("the held record and others behind it stored", |f| f.before.held > 0 && f.stored() > 60),
    ("the held record is finished and another held", |f| f.before.held > 0 && f.stored() > 0 && f.after().held > 0),
    ("more of the held record, not the end", |f| f.before.held > 0 && f.burst > 0 && f.is(0) && f.stored() == 0),
    ("twenty records and more in one burst", |f| f.after().number.saturating_sub(f.before.number) >= 20),
    ("a journal that holds records, record 1", |f| f.before.number == 1 && f.before.journal.used > 0 && f.stored() > 0),
    ("malformed behind stored records", |f| f.is(50) && f.stops() && f.stored() > 0),
    ("no room behind stored records", |f| f.is(51) && f.stops() && f.stored() > 0),
    ("malformed in the held record", |f| f.is(50) && f.stops() && f.before.held > 0 && f.stored() == 0),
    ("no room for the held record", |f| f.is(51) && f.stops() && f.before.held > 0 && f.stored() == 0),
    ("malformed at the fourth byte", |f| f.stops_at("malformed at four bytes") && f.left().len() == 4),
    ("malformed when complete", |f| f.is(50) && f.stops() && !f.stops_at("malformed at four bytes")),
    ("malformed when complete, with no room", |f| {
        f.is(50) && f.stops() && !f.stops_at("malformed at four bytes") && f.record() > f.room()
    }),
    ("malformed at four bytes, with no room", |f| f.stops_at("malformed at four bytes") && f.room() < 4),
    ("unfinished, with no room for it", |f| f.is(0) && f.after().held >= 4 && f.record() > f.room()),
    ("the last byte of room", |f| f.is(0) && f.stored() > 0 && f.after().journal.used == f.size),
    ("one byte too few", |f| f.is(51) && f.stops() && f.size < LIMIT && f.record() == f.room() + 1),
    ("to 1,048,576 bytes in a longer buffer", |f| {
        f.is(0) && f.stored() > 0 && f.size > LIMIT && f.after().journal.used == LIMIT
    }),
    ("past 1,048,576 bytes in a longer buffer", |f| f.stops_at("past 1,048,576 bytes")),
    ("length 0 at four bytes", |f| f.stops_at("malformed") && f.head().is_some_and(|head| head.0 == 0)),
    ("length 1 at four bytes", |f| f.stops_at("malformed") && f.head().is_some_and(|head| head.0 == 1)),
    ("length 0 at three bytes", |f| f.three_of(0)),
    ("length 1 at three bytes", |f| f.three_of(1)),
    ("length 65,535 at three bytes", |f| f.three_of(65_535)),
    ("kind 5, length 7", |f| f.refused_head(7, 5)),
    ("kind 5, length 8", |f| f.good_head(8, 5)),
    ("kind 5, length 32,806", |f| f.good_head(32_806, 5)),
    ("kind 5, length 32,807", |f| f.refused_head(32_807, 5)),
    ("kind 6, length 7", |f| f.refused_head(7, 6)),
    ("kind 6, length 8", |f| f.good_head(8, 6)),
    ("kind 6, length 38", |f| f.good_head(38, 6)),
    ("kind 6, length 39", |f| f.refused_head(39, 6)),
    ("kind 0", |f| f.stops() && f.head().is_some_and(|head| head.1 == 0)),
    ("kind 7", |f| f.stops() && f.head().is_some_and(|head| head.1 == 7)),
    ("a store of 32,808 bytes", |f| f.store == 32_808 && f.is(0)),
    ("a longer store", |f| f.store > 32_808 && f.is(0)),
    ("a store of 32,807 bytes", |f| f.store == 32_807 && f.is(55)),
    ("a store that is too small, and a state that is none", |f| f.is(55) && f.before.number == 0),
    ("a fault held with a journal that changed", |f| f.before.fault == 51 && f.is(51) && f.before.journal.used == 0),
];

pub fn tables() -> [Table; 5] {
    [
        Table::new("bursts, by rule", RULES.into_iter()),
        Table::of_lines("bursts, lines", LINES),
        Table::new("ends of a stream", ENDS.iter().map(|row| row.1)),
        Table::new("operations between bursts", BETWEEN.into_iter()),
        Table::new("streams cut in every way", CUTTINGS.into_iter()),
    ]
}

impl Coverage {
    /// A burst, with the facts of before it.
    pub fn arrived(&mut self, facts: Facts, told: &Burst) {
        let facts = Facts { told: Some(*told), ..facts };
        self.intakes[0].add(if told.number == 0 { RULES[0] } else { told.rule }, 1);
        let at_the_top = told.number == 0 && facts.before.number == u64::MAX && facts.stored() > 0;
        self.intakes[0].add(RULES[19], u64::from(at_the_top));
        self.intakes[1].count_lines(LINES, &facts);
    }

    pub fn ended(&mut self, told: &End) {
        let row = ENDS.iter().find(|row| row.0 == told.number);
        row.into_iter().for_each(|row| self.intakes[2].add(row.1, 1));
    }

    /// An operation on the journal of an intake that stands so.
    pub fn between(&mut self, intake: &Intake, operation: &Operation, number: u32) {
        let place = match operation {
            Operation::Append(_) if number != 0 && intake.held > 0 => 6,
            Operation::Append(_) => 0,
            Operation::Join(_) => 1,
            Operation::Clear => 2,
            Operation::Overwrite(_) => return,
        };
        if intake.held > 0 {
            self.intakes[3].add(BETWEEN[place], 1);
        } else if intake.fault != 0 {
            self.intakes[3].add(BETWEEN[place + 3], 1);
        }
    }

    /// A stream that was cut in every way, or in two at every place, and came to this fault.
    pub fn cut(&mut self, fault: u32, halves: bool) {
        let place = if halves { 2 } else { 0 };
        self.intakes[4].add(CUTTINGS[place + usize::from(fault != 0)], 1);
    }
}
