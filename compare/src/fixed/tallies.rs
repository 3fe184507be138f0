//! The readings of the tallies (M-106, M-108) and of forecasts (M-107).

use crate::buffers::{journal_record, property_record, record, unit_record};
use crate::library::tallies::{Forecast, Recount, Tallied, Tallies};
use crate::subject::Subject;
use crate::tallies::case::Operation;
use crate::tallies::Journal;

/// The counts of the four rows: negative scopes, 1, 2 and 3, each deletes, updates, additions.
type Rows = [[u64; 3]; 4];

/// An operation over a buffer and what is kept beside it, its number, and what is kept then.
pub struct KeptReading {
    name: String,
    buffer: Vec<u8>,
    before: Tallied,
    operation: Operation,
    number: u32,
    after: Tallied,
}

/// A journal, and its tallies; none where it is malformed.
pub struct RecountReading {
    name: &'static str,
    journal: Vec<u8>,
    rows: Option<Rows>,
}

/// The counts of a scope's row, a state, and what is told.
pub struct ForecastReading {
    scope: u32,
    counts: [u64; 3],
    state: u32,
    status: i32,
    next: u64,
}

const NONE: Rows = [[0; 3]; 4];
const MOST: usize = 1_048_576;
const MAX: u64 = u64::MAX;

/// A delete that negative scopes and scope 1 report, and its tallies.
fn delete() -> Vec<u8> {
    journal_record(1, 10, 7, 0)
}
const DELETE: Rows = [[1, 0, 0], [1, 0, 0], [0; 3], [0; 3]];

fn tallied(used: usize, rows: Rows) -> Tallied {
    Tallied { used: used as u64, tallies: Tallies { rows } }
}

/// An operation that is done in a buffer of so many bytes, of which so many are in use with no count.
fn done(name: &str, size: usize, used: usize, operation: Operation, rows: Rows) -> KeptReading {
    let length = match &operation {
        Operation::Append(bytes) | Operation::Join(bytes) => bytes.len(),
        _ => 0,
    };
    let after = tallied(used + length, rows);
    KeptReading {
        name: String::from(name),
        buffer: vec![0x33; size],
        before: tallied(used, NONE),
        operation,
        number: 0,
        after,
    }
}

/// One that is refused, over these tallies.
fn refused(name: &str, number: u32, size: usize, before: Tallied, operation: Operation) -> KeptReading {
    KeptReading { name: String::from(name), buffer: vec![0x33; size], before, operation, number, after: before }
}

pub fn kept() -> Vec<KeptReading> {
    [kinds(), one_record(), rooms(), limits(), no_journals(), sums()].into_iter().flatten().collect()
}

/// A record of each kind in each row, appended and joined.
fn kinds() -> Vec<KeptReading> {
    let list = recounts().into_iter().filter(|reading| reading.name.starts_with("kind"));
    let both = list.flat_map(|RecountReading { name, journal, rows }| {
        let (size, rows) = (journal.len() + 3, rows.unwrap_or(NONE));
        [Operation::Append(journal.clone()), Operation::Join(journal)]
            .map(|operation| done(&format!("{} of {name}", operation.name()), size, 0, operation, rows))
    });
    both.collect()
}

/// 13.1: "bytes that aren't exactly one good record (none, two, a record and a byte) are malformed".
fn one_record() -> Vec<KeptReading> {
    let (one, two) = (delete(), delete().repeat(2));
    let and_byte = [one.as_slice(), &[8]].concat();
    let append = |name, bytes: &[u8]| refused(name, 50, 64, tallied(0, NONE), Operation::Append(bytes.to_vec()));
    let join = |name, bytes: &[u8]| refused(name, 50, 64, tallied(0, NONE), Operation::Join(bytes.to_vec()));
    vec![
        append("append of nothing", &[]),
        append("append of two records", &two),
        append("append of a record and a byte", &and_byte),
        append("append of a record but for a byte", &one[..9]),
        append("append of kind 7", &record(7, &[10, 0, 1, 2, 3, 4])),
        append("append of type 15 in kind 1", &journal_record(1, 15, 7, 0)),
        append("append of type 14 in kind 4", &unit_record(14, 7, 7)),
        append("append of a name of 32 bytes", &property_record(7, &[b'a'; 32], None)),
        done("join of nothing", 64, 0, Operation::Join(Vec::new()), NONE),
        done("join of two records", 64, 0, Operation::Join(two), [[2, 0, 0], [2, 0, 0], [0; 3], [0; 3]]),
        join("join of a record and a byte", &and_byte),
        join("join of a record but for a byte", &one[..9]),
    ]
}

/// 13.2: "a bad record with no room is malformed. Exactly full is room."
fn rooms() -> Vec<KeptReading> {
    let append = || Operation::Append(delete());
    let join = || Operation::Join(delete());
    let bad = Operation::Append(delete()[..9].to_vec());
    vec![
        done("append to the last byte", 10, 0, append(), DELETE),
        refused("append, one byte too few", 51, 9, tallied(0, NONE), append()),
        done("append behind a use, to the last byte", 25, 15, append(), DELETE),
        refused("append behind a use, one byte too few", 51, 25, tallied(16, NONE), append()),
        refused("append to no buffer", 51, 0, tallied(0, NONE), append()),
        done("join to the last byte", 25, 15, join(), DELETE),
        refused("join, one byte too few", 51, 25, tallied(16, NONE), join()),
        refused("malformed with no room", 50, 9, tallied(9, NONE), bad),
        done("join of nothing to a full buffer", 25, 25, Operation::Join(Vec::new()), NONE),
        refused("append of nothing to a full buffer", 50, 25, tallied(25, NONE), Operation::Append(Vec::new())),
        KeptReading {
            after: Tallied::EMPTY,
            ..refused("clear", 0, 25, tallied(20, [[2, 0, 0], [2, 0, 0], [0; 3], [0; 3]]), Operation::Clear)
        },
    ]
}

/// "no room (past the lent buffer or 1,048,576 bytes)"
fn limits() -> Vec<KeptReading> {
    let append = || Operation::Append(delete());
    let long = delete().repeat(104_857);
    let (most, more) = ([&long[..], &[0; 6]].concat(), delete().repeat(104_858));
    vec![
        done("append to 1,048,576 bytes", MOST + 20, MOST - 10, append(), DELETE),
        refused("append to 1,048,577 bytes", 51, MOST + 20, tallied(MOST - 9, NONE), append()),
        refused("append behind 1,048,576 bytes", 51, MOST + 20, tallied(MOST, NONE), append()),
        refused("append behind 1,048,577 bytes", 51, MOST + 20, tallied(MOST + 1, NONE), append()),
        done("join of nothing behind 1,048,576 bytes", MOST + 20, MOST, Operation::Join(Vec::new()), NONE),
        refused(
            "join of nothing behind 1,048,577",
            51,
            MOST + 20,
            tallied(MOST + 1, NONE),
            Operation::Join(Vec::new()),
        ),
        refused("join of 1,048,576 bytes that are none", 50, MOST + 20, tallied(0, NONE), Operation::Join(most)),
        refused("join of 1,048,580 bytes", 50, MOST + 20, tallied(0, NONE), Operation::Join(more)),
        refused("join of 1,048,570 bytes behind 10", 51, MOST + 20, tallied(10, NONE), Operation::Join(long)),
    ]
}

/// A use beyond the buffer, and a count above the use, are looked at first.
fn no_journals() -> Vec<KeptReading> {
    let append = || Operation::Append(delete());
    let with = |used: usize, place: usize, count: u64| {
        let mut rows = NONE;
        rows[place / 3][place % 3] = count;
        tallied(used, rows)
    };
    let mut list = vec![
        refused("a use one beyond the buffer", 52, 40, tallied(41, NONE), append()),
        refused("a use beyond the buffer by far", 52, 40, tallied(usize::MAX, NONE), append()),
        refused("a use beyond the buffer, and malformed", 52, 40, tallied(41, NONE), Operation::Append(Vec::new())),
        refused("a use beyond the buffer, a join", 52, 40, tallied(41, NONE), Operation::Join(Vec::new())),
        refused("a count above the use, and malformed", 52, 40, with(20, 3, 21), Operation::Append(Vec::new())),
        refused("a count above the use, and no room", 52, 40, with(31, 8, 32), append()),
        refused("a count above the use, a join of nothing", 52, 40, with(0, 0, 1), Operation::Join(Vec::new())),
    ];
    for place in 0..12 {
        let name = format!("count {place} one above the use");
        list.push(refused(&name, 52, 40, with(20, place, 21), append()));
        list.push(refused(&format!("count {place} of 2^64 - 1"), 52, 40, with(20, place, MAX), append()));
        let mut rows = NONE;
        rows[place / 3][place % 3] = 20;
        let before = tallied(20, rows);
        (rows[0][0], rows[1][0]) = (rows[0][0] + 1, rows[1][0] + 1);
        let name = format!("count {place} as high as the use");
        list.push(KeptReading { before, ..done(&name, 40, 20, append(), rows) });
    }
    list
}

/// "the tallies add"
fn sums() -> Vec<KeptReading> {
    let part = [
        journal_record(1, 6, 1, 0),
        journal_record(2, 3, 2, 0),
        journal_record(3, 10, 3, 4),
        unit_record(15, 5, 6),
        property_record(7, b"a", Some(b"v")),
        journal_record(2, 5, 8, 0),
    ]
    .concat();
    let before = tallied(70, [[1, 2, 3], [4, 5, 6], [0, 7, 0], [0, 8, 0]]);
    let after = [[1, 3, 4], [5, 7, 7], [0, 8, 0], [0, 9, 0]];
    vec![KeptReading { before, ..done("a part is added to what is there", 200, 70, Operation::Join(part), after) }]
}

pub fn recounts() -> Vec<RecountReading> {
    let (delete_1, update, addition) = ([1, 0, 0], [0, 1, 0], [0, 0, 1]);
    let none = [0; 3];
    let good = |name, journal, rows| RecountReading { name, journal, rows: Some(rows) };
    let bad = |name, journal| RecountReading { name, journal, rows: None };
    let long = delete().repeat(104_857);
    vec![
        good("nothing", Vec::new(), NONE),
        good("kind 1, type 10", delete(), DELETE),
        good("kind 1, type 14", journal_record(1, 14, 7, 0), DELETE),
        good("kind 1, type 6", journal_record(1, 6, 7, 0), [none, delete_1, none, none]),
        good("kind 1, type 9", journal_record(1, 9, 7, 0), [none, delete_1, none, none]),
        good("kind 1, type 5", journal_record(1, 5, 7, 0), NONE),
        good("kind 2, type 1", journal_record(2, 1, 7, 0), [none, update, none, none]),
        good("kind 2, type 3", journal_record(2, 3, 7, 0), [none, update, update, none]),
        good("kind 2, type 5", journal_record(2, 5, 7, 0), [update, update, none, none]),
        good("kind 2, type 7", journal_record(2, 7, 7, 0), [none, update, none, none]),
        good("kind 2, type 8", journal_record(2, 8, 7, 0), [update, update, none, none]),
        good("kind 3, type 13", journal_record(3, 13, 7, 8), [addition, addition, none, none]),
        good("kind 3, type 9", journal_record(3, 9, 7, 8), [none, addition, none, none]),
        good("kind 3, type 3", journal_record(3, 3, 7, 8), NONE),
        good("kind 4, type 15", unit_record(15, 7, 8), [none, none, none, update]),
        good("kind 4, type 16, another unit", unit_record(16, MAX, 8), [none, none, none, update]),
        good("kind 5", property_record(7, b"a", Some(b"v")), NONE),
        good("kind 5, the longest", property_record(7, &[b'a'; 31], Some(&[0; 32_768])), NONE),
        good("kind 6", property_record(7, b"a", None), NONE),
        good(
            "two units and a delete",
            [unit_record(15, 1, 8), unit_record(15, 2, 8), delete()].concat(),
            [delete_1, delete_1, none, [0, 2, 0]],
        ),
        good("104,857 deletes", long.clone(), [[104_857, 0, 0], [104_857, 0, 0], none, none]),
        bad("104,858 deletes", [long, delete()].concat()),
        bad("a byte", vec![0]),
        bad("a delete and a byte", [delete(), vec![8]].concat()),
        bad("a delete and kind 0", [delete(), record(0, &[])].concat()),
    ]
}

/// Scope, counts of its row, state; status and next state.
type Line = (u32, [u64; 3], u32, i32, u64);

/// Of lists as journals have them.
const OF_JOURNALS: [Line; 26] = [
    (1, [0, 0, 0], 0, 0, 0),
    (1, [0, 0, 0], 1, -3, 0),
    (1, [3, 2, 1], 0, 0, 0),
    (1, [3, 2, 1], 5, 0, 0),
    (1, [3, 2, 1], 6, -3, 0),
    (1, [3, 2, 1], 7, -3, 0),
    (2, [0, 5, 0], 4, 0, 0),
    (2, [0, 5, 0], 5, -3, 0),
    (0x8000_0000, [0, 0, 2], 1, 0, 0),
    (0xffff_ffff, [0, 0, 2], 2, -3, 0),
    (1, [1018, 0, 0], 0, 0, 0),
    (1, [1019, 0, 0], 0, 1, 1018),
    (1, [1019, 0, 0], 1, 0, 0),
    (1, [1019, 0, 0], 1018, 0, 0),
    (1, [1019, 0, 0], 1019, -3, 0),
    (1, [0, 1019, 0], 0, 1, 1018),
    (1, [0, 0, 509], 0, 0, 0),
    (1, [0, 0, 510], 0, 1, 509),
    (1, [1017, 1, 0], 0, 1, 1017),
    (1, [1016, 1, 0], 0, 0, 0),
    (1, [1000, 15, 1], 0, 1, 1015),
    (1, [1000, 13, 1], 0, 0, 0),
    (3, [0, 5, 0], 0, -3, 0),
    (0, [1, 1, 1], 0, -3, 0),
    (4, [1, 1, 1], 0, -3, 0),
    (0x7fff_ffff, [1, 1, 1], 0, -3, 0),
];

/// Of lists that no journal has.
const OF_NO_JOURNAL: [Line; 10] = [
    (1, [MAX, MAX, MAX], 0, 1, 1018),
    (1, [MAX, MAX, MAX], u32::MAX, 1, (1 << 32) + 1017),
    (1, [1 << 40, 0, 0], u32::MAX, 1, (1 << 32) + 1017),
    (1, [0, 0, MAX], u32::MAX, 1, (1 << 32) + 508),
    (1, [(1 << 32) - 1, 1, 0], u32::MAX, 0, 0),
    (1, [(1 << 32) - 1, 0, 0], u32::MAX, -3, 0),
    (1, [1 << 63, 1 << 63, 3], 0, 1, 1018),
    (1, [1 << 63, 1 << 63, 3], 3, 1, 1021),
    (1, [2, MAX, 0], 1, 1, 1018),
    (1, [0, 1, MAX], 1, 1, 510),
];

pub fn forecasts() -> Vec<ForecastReading> {
    let reading = |(scope, counts, state, status, next)| ForecastReading { scope, counts, state, status, next };
    OF_JOURNALS.into_iter().chain(OF_NO_JOURNAL).map(reading).collect()
}

impl KeptReading {
    pub fn failure(&self, subject: &dyn Subject) -> Option<String> {
        let mut journal = Journal::new(subject, &self.buffer, self.before);
        let kept = journal.apply(&self.operation);
        let mut bytes = self.buffer.clone();
        if let (Operation::Append(part) | Operation::Join(part), 0) = (&self.operation, self.number) {
            let used = self.before.used as usize;
            bytes[used..used + part.len()].copy_from_slice(part);
        }
        let wrong = [
            (kept.number != self.number, "the number"),
            (kept.journal != self.after, "what is kept"),
            (journal.buffer.content() != bytes || !journal.buffer.is_guarded(), "the buffer"),
        ];
        let wrong: Vec<&str> = wrong.iter().filter(|part| part.0).map(|part| part.1).collect();
        let told = || format!("{}: {}, {}", wrong.join(", "), kept.number, kept.journal.text());
        (!wrong.is_empty()).then(|| format!("fixed reading '{}' on {}: {}", self.name, subject.name(), told()))
    }
}

impl RecountReading {
    pub fn failure(&self, subject: &dyn Subject) -> Option<String> {
        let got = subject.keeping().recount(&self.journal);
        let number = if self.rows.is_some() { 0 } else { 50 };
        let written = Recount { number, tallies: Tallies { rows: self.rows.unwrap_or(NONE) } };
        (got != written).then(|| format!("fixed reading 'recount, {}' on {}: {got:?}", self.name, subject.name()))
    }
}

impl ForecastReading {
    /// The other rows hold many operations, which a forecast does not look at.
    pub fn failure(&self, subject: &dyn Subject) -> Option<String> {
        let ForecastReading { scope, counts, state, status, next } = *self;
        let mut rows = [[5000; 3]; 4];
        rows[if matches!(scope, 1..=3) { scope as usize } else { 0 }] = counts;
        let got = subject.keeping().forecast(&Tallies { rows }, scope, state);
        let name = format!("forecast, scope {scope:#x}, counts {counts:?}, state {state}");
        (got != Forecast { status: status as u32, next })
            .then(|| format!("fixed reading '{name}' on {}: {got:?}", subject.name()))
    }
}
