//! What becomes of the record of the reading in progress, and the lines of its checks (M-105).

use super::Line;
use crate::buffers::word_at;
use crate::case::CallCase;
use crate::compare::CallResult;
use crate::library::ReadingRecord;
use crate::paper::records;

pub struct Facts {
    token: u32,
    number: u32,
    /// Of a call with number 0.
    status: Option<i32>,
    rule: &'static str,
    edition: u32,
    given: ReadingRecord,
    left: ReadingRecord,
    request: Option<Request>,
}

/// What a whole call of get-indices asks for, as a record would name it.
struct Request {
    named: ReadingRecord,
    size: u32,
    inventory_good: bool,
}

pub fn facts(case: &CallCase, result: &CallResult) -> Facts {
    Facts {
        token: word_at(&case.args, 0).unwrap_or(0),
        number: result.number,
        status: (result.number == 0).then(|| result.status().unwrap_or(0)),
        rule: result.rule,
        edition: case.edition,
        given: case.reading,
        left: result.reading,
        request: (result.number == 0).then(|| request(case)).flatten(),
    }
}

fn request(case: &CallCase) -> Option<Request> {
    let word = |place: usize| word_at(&case.args, 4 * place).unwrap_or(0);
    if [0, 1, 2].map(word) != [2, 5, 2] {
        return None;
    }
    let named = ReadingRecord { flag: word(3), kind: word(4), number: word(7), edition: case.edition };
    Some(Request { named, size: word(6), inventory_good: records::inventory(&case.inventory).is_ok() })
}

impl Facts {
    /// A call of get-indices with this status of which this holds.
    fn asked(&self, status: i32, holds: impl Fn(&Request) -> bool) -> bool {
        self.status == Some(status) && self.request.as_ref().is_some_and(holds)
    }

    fn start(&self) -> Option<u32> {
        self.request.as_ref().map(|request| request.named.number)
    }

    /// A reading is in progress by the given record.
    fn in_progress(&self) -> bool {
        self.given.number >= 2
    }

    fn same_list(&self) -> bool {
        let list = |record: &ReadingRecord| (record.flag, record.kind);
        self.request.as_ref().is_some_and(|request| list(&request.named) == list(&self.given))
    }

    /// The fields in which the given record and what is asked for differ: flag, type, number, edition.
    fn differing(&self) -> Option<[bool; 4]> {
        let of = |record: &ReadingRecord| [record.flag, record.kind, record.number, record.edition];
        let (named, given) = (of(&self.request.as_ref()?.named), of(&self.given));
        Some([0, 1, 2, 3].map(|field| named[field] != given[field]))
    }

    fn first(&self) -> bool {
        self.start() == Some(1)
    }

    /// The record of a reading in progress is kept.
    fn kept(&self) -> bool {
        self.left == self.given && self.in_progress()
    }

    /// The record of a reading in progress is cleared.
    fn cleared(&self) -> bool {
        self.left == ReadingRecord::NONE && self.in_progress()
    }

    /// A call with another edition than the record's, the rest of which the record names.
    fn only_edition(&self) -> bool {
        self.differing() == Some([false, false, false, true])
    }

    /// The record names what is asked for, in its edition, and the call is not one that begins.
    fn names(&self) -> bool {
        self.differing() == Some([false; 4]) && !self.first()
    }
}

fn kept_by_token(facts: &Facts, token: u32, answered: bool) -> bool {
    facts.token == token && facts.kept() && facts.status.is_some_and(|status| (status >= 0) == answered)
}

fn afresh(facts: &Facts) -> bool {
    facts.first() && facts.status == Some(1)
}

fn differ_alone(facts: &Facts, field: usize) -> bool {
    let mut alone = [false; 4];
    alone[field] = true;
    facts.differing() == Some(alone) && !facts.first() && facts.status.is_some_and(|status| status < -1)
}

pub const LINES: &[Line<Facts>] = &[
    ("cleared by status 0", |f| f.asked(0, |_| f.cleared())),
    ("cleared by status 0, of the last area of its own list", |f| f.asked(0, |_| f.cleared() && f.names())),
    ("cleared by status 0, of another list in one call", |f| f.asked(0, |_| f.cleared() && !f.same_list())),
    ("cleared by -4", |f| f.asked(-4, |_| f.cleared())),
    ("named, none in progress before", |f| afresh(f) && f.given == ReadingRecord::NONE),
    ("begun afresh over a reading of the same list", |f| afresh(f) && f.in_progress() && f.same_list()),
    ("begun afresh over a reading of another list", |f| afresh(f) && f.in_progress() && !f.same_list()),
    ("begun afresh over another edition", |f| afresh(f) && f.in_progress() && f.given.edition != f.edition),
    ("begun afresh over number 0", |f| afresh(f) && f.given.number == 0),
    ("named anew by a call that goes on", |f| f.asked(1, |_| f.names())),
    ("kept by -3 of flag, type, size or address", |f| f.asked(-3, |_| f.kept() && BEFORE.contains(&f.rule))),
    ("kept by -3 of the record", |f| f.asked(-3, |_| f.kept() && f.rule.ends_with("unlike the record's"))),
    ("kept by -1", |f| f.asked(-1, |_| f.kept())),
    ("kept by -3 behind the inventory", |f| f.asked(-3, |_| f.kept() && BEHIND.contains(&f.rule))),
    ("kept by -3 of Starting Number 1", |f| f.asked(-3, |_| f.kept() && f.first())),
    ("kept by -1 of Starting Number 1", |f| f.asked(-1, |_| f.kept() && f.first())),
    ("kept by get-indices with other counts", |f| f.token == 2 && f.kept() && f.rule.starts_with("counts")),
    ("kept by an unknown token", |f| f.kept() && f.rule == "unknown token"),
    ("kept by update-nodes, answered", |f| kept_by_token(f, 1, true)),
    ("kept by update-nodes, refused", |f| kept_by_token(f, 1, false)),
    ("kept by configure-kernel-dump, answered", |f| kept_by_token(f, 3, true)),
    ("kept by configure-kernel-dump, refused", |f| kept_by_token(f, 3, false)),
    ("kept by update-properties, answered", |f| kept_by_token(f, 4, true)),
    ("kept by update-properties, refused", |f| kept_by_token(f, 4, false)),
    ("kept by number 10", |f| f.number == 10 && f.kept()),
    ("kept by number 11", |f| f.number == 11 && f.kept()),
    ("kept by number 12", |f| f.number == 12 && f.kept()),
    ("kept by number 13", |f| f.number == 13 && f.kept()),
    ("the flag alone differs", |f| differ_alone(f, 0)),
    ("the type alone differs", |f| differ_alone(f, 1)),
    ("the number alone differs", |f| differ_alone(f, 2)),
    ("the edition alone differs", |f| differ_alone(f, 3)),
    ("-3 and -4 both due", |f| {
        f.asked(-3, |_| !f.first() && f.differing().is_some_and(|d| d[..3] != [false; 3] && d[3]))
    }),
    ("size 3 and another edition", |f| f.asked(-3, |r| r.size == 3 && f.only_edition() && !f.first())),
    ("area not inside memory and another edition", |f| f.only_edition() && !f.first() && f.rule == BEFORE[4]),
    ("inventory malformed and another edition", |f| f.asked(-4, |r| !r.inventory_good)),
    ("inventory malformed and another number", |f| f.asked(-3, |r| !r.inventory_good && differ_alone(f, 2))),
    ("inventory malformed, the record names the entry", |f| f.asked(-1, |_| f.names())),
    ("size 4 and another edition", |f| f.asked(-4, |r| r.size == 4)),
    ("edition one above the record's", |f| f.asked(-4, |_| f.edition == f.given.edition.wrapping_add(1))),
    ("edition one below the record's", |f| f.asked(-4, |_| f.edition == f.given.edition.wrapping_sub(1))),
    ("editions differ in their high halves alone", |f| f.asked(-4, |_| f.edition as u16 == f.given.edition as u16)),
    ("editions differ in their low halves alone", |f| f.asked(-4, |_| f.edition >> 16 == f.given.edition >> 16)),
    ("edition 0, goes on", |f| f.edition == 0 && f.asked(1, |_| f.names())),
    ("the top edition, goes on", |f| f.edition == u32::MAX && f.asked(1, |_| f.names())),
    ("the top edition, named from Starting Number 1", |f| f.edition == u32::MAX && afresh(f)),
    ("the top edition, the record one below", |f| {
        f.edition == u32::MAX && f.asked(-4, |_| f.given.edition == u32::MAX - 1)
    }),
    ("edition 0, the record at the top", |f| f.edition == 0 && f.asked(-4, |_| f.given.edition == u32::MAX)),
    ("number 0 in both, another edition", |f| f.asked(-4, |_| f.start() == Some(0))),
    ("number 0 in both, inventory malformed", |f| f.asked(-1, |_| f.start() == Some(0))),
    ("number 0 in both, inventory good", |f| f.names() && f.start() == Some(0) && BEHIND.contains(&f.rule)),
    ("number 0 in the record, Starting Number 2 or more", |f| f.given.number == 0 && f.start() >= Some(2)),
    ("a number above the list in both", |f| f.names() && f.start() > Some(0) && f.rule == "Starting Number"),
    ("number 0xffffffff in both", |f| f.names() && f.start() == Some(u32::MAX)),
    ("number 0xffffffff in both, another edition", |f| f.asked(-4, |_| f.start() == Some(u32::MAX))),
    ("no entry of the flag and type, named", |f| f.names() && f.rule == "no entry of this flag and type"),
    ("number 1 beside other fields, Starting Number 2 or more", |f| {
        f.given.number == 1 && f.given != ReadingRecord::NONE && f.start() >= Some(2)
    }),
    ("none in progress, Starting Number 0", |f| f.given == ReadingRecord::NONE && f.start() == Some(0)),
    ("none in progress, Starting Number 2 or more", |f| f.given == ReadingRecord::NONE && f.start() >= Some(2)),
];

/// The rules before the record's checks.
const BEFORE: [&str; 5] = ["flag", "type", "size under 4", "address + size above 2^32", "area not inside memory"];

/// The rules behind the inventory.
const BEHIND: [&str; 3] = ["no entry of this flag and type", "Starting Number", "the entry due does not fit"];

/// An edit of an inventory of this edition.
pub const EDITS: &[Line<u32>] = &[
    ("edition 0", |edition| *edition == 0),
    ("edition 1 to 0xfffffffd", |edition| (1..=u32::MAX - 2).contains(edition)),
    ("edition 0xfffffffe", |edition| *edition == u32::MAX - 1),
    ("edition 0xffffffff, not taken", |edition| *edition == u32::MAX),
];
