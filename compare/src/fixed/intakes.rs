//! The readings of a journal that arrives in bursts (M-109).

use crate::buffers::{journal_record, property_record, record, unit_record};
use crate::intakes::Receiver;
use crate::library::intakes::{End, Intake};
use crate::library::tallies::{Tallied, Tallies};
use crate::subject::Subject;

/// The counts of the four rows: negative scopes, 1, 2 and 3, each deletes, updates, additions.
type Rows = [[u64; 3]; 4];

/// A burst or an end, and what it gives: its number, and the record's.
enum Step {
    Burst(Vec<u8>, u32, u64),
    End(u32, u64),
}

/// Steps over an empty journal, and what they leave: the bytes in use, their tallies, the bytes that are held, and the
/// number of the record that the intake is inside or comes to.
pub struct StreamReading {
    name: String,
    size: usize,
    steps: Vec<Step>,
    stored: Vec<u8>,
    rows: Rows,
    held: Vec<u8>,
    number: u64,
}

/// A burst and an end over a store and an intake: the number that both refuse it with, or 0.
pub struct StandingReading {
    name: String,
    store: Vec<u8>,
    intake: Intake,
    number: u32,
}

const NONE: Rows = [[0; 3]; 4];
const PAINT: u8 = 0x33;

/// Bytes of a journal's buffer, and of a store.
const SIZE: usize = 64;
const STORE: usize = 32_808;
const MOST: usize = 1_048_576;

/// A delete that negative scopes and scope 1 report, and its tallies.
fn delete() -> Vec<u8> {
    journal_record(1, 10, 7, 0)
}
const DELETE: Rows = [[1, 0, 0], [1, 0, 0], [0; 3], [0; 3]];

fn burst(bytes: &[u8], number: u32, in_record: u64) -> Step {
    Step::Burst(bytes.to_vec(), number, in_record)
}

fn taken(bytes: &[u8]) -> Step {
    burst(bytes, 0, 0)
}

/// Steps that store nothing and hold nothing.
fn reading(name: &str, steps: Vec<Step>) -> StreamReading {
    let (name, stored, held) = (String::from(name), Vec::new(), Vec::new());
    StreamReading { name, size: SIZE, steps, stored, rows: NONE, held, number: 1 }
}

impl StreamReading {
    fn storing(self, stored: Vec<u8>, rows: Rows, number: u64) -> StreamReading {
        StreamReading { stored, rows, number, ..self }
    }

    fn holding(self, held: &[u8]) -> StreamReading {
        StreamReading { held: held.to_vec(), ..self }
    }

    fn in_buffer_of(self, size: usize) -> StreamReading {
        StreamReading { size, ..self }
    }
}

pub fn streams() -> Vec<StreamReading> {
    [cuts(), fronts(), lengths(), rooms(), limits(), behind()].into_iter().flatten().collect()
}

/// A good record of each kind, and its tallies.
fn kinds() -> [(Vec<u8>, Rows); 7] {
    let (update, none) = ([0, 1, 0], [0; 3]);
    [
        (delete(), DELETE),
        (journal_record(2, 3, 7, 0), [none, update, update, none]),
        (journal_record(3, 9, 7, 8), [none, [0, 0, 1], none, none]),
        (unit_record(15, 0x0102_0304_0506_0708, 9), [none, none, none, update]),
        (property_record(7, b"name", Some(b"value")), NONE),
        (property_record(7, b"a", Some(b"")), NONE),
        (property_record(7, b"name", None), NONE),
    ]
}

/// 14: a cut inside each field of each kind, and between two. The end between says unfinished, and changes nothing.
fn cuts() -> Vec<StreamReading> {
    let mut list = Vec::new();
    for (record, rows) in kinds() {
        for at in 1..record.len() {
            let name = format!("kind {} of {} bytes, cut at {at}", record[2], record.len());
            let (first, second) = record.split_at(at);
            let steps = vec![taken(first), Step::End(53, 1), taken(&[]), taken(second), Step::End(0, 0)];
            list.push(reading(&name, steps).storing(record.clone(), rows, 2));
            let steps = vec![taken(first), Step::End(53, 1), Step::End(53, 1)];
            list.push(reading(&format!("{name}, and no more"), steps).holding(first));
        }
    }
    let both = [delete(), delete()].concat();
    let rows = [[2, 0, 0], [2, 0, 0], [0; 3], [0; 3]];
    let steps = vec![taken(&both[..13]), Step::End(53, 2), taken(&both[13..]), Step::End(0, 0)];
    list.push(reading("two records, cut in the second", steps).storing(both, rows, 3));
    list
}

/// 14.1: four bad bytes and the end are malformed, three and the end are unfinished.
fn fronts() -> Vec<StreamReading> {
    let bad: [(&str, [u8; 4]); 12] = [
        ("kind 0", [8, 0, 0, 0]),
        ("kind 7", [8, 0, 7, 0]),
        ("kind 0x0101", [8, 0, 1, 1]),
        ("kind 1, length 7", [7, 0, 1, 0]),
        ("kind 2, length 12", [12, 0, 2, 0]),
        ("kind 3, length 8", [8, 0, 3, 0]),
        ("kind 4, length 15", [15, 0, 4, 0]),
        ("kind 5, length 7", [7, 0, 5, 0]),
        ("kind 5, length 32,807", [0x27, 0x80, 5, 0]),
        ("kind 6, length 7", [7, 0, 6, 0]),
        ("kind 6, length 39", [39, 0, 6, 0]),
        ("kind 6, length 65,535", [0xff, 0xff, 6, 0]),
    ];
    let mut list = Vec::new();
    for (name, front) in bad {
        let steps = vec![burst(&front, 50, 1), Step::End(50, 1)];
        list.push(reading(&format!("four bytes, {name}"), steps));
        let steps = vec![taken(&front[..3]), Step::End(53, 1), burst(&front[3..], 50, 1), Step::End(50, 1)];
        list.push(reading(&format!("three bytes, then the fourth, {name}"), steps));
        let steps = vec![taken(&front[..3]), Step::End(53, 1)];
        list.push(reading(&format!("three bytes, {name}"), steps).holding(&front[..3]));
    }
    let good: [(&str, [u8; 4]); 4] = [
        ("kind 5, length 8", [8, 0, 5, 0]),
        ("kind 5, length 32,806", [0x26, 0x80, 5, 0]),
        ("kind 6, length 8", [8, 0, 6, 0]),
        ("kind 6, length 38", [38, 0, 6, 0]),
    ];
    for (name, front) in good {
        let steps = vec![taken(&front), Step::End(53, 1)];
        list.push(reading(&format!("four bytes, {name}"), steps).holding(&front));
    }
    list
}

/// Lengths 0 and 1, with three bytes and with four, first and behind a record.
fn lengths() -> Vec<StreamReading> {
    let mut list = Vec::new();
    for length in [0, 1] {
        let front = [length, 0, 1, 0];
        let steps = vec![taken(&front[..3]), Step::End(53, 1)];
        list.push(reading(&format!("length {length}, three bytes"), steps).holding(&front[..3]));
        let steps = vec![burst(&front, 50, 1), Step::End(50, 1)];
        list.push(reading(&format!("length {length}, four bytes"), steps));
        let behind = [delete(), front.to_vec()].concat();
        let steps = vec![burst(&behind, 50, 2), Step::End(50, 2)];
        let name = format!("length {length}, four bytes behind a record");
        list.push(reading(&name, steps).storing(delete(), DELETE, 2));
        let steps = vec![taken(&behind[..13]), Step::End(53, 2), burst(&[0], 50, 2)];
        let name = format!("length {length}, three bytes behind a record, then the fourth");
        list.push(reading(&name, steps).storing(delete(), DELETE, 2));
    }
    list
}

/// 14.2: no room is judged when the record is complete and good. Exactly full is room.
fn rooms() -> Vec<StreamReading> {
    let (one, long) = (delete(), property_record(7, b"a", Some(&[1; 70])));
    let wrong_type = journal_record(1, 15, 7, 0);
    let no_name = record(5, &[7, 0, 0, 0, 0, 0]);
    let tail = |bytes: &[u8]| [&one, bytes].concat();
    vec![
        reading("the last byte of room", vec![taken(&one), Step::End(0, 0)])
            .storing(one.clone(), DELETE, 2)
            .in_buffer_of(10),
        reading("one byte too few", vec![burst(&one, 51, 1), Step::End(51, 1)]).in_buffer_of(9),
        reading("no room, but for its last byte", vec![taken(&one[..9]), Step::End(53, 1)])
            .holding(&one[..9])
            .in_buffer_of(0),
        reading("no room, with its last byte", vec![taken(&one[..9]), burst(&one[9..], 51, 1)]).in_buffer_of(0),
        reading("no room by its length, not complete", vec![taken(&long[..20]), Step::End(53, 1)]).holding(&long[..20]),
        reading("no room for the second", vec![burst(&tail(&one), 51, 2), Step::End(51, 2)])
            .storing(one.clone(), DELETE, 2)
            .in_buffer_of(19),
        reading("a node type with no room", vec![burst(&wrong_type, 50, 1), Step::End(50, 1)]).in_buffer_of(9),
        reading("a name with no room", vec![burst(&no_name, 50, 1), Step::End(50, 1)]).in_buffer_of(0),
        reading("a front with no room", vec![burst(&[8, 0, 7, 0], 50, 1)]).in_buffer_of(0),
        reading("a node type, but for the last byte", vec![taken(&wrong_type[..9]), Step::End(53, 1)])
            .holding(&wrong_type[..9]),
        reading("a node type, with the last byte", vec![taken(&wrong_type[..9]), burst(&wrong_type[9..], 50, 1)]),
    ]
}

/// "no room as in M-106": 1,048,576 bytes in a longer buffer; and the longest record.
fn limits() -> Vec<StreamReading> {
    let long = property_record(7, &[b'a'; 31], Some(&[0; 32_768]));
    let many = delete().repeat(104_857);
    let counts = |deletes| [[deletes, 0, 0], [deletes, 0, 0], [0; 3], [0; 3]];
    let six = [8, 0, 1, 0, 10, 0];
    vec![
        reading("the longest record", vec![taken(&long[..32_807]), Step::End(53, 1), taken(&long[32_807..])])
            .storing(long.clone(), NONE, 2)
            .in_buffer_of(40_000),
        reading("the longest record but for a byte", vec![taken(&long[..32_807]), Step::End(53, 1)])
            .holding(&long[..32_807])
            .in_buffer_of(40_000),
        reading("1,048,570 bytes and six", vec![taken(&[&many[..], &six].concat()), Step::End(53, 104_858)])
            .storing(many.clone(), counts(104_857), 104_858)
            .holding(&six)
            .in_buffer_of(MOST + 20),
        reading(
            "1,048,580 bytes",
            vec![burst(&[many.clone(), delete()].concat(), 51, 104_858), Step::End(51, 104_858)],
        )
        .storing(many, counts(104_857), 104_858)
        .in_buffer_of(MOST + 20),
    ]
}

/// 14.3 and 14.4: a burst after the end, and one after a fault, bursts of nothing too. The good records before a fault are
/// stored.
fn behind() -> Vec<StreamReading> {
    let (one, bad) = (delete(), journal_record(1, 0, 7, 0));
    let two = || [[2, 0, 0], [2, 0, 0], [0; 3], [0; 3]];
    let both = [one.clone(), one.clone()].concat();
    let then_bad = [one.as_slice(), &bad, &one].concat();
    vec![
        reading("nothing at all", vec![Step::End(0, 0), taken(&[]), Step::End(0, 0)]),
        reading("a burst after the end", vec![taken(&one), Step::End(0, 0), taken(&one), Step::End(0, 0)]).storing(
            both.clone(),
            two(),
            3,
        ),
        reading(
            "a fault behind a record and before one",
            vec![burst(&then_bad, 50, 2), Step::End(50, 2), burst(&one, 50, 2), burst(&[], 50, 2), Step::End(50, 2)],
        )
        .storing(one.clone(), DELETE, 2),
        reading(
            "a burst after no room",
            vec![burst(&both, 51, 2), burst(&[], 51, 2), burst(&record(6, b"\x07\0\0\0a\0"), 51, 2), Step::End(51, 2)],
        )
        .storing(one, DELETE, 2)
        .in_buffer_of(15),
    ]
}

/// An intake over an empty journal.
fn intake(number: u64, held: u64, fault: u32) -> Intake {
    Intake { journal: Tallied::EMPTY, number, held, fault }
}

/// A store with these bytes at its front.
fn store_of(bytes: &[u8], size: usize) -> Vec<u8> {
    let mut store = vec![PAINT; size];
    store[..bytes.len()].copy_from_slice(bytes);
    store
}

pub fn standings() -> Vec<StandingReading> {
    [parts(), held(), journals()].into_iter().flatten().collect()
}

/// The store is looked at first; number and fault.
fn parts() -> Vec<StandingReading> {
    let one = |name: &str, size: usize, intake: Intake, number: u32| StandingReading {
        name: String::from(name),
        store: store_of(&[], size),
        intake,
        number,
    };
    vec![
        one("a store of 32,808 bytes", STORE, intake(1, 0, 0), 0),
        one("a store of 32,809 bytes", STORE + 1, intake(1, 0, 0), 0),
        one("a store of 32,807 bytes", STORE - 1, intake(1, 0, 0), 55),
        one("a store of no bytes", 0, intake(1, 0, 0), 55),
        one("a store of 32,807 bytes, and number 0", STORE - 1, intake(0, 0, 0), 55),
        one("a store of 32,807 bytes, and a fault", STORE - 1, intake(1, 0, 50), 55),
        one("number 0", STORE, intake(0, 0, 0), 54),
        one("number 0, and a fault", STORE, intake(0, 0, 51), 54),
        one("number 2^64 - 1", STORE, intake(u64::MAX, 0, 0), 0),
        one("fault 50", STORE, intake(1, 0, 50), 50),
        one("fault 51", STORE, intake(9, 0, 51), 51),
        one("fault 49", STORE, intake(1, 0, 49), 54),
        one("fault 52", STORE, intake(1, 0, 52), 54),
        one("fault 53", STORE, intake(1, 0, 53), 54),
        one("fault 1", STORE, intake(1, 0, 1), 54),
        one("fault 2^32 - 1", STORE, intake(1, 0, u32::MAX), 54),
        one("a fault with a byte held", STORE, intake(1, 1, 50), 54),
    ]
}

/// Held bytes are those of a record that is not finished.
fn held() -> Vec<StandingReading> {
    let one = |name: &str, bytes: &[u8], held: usize, number: u32| StandingReading {
        name: String::from(name),
        store: store_of(bytes, STORE),
        intake: intake(1, held as u64, 0),
        number,
    };
    let (good, long) = (delete(), property_record(7, &[b'a'; 31], Some(&[0; 32_768])));
    vec![
        one("nine bytes of a delete held", &good, 9, 0),
        one("a whole delete held", &good, 10, 54),
        one("a whole delete and a byte held", &good, 11, 54),
        one("a whole record of a wrong node type held", &journal_record(1, 15, 7, 0), 10, 54),
        one("nine bytes of a wrong node type held", &journal_record(1, 15, 7, 0), 9, 0),
        one("three bytes of kind 7 held", &[8, 0, 7, 0], 3, 0),
        one("four bytes of kind 7 held", &[8, 0, 7, 0], 4, 54),
        one("three bytes of length 0 held", &[0, 0, 1, 0], 3, 0),
        one("four bytes of length 0 held", &[0, 0, 1, 0], 4, 54),
        one("four bytes of kind 6, length 38 held", &[38, 0, 6, 0], 4, 0),
        one("four bytes of kind 6, length 39 held", &[39, 0, 6, 0], 4, 54),
        one("all of the longest record but a byte held", &long, 32_807, 0),
        one("the longest record held", &long, 32_808, 54),
        one("more held than the store has", &long, 32_809, 54),
        one("2^64 - 1 bytes held", &long, usize::MAX, 54),
    ]
}

/// What M-106 refuses first of use and tallies.
fn journals() -> Vec<StandingReading> {
    let one = |name: String, used: usize, place: usize, count: u64, number: u32| {
        let mut tallies = Tallies::ZERO;
        tallies.rows[place / 3][place % 3] = count;
        let intake = Intake { journal: Tallied { used: used as u64, tallies }, ..intake(1, 0, 0) };
        StandingReading { name, store: store_of(&[], STORE), intake, number }
    };
    let mut list = vec![
        one(String::from("a use that is the buffer's length"), SIZE, 0, 0, 0),
        one(String::from("a use one beyond the buffer"), SIZE + 1, 0, 0, 54),
        one(String::from("a use of 2^64 - 1"), usize::MAX, 0, 0, 54),
    ];
    for place in 0..12 {
        list.push(one(format!("an intake, count {place} as high as the use"), 20, place, 20, 0));
        list.push(one(format!("an intake, count {place} one above the use"), 20, place, 21, 54));
        list.push(one(format!("an intake, count {place} of 2^64 - 1"), 20, place, u64::MAX, 54));
    }
    list
}

impl StreamReading {
    pub fn failure(&self, subject: &dyn Subject) -> Option<String> {
        let start = subject.receiving().start(&Tallied::EMPTY);
        let mut receiver = Receiver::new(subject, &vec![PAINT; self.size], &[PAINT; STORE], &start);
        let name = format!("fixed reading 'intake, {}' on {}", self.name, subject.name());
        for (place, step) in self.steps.iter().enumerate() {
            let (got, written) = match step {
                Step::Burst(bytes, number, record) => {
                    let burst = receiver.burst(bytes);
                    ((burst.number, burst.in_record), (*number, *record))
                }
                Step::End(number, record) => {
                    let end = receiver.end();
                    ((end.number, end.in_record), (*number, *record))
                }
            };
            if got != written {
                return Some(format!("{name}: step {} gives {got:?}, written {written:?}", place + 1));
            }
        }
        self.left(&receiver).map(|what| format!("{name}: wrong: {what}, {}", receiver.intake().text()))
    }

    /// What is left otherwise than written.
    fn left(&self, receiver: &Receiver) -> Option<String> {
        let intake = receiver.intake();
        let mut buffer = vec![PAINT; self.size];
        buffer[..self.stored.len()].copy_from_slice(&self.stored);
        let wrong = [
            (intake.journal.used != self.stored.len() as u64, "the use"),
            (intake.journal.tallies.rows != self.rows, "the tallies"),
            (intake.number != self.number, "the record's number"),
            (receiver.held() != self.held, "what is held"),
            (receiver.journal.buffer.content() != buffer || !receiver.journal.buffer.is_guarded(), "the buffer"),
            (!receiver.store.is_guarded(), "a byte beside the store"),
        ];
        let wrong: Vec<&str> = wrong.iter().filter(|part| part.0).map(|part| part.1).collect();
        (!wrong.is_empty()).then(|| wrong.join(", "))
    }
}

impl StandingReading {
    /// A state that is refused, and one after a fault, changes nothing; any other takes a burst of nothing.
    pub fn failure(&self, subject: &dyn Subject) -> Option<String> {
        let buffer = [PAINT; SIZE];
        let mut receiver = Receiver::new(subject, &buffer, &self.store, &self.intake);
        let unfinished = if self.number == 0 && self.intake.held > 0 { 53 } else { self.number };
        let in_record = if matches!(unfinished, 0 | 54 | 55) { 0 } else { self.intake.number };
        let end = receiver.end();
        let bytes = if self.number == 0 { Vec::new() } else { delete() };
        let burst = receiver.burst(&bytes);
        let record = if matches!(self.number, 50 | 51) { self.intake.number } else { 0 };
        let wrong = [
            (end != End { number: unfinished, in_record }, "the end"),
            ((burst.number, burst.in_record) != (self.number, record), "the burst"),
            (burst.intake != self.intake, "the intake"),
            (receiver.journal.buffer.content() != buffer, "the buffer"),
            (self.number != 0 && receiver.store.content() != self.store, "the store"),
        ];
        let wrong: Vec<&str> = wrong.iter().filter(|part| part.0).map(|part| part.1).collect();
        let told = || format!("{}: {} and {end:?}", wrong.join(", "), burst.number);
        (!wrong.is_empty()).then(|| format!("fixed reading 'intake, {}' on {}: {}", self.name, subject.name(), told()))
    }
}
