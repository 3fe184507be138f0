//! The readings of M-110: traces and what their replay comes to, and replays about the last number of a record.

use super::NONE;
use crate::buffers::{arguments, inventory_record, journal_record, put_word, record, words};
use crate::case::Given;
use crate::library::{ReadingRecord, Replay, Report};
use crate::replay::Running;
use crate::subject::Subject;

/// Bytes of memory: a page, and some more.
const MEMORY: usize = 4096 + 200;

/// The last number of a record.
const LAST: u64 = 4_294_967_295;

/// A trace, what its replay comes to, and what it leaves: memory, and our buffer of a call that differs.
pub struct TraceReading {
    name: String,
    trace: Vec<u8>,
    report: Report,
    memory: Vec<u8>,
    ours: Vec<u8>,
}

/// A feed of a replay that stands at a number of records, with so much room; its number, and what it comes to.
pub struct FeedReading {
    name: &'static str,
    records: u64,
    room: [usize; 2],
    trace: Vec<u8>,
    number: u32,
    report: Report,
}

/// A journal with one delete, and an inventory with two sensors of type 9.
pub fn given(room: [usize; 2]) -> Given {
    let [held, args] = room.map(|length| vec![0xdd; length]);
    let inventory = [inventory_record(1, 9, 0x0a, b"aaa"), inventory_record(1, 9, 0x0b, b"bbb")].concat();
    Given { memory: untouched(), journal: journal_record(1, 10, 0x2a, 0), inventory, held, args }
}

fn untouched() -> Vec<u8> {
    vec![0xee; MEMORY]
}

/// Memory with these bytes in it.
fn holding(parts: &[(usize, &[u8])]) -> Vec<u8> {
    let mut memory = untouched();
    parts.iter().for_each(|(at, bytes)| memory[*at..at + bytes.len()].copy_from_slice(bytes));
    memory
}

pub fn agreed(calls: u64) -> Report {
    Report { verdict: 0, offset: 0, number: calls }
}

pub fn differs(call: u64, offset: u32) -> Report {
    Report { verdict: 1, offset, number: call }
}

pub fn malformed(record: u64) -> Report {
    Report { verdict: 2, offset: 0, number: record }
}

pub fn before(args: &[u8]) -> Vec<u8> {
    record(32, args)
}

pub fn after(args: &[u8]) -> Vec<u8> {
    record(33, args)
}

pub fn set(address: u32, bytes: &[u8]) -> Vec<u8> {
    record(34, &[&address.to_le_bytes(), bytes].concat())
}

/// A call of update-nodes over the first page, with this status in its buffer.
pub fn nodes(status: u32) -> Vec<u8> {
    arguments(1, &[0, 1], &[status])
}

/// The sixteen bytes that the area has to begin with, and the call as it comes.
pub fn called() -> Vec<u8> {
    [set(0, &[0; 16]), before(&nodes(0x55))].concat()
}

/// The call with what it answers.
pub fn answered() -> Vec<u8> {
    [called(), after(&nodes(0))].concat()
}

/// What the call leaves in memory.
fn area() -> Vec<u8> {
    holding(&[(0, &words(&[0, 0, 0, 0, 0x0100_0001, 0x2a, 0]))])
}

fn reading(name: &str, trace: &[Vec<u8>], report: Report, memory: Vec<u8>) -> TraceReading {
    TraceReading { name: String::from(name), trace: trace.concat(), report, memory, ours: Vec::new() }
}

/// A trace whose first record is malformed.
fn first_malformed(name: &str, trace: Vec<u8>) -> TraceReading {
    reading(name, &[trace], malformed(1), untouched())
}

/// A call whose recorded buffer is another one than ours.
fn differing(name: &str, recorded: &[u8], offset: u32) -> TraceReading {
    let ours = nodes(0);
    TraceReading { ours, ..reading(name, &[called(), after(recorded)], differs(1, offset), area()) }
}

/// A 32 with no good 33 behind it: its own number, and its call is not run.
fn lonely(name: &str, behind: Vec<u8>) -> TraceReading {
    reading(name, &[called(), behind], malformed(2), holding(&[(0, &[0; 16])]))
}

pub fn readings() -> Vec<TraceReading> {
    [agreeing(), differences(), without_a_33(), frames(), settings(), handed_on()].into_iter().flatten().collect()
}

/// "or the number of agreeing calls"
fn agreeing() -> Vec<TraceReading> {
    let short = [0; 11];
    let mut long = nodes(0x55);
    long.resize(4100, 0x33);
    let mut long_after = long.clone();
    put_word(&mut long_after, 20, 0);
    let (head, abc) = (set(0, &[0; 16]), (4100, b"abc".as_slice()));
    vec![
        reading("no record", &[], agreed(0), untouched()),
        reading("a 34 alone", &[set(4100, b"abc")], agreed(0), holding(&[abc])),
        reading("an empty 32 and an empty 33", &[before(&[]), after(&[])], agreed(1), untouched()),
        reading("a 32 of 11 bytes", &[before(&short), after(&short)], agreed(1), untouched()),
        reading("a call that is answered", &[answered()], agreed(1), area()),
        reading("the same call twice", &[answered(), before(&nodes(7)), after(&nodes(0))], agreed(2), area()),
        reading("a 34 behind the last call", &[answered(), set(0, &[0; 28])], agreed(1), holding(&[(0, &[0; 28])])),
        reading("a 32 of 4,100 bytes", &[head, before(&long), after(&long_after)], agreed(1), area()),
    ]
}

/// "differs from ours in length or any byte, with the first differing offset (the shorter length if they agree so far)"
fn differences() -> Vec<TraceReading> {
    let ours = nodes(0);
    let mut second = differing("the second call", &ours, 0);
    (second.trace, second.report) = ([answered(), before(&nodes(0)), after(&nodes(1))].concat(), differs(2, 23));
    let mut behind = differing("a difference, then a malformed record", &nodes(2), 23);
    behind.trace.extend([0, 0, 31, 0]);
    vec![
        differing("the status", &nodes(0xffff_fffd), 20),
        differing("the token", &[&[1], &ours[1..]].concat(), 0),
        differing("a byte less", &ours[..23], 23),
        differing("a byte more", &[&ours[..], &[0]].concat(), 24),
        differing("no bytes", &[], 0),
        differing("a byte less and another status", &nodes(0xffff_fffd)[..23], 20),
        second,
        behind,
    ]
}

/// "a 32 without a good 33 right after it (the 32's number; its call isn't run), any other 33"
fn without_a_33() -> Vec<TraceReading> {
    let recorded = after(&nodes(0));
    vec![
        lonely("a 32 at the end", Vec::new()),
        lonely("a 32, then a byte", vec![26]),
        lonely("a 32, then a 33 that is cut off", recorded[..27].to_vec()),
        lonely("a 32, then a 33 of 4,101 bytes", after(&[0; 4101])),
        lonely("a 32, then a 32 with its 33", [before(&nodes(0)), recorded.clone()].concat()),
        lonely("a 32, then a 34, then its 33", [set(16, &[1]), recorded.clone()].concat()),
        lonely("a 32, then a kind 35", record(35, &nodes(0))),
        first_malformed("a 33 alone", recorded.clone()),
        reading("a second 33", &[answered(), recorded], malformed(4), area()),
    ]
}

/// "a body above 4,100 bytes", and the usual faults of a record.
fn frames() -> Vec<TraceReading> {
    vec![
        first_malformed("a kind 31", record(31, &[0; 5])),
        first_malformed("a kind 35", record(35, &[0; 5])),
        first_malformed("a kind 0x2020", record(0x2020, &[])),
        first_malformed("a length of 0", vec![0, 0, 32, 0]),
        first_malformed("a length of 1", vec![1, 0, 32, 0]),
        first_malformed("one byte", vec![7]),
        first_malformed("three bytes", vec![7, 0, 34]),
        first_malformed("a byte of the body is missing", set(0, &[1, 2])[..9].to_vec()),
        first_malformed("a 32 of 4,101 bytes", [before(&[0; 4101]), after(&[0; 4101])].concat()),
        first_malformed("a 34 body of 4,101 bytes", set(0, &[1; 4097])),
        reading("a fault behind a call", &[answered(), vec![0, 0, 32, 0]], malformed(4), area()),
    ]
}

/// "a 34 body under 5, a 34 whose bytes pass the end of memory"
fn settings() -> Vec<TraceReading> {
    let (end, abc) = (MEMORY as u32, b"abc".as_slice());
    vec![
        reading("a 34 body of 4,100 bytes", &[set(0, &[1; 4096])], agreed(0), holding(&[(0, &[1; 4096])])),
        reading("a 34 body of 5 bytes", &[set(2, &[1])], agreed(0), holding(&[(2, &[1])])),
        first_malformed("a 34 body of 4 bytes", record(34, &[0; 4])),
        first_malformed("a 34 without a body", record(34, &[])),
        reading("a 34 to the end of memory", &[set(end - 3, abc)], agreed(0), holding(&[(MEMORY - 3, abc)])),
        first_malformed("a 34 a byte past the end", set(end - 2, abc)),
        first_malformed("a 34 behind memory", set(end, &[1])),
        first_malformed("a 34 whose end is past 2^32", set(0xffff_ffff, abc)),
    ]
}

/// A structure of a kernel dump that can be registered.
pub fn structure() -> Vec<u8> {
    let mut structure = vec![0; 80];
    for (at, byte) in [(3, 1), (5, 1), (11, 40), (43, 1), (45, 1)] {
        structure[at] = byte;
    }
    structure
}

/// "starting with no registration and no reading in progress"; each call finds what the one before it left.
fn handed_on() -> Vec<TraceReading> {
    let structure = structure();
    let command = |status: u32| arguments(3, &[1, 0, 80], &[status]);
    let registered = [set(0, &structure), before(&command(5)), after(&command(0))].concat();
    let again = [before(&command(5)), after(&command(0xffff_fff7))].concat();
    let asks = |start: u32, outputs: &[u32]| arguments(2, &[1, 9, 0, 16, start], outputs);
    let first = [before(&asks(1, &[5, 5])), after(&asks(1, &[1, 2]))].concat();
    let second = [before(&asks(2, &[5, 5])), after(&asks(2, &[0, 1]))].concat();
    let refused = [before(&asks(2, &[5, 5])), after(&asks(2, &[0xffff_fffd, 5]))].concat();
    let entry = [&words(&[1, 0x0b, 4]), b"bbb\0".as_slice()].concat();
    vec![
        reading("registered twice", &[registered, again], agreed(2), holding(&[(0, &structure)])),
        reading("a reading that goes on", &[first, second], agreed(2), holding(&[(0, &entry)])),
        reading("a reading that never began", &[refused], agreed(1), untouched()),
    ]
}

/// "and any record after number 4,294,967,295", and which of the two refusals comes first.
pub fn feeds() -> Vec<FeedReading> {
    let room = [4104, 4100];
    let empty = [before(&[]), after(&[])].concat();
    let at = |name, records, trace: &[u8], report| FeedReading {
        name,
        records,
        room,
        trace: trace.to_vec(),
        number: 0,
        report,
    };
    let no = |name, records, room, number| {
        let told = if records > LAST { malformed(0) } else { agreed(0) };
        FeedReading { room, number, ..at(name, records, &[], told) }
    };
    vec![
        at("the last record", LAST - 1, &set(0, &[1]), agreed(0)),
        at("nothing behind the last record", LAST, &[], agreed(0)),
        at("a byte behind the last record", LAST, &[5], malformed(LAST + 1)),
        at("a good 34 behind the last record", LAST, &set(0, &[1]), malformed(LAST + 1)),
        at("a 33 that is the last record", LAST - 2, &empty, agreed(1)),
        at("a 33 behind the last record", LAST - 1, &empty, malformed(LAST)),
        no("more records than a trace has", LAST + 1, room, 14),
        no("held of 4,103 bytes", 0, [4103, 4100], 15),
        no("args of 4,099 bytes", 0, [4104, 4099], 15),
        no("too little room and too many records", LAST + 1, [0, 0], 15),
    ]
}

impl TraceReading {
    /// What a side does otherwise than written, in bursts of some sizes.
    pub fn failure(&self, subject: &dyn Subject) -> Option<String> {
        [usize::MAX, 1, 2, 7].into_iter().find_map(|burst| self.failure_in_bursts(subject, burst))
    }

    fn failure_in_bursts(&self, subject: &dyn Subject, burst: usize) -> Option<String> {
        let given = given([4104, 4100]);
        let mut running = Running::new(subject, &given, subject.replay_start(7));
        let taken = self.trace.chunks(burst).all(|bytes| running.feed(bytes).number == 0);
        let ended = running.end();
        let good = taken
            && (ended.number, ended.report) == (0, self.report)
            && running.memory.content() == self.memory
            && running.args.content().starts_with(&self.ours);
        let told = format!("{ended:?}, written {:?}, or memory or our buffer", self.report);
        (!good).then(|| format!("fixed reading '{}' on {}: {told}", self.name, subject.name()))
    }
}

impl FeedReading {
    pub fn failure(&self, subject: &dyn Subject) -> Option<String> {
        let given = given(self.room);
        let reading = ReadingRecord::NONE;
        let replay = Replay {
            records: self.records,
            report: agreed(0),
            held: 0,
            waiting: 0,
            edition: 7,
            registration: NONE,
            reading,
        };
        let mut running = Running::new(subject, &given, replay);
        let number = running.feed(&self.trace).number;
        let report = running.end().report;
        let good = number == self.number && report == self.report;
        (!good).then(|| format!("fixed reading '{}' on {}: {number}, {report:?}", self.name, subject.name()))
    }
}
