//! What is told of sessions that are open at the end of a trace.

use crate::watch::Watch;
use draugsten::args::{self, Flag, IndexRequest};
use draugsten::{call, Answer, Edition, Fault, ReadingRecord, Registration, Replay, Report};

const SIZE: usize = 3 * 4096;

fn record(kind: u16, body: &[u8]) -> Vec<u8> {
    let head = [2 + body.len() as u16, kind].map(u16::to_le_bytes).concat();
    [&head, body].concat()
}

/// A platform that makes calls and writes the trace of them.
struct Platform {
    journal: Vec<u8>,
    inventory: Vec<u8>,
    memory: Vec<u8>,
    registration: Registration,
    reading: ReadingRecord,
    trace: Vec<u8>,
}

impl Platform {
    /// Deletes that take two areas and some, updates of two units that take two areas each, three values that take three
    /// areas of each of two nodes, and five sensors.
    fn new() -> Platform {
        let delete = record(1, &[11, 0, 0x2a, 0, 0, 0]);
        let update = |unit: u8| record(4, &[15, 0, unit, 0, 0, 0, 0, 0, 0, 0, 9, 0, 0, 0]);
        let value = |phandle: u8| record(5, &[&[phandle, 0, 0, 0, b'n', 0], &[7; 3000][..]].concat());
        let journal = [
            delete.repeat(2100),
            update(1).repeat(1020),
            update(2).repeat(1020),
            value(7).repeat(3),
            value(8).repeat(3),
        ];
        let sensor = record(16, &[1, 0, 9, 0, 0, 0, 1, 0, 0, 0, b'a']);
        Platform {
            journal: journal.concat(),
            inventory: sensor.repeat(5),
            memory: vec![0; SIZE],
            registration: Registration::none(),
            reading: ReadingRecord::none(),
            trace: vec![],
        }
    }

    fn call(&mut self, args: &[u8]) -> Result<Answer, Fault> {
        let mut args = args.to_vec();
        self.trace.extend(record(32, &args));
        let Platform { journal, inventory, memory, registration, reading, .. } = self;
        let answer = call(&mut args, memory, journal, inventory, Edition(0), registration, reading);
        self.trace.extend(record(33, &args));
        answer
    }

    fn set(&mut self, address: u32, bytes: &[u8]) {
        let place = address as usize;
        self.memory[place..place + bytes.len()].copy_from_slice(bytes);
        self.trace.extend(record(34, &[&address.to_le_bytes(), bytes].concat()));
    }

    /// A call of update-nodes from state 0, in an area.
    fn begin_nodes(&mut self, address: u32, scope: i32, unit: u32) {
        self.set(address, &[&[0; 8][..], &unit.to_be_bytes(), &[0; 4]].concat());
        assert_eq!(self.call(&args::update_nodes(address, scope)), Ok(Answer::CallAgain));
    }

    fn begin_properties(&mut self, address: u32, phandle: u32) {
        self.set(address, &[&phandle.to_be_bytes(), &[0; 12][..]].concat());
        assert_eq!(self.call(&args::update_properties(address, 1)), Ok(Answer::CallAgain));
    }

    fn indices(&mut self, starting_number: u32) -> Result<Answer, Fault> {
        let request = IndexRequest { flag: Flag::Sensor, type_number: 9, address: 8192, size: 30, starting_number };
        self.call(&args::get_indices(&request))
    }

    /// What is open at the end, with the trace fed in pieces of a size.
    fn open(&self, piece: usize) -> Vec<String> {
        let mut memory = vec![0; SIZE];
        let mut replay = Replay::new(&mut memory, &self.journal, &self.inventory, Edition(0));
        let (mut watch, mut held) = (Watch::default(), vec![]);
        for bytes in self.trace.chunks(piece) {
            held.extend(bytes);
            let taken = watch.feed(&mut replay, &held);
            held.drain(..taken);
        }
        assert!(held.is_empty() && replay.end().is_agreed(), "{:?}", replay.end());
        assert_eq!(replay.memory(), self.memory);
        watch.open(&replay)
    }

    fn lines(&self) -> Vec<String> {
        let lines = self.open(usize::MAX);
        for piece in [1, 3, 28, 57, 4096] {
            assert_eq!(self.open(piece), lines);
        }
        lines
    }
}

fn nodes(scope: &str, call: u32, state: u32) -> String {
    let progress = "the operations reported so far";
    format!("open at the end: a session of update-nodes, scope {scope}, since call {call}, state {state}, {progress}")
}

#[test]
fn a_session_of_update_nodes() {
    let mut platform = Platform::new();
    assert!(platform.lines().is_empty());
    platform.begin_nodes(0, 1, 0);
    assert_eq!(platform.lines(), [nodes("1", 1, 1018)]);
    platform.set(0, &[0; 4]); // The state in memory is gone, and the session open.
    assert_eq!(platform.lines(), [nodes("1", 1, 1018)]);
    platform.set(0, &1018u32.to_be_bytes());
    assert_eq!(platform.call(&args::update_nodes(0, 1)), Ok(Answer::CallAgain));
    assert_eq!(platform.lines(), [nodes("1", 1, 2036)]);
    // A call that is refused, and one of another scope.
    assert_eq!(platform.call(&args::update_nodes(4, 1)), Err(Fault::Parameter));
    platform.begin_nodes(4096, -1, 0);
    assert_eq!(platform.lines(), [nodes("1", 1, 2036), nodes("-1", 4, 1018)]);
    // Scope 1 begins anew in another area, and ends.
    platform.begin_nodes(8192, 1, 0);
    assert_eq!(platform.lines(), [nodes("-1", 4, 1018), nodes("1", 5, 1018)]);
    platform.set(0, &2036u32.to_be_bytes());
    assert_eq!(platform.call(&args::update_nodes(0, 1)), Ok(Answer::Done));
    assert_eq!(platform.lines(), [nodes("-1", 4, 1018)]);
}

#[test]
fn a_session_of_a_unit() {
    let mut platform = Platform::new();
    platform.begin_nodes(0, 3, 1);
    platform.begin_nodes(4096, 3, 2);
    let unit = |unit: u32, call| nodes(&format!("3, unit 0x{unit:016x}"), call, 1018);
    assert_eq!(platform.lines(), [unit(1, 1), unit(2, 2)]);
    assert_eq!(platform.call(&args::update_nodes(0, 3)), Ok(Answer::Done));
    assert_eq!(platform.lines(), [unit(2, 2)]);
    platform.begin_nodes(0, 3, 2);
    assert_eq!(platform.lines(), [unit(2, 4)]);
}

#[test]
fn a_session_of_update_properties() {
    let mut platform = Platform::new();
    platform.begin_properties(0, 7);
    platform.begin_properties(4096, 8);
    let first = 2100 * 10 + 2040 * 18;
    // The offset in a value of a byte that is due. A property takes six bytes of the area beside its value.
    let due = |value: usize, more: usize| first + value * 3010 + 10 + more;
    let line = |phandle: u32, call: u32, state: usize| {
        let progress = "the journal offset that is due next";
        format!("open at the end: a session of update-properties, phandle {phandle:08x}, since call {call}, state {state}, {progress}")
    };
    let room = 4096 - 20 - 6 - 3000 - 6;
    assert_eq!(platform.lines(), [line(7, 1, due(1, room)), line(8, 2, due(4, room))]);
    assert_eq!(platform.call(&args::update_properties(0, 1)), Ok(Answer::CallAgain));
    let state = u32::from_be_bytes(platform.memory[4..8].try_into().unwrap()) as usize;
    assert_eq!(platform.lines(), [line(7, 1, state), line(8, 2, due(4, room))]);
    assert_eq!(platform.call(&args::update_properties(0, 1)), Ok(Answer::Done));
    assert_eq!(platform.lines(), [line(8, 2, due(4, room))]);
}

#[test]
fn a_reading_of_get_indices() {
    let mut platform = Platform::new();
    assert_eq!(platform.indices(1), Ok(Answer::CallAgain));
    let line = |call: u32, next: u32| {
        vec![format!(
            "open at the end: a reading of get-indices, sensor 9, begun by call {call}, next Starting Number {next}"
        )]
    };
    assert_eq!(platform.lines(), line(1, 3));
    assert_eq!(platform.indices(3), Ok(Answer::CallAgain));
    assert_eq!(platform.lines(), line(1, 5));
    assert_eq!(platform.indices(1), Ok(Answer::CallAgain));
    assert_eq!(platform.lines(), line(3, 3));
    assert_eq!(platform.indices(3), Ok(Answer::CallAgain));
    assert_eq!(platform.indices(5), Ok(Answer::Done));
    assert!(platform.lines().is_empty());
}

#[test]
fn what_stops_a_replay_is_fed_whole() {
    let good = [record(32, &[1]), record(33, &[1])].concat();
    let before = args::update_nodes(0, 1);
    let cases = [
        (record(7, b"1"), Report::Malformed { record: 3 }),
        (vec![1, 0, 32, 0], Report::Malformed { record: 3 }),
        (record(33, &[]), Report::Malformed { record: 3 }),
        ([record(32, &[]), record(34, &[0; 5])].concat(), Report::Malformed { record: 3 }),
        (record(34, &[0; 4101]), Report::Malformed { record: 3 }),
        ([record(32, &before), record(33, &before)].concat(), Report::Differs { call: 2, offset: 20 }),
    ];
    for (rest, report) in cases {
        let mut memory = [];
        let mut replay = Replay::new(&mut memory, &[], &[], Edition(0));
        let trace = [&good[..], &rest, &good].concat();
        Watch::default().feed(&mut replay, &trace);
        assert_eq!((replay.is_stopped(), replay.report()), (true, report));
    }
}
