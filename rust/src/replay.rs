//! The replay of a recorded session.

use crate::ffi;
use crate::reading_record::{Edition, ReadingRecord};
use crate::registration::Registration;
use crate::text::words;
use crate::trace::{Kind, BODY_LIMIT, RECORD_LIMIT};
use std::fmt;
use std::io::{self, ErrorKind, Read};

/// The bytes that are read at a time.
const BURST: usize = 65_536;

/// Reads a trace in bursts, to its end or to where one of them is the last that is asked for.
pub(crate) fn read_bursts(mut trace: impl Read, mut goes_on: impl FnMut(&[u8]) -> bool) -> io::Result<()> {
    let mut burst = vec![0; BURST];
    loop {
        match trace.read(&mut burst) {
            Ok(0) => return Ok(()),
            Ok(size) if goes_on(&burst[..size]) => {}
            Ok(_) => return Ok(()),
            Err(error) if error.kind() == ErrorKind::Interrupted => {}
            Err(error) => return Err(error),
        }
    }
}

/// What a replay came to.
#[derive(Clone, Copy, PartialEq, Eq, Debug)]
pub enum Report {
    /// All calls so far agreed.
    Agreed {
        /// How many.
        calls: u32,
    },
    /// The recorded buffer of a call is not the one that our call leaves. Every call before it agreed.
    Differs {
        /// Which call, counted from 1.
        call: u32,
        /// The first byte that differs; the shorter buffer's length where the two agree so far.
        offset: u32,
    },
    /// A record is malformed. Every call before it agreed.
    Malformed {
        /// Which record, counted from 1; of a call without its `After` that of its `Before`.
        record: u64,
    },
}

impl Report {
    pub(crate) fn of(flat: ffi::Report) -> Report {
        match flat.verdict {
            0 => Report::Agreed { calls: flat.number as u32 },
            1 => Report::Differs { call: flat.number as u32, offset: flat.offset },
            2 => Report::Malformed { record: flat.number },
            verdict => unreachable!("the library gives no verdict {verdict}"),
        }
    }

    /// Whether all calls so far agreed.
    pub fn is_agreed(&self) -> bool {
        matches!(self, Report::Agreed { .. })
    }
}

impl fmt::Display for Report {
    fn fmt(&self, f: &mut fmt::Formatter<'_>) -> fmt::Result {
        match self {
            Report::Agreed { calls } => write!(f, "{} {calls}", words("VERDICT", 0)),
            Report::Differs { call, offset } => write!(f, "{} call {call} at {offset}", words("VERDICT", 1)),
            Report::Malformed { record } => write!(f, "{} record {record}", words("VERDICT", 2)),
        }
    }
}

/// The argument buffers of a call that differs.
#[derive(Clone, Copy, PartialEq, Eq, Debug)]
pub struct Difference<'a> {
    /// Before the call.
    pub before: &'a [u8],
    /// After it, as it was recorded.
    pub recorded: &'a [u8],
    /// After our call.
    pub ours: &'a [u8],
}

/// A replay makes the calls of a trace again, over a partition's memory, a journal and an inventory with its edition, from
/// no registration and no reading in progress on. It is fed the trace in pieces, cut anywhere, and keeps one record of it,
/// so a trace of any length is replayed in the same space. A difference or a malformed record stops it.
///
/// ```
/// use draugsten::{args, Edition, Recorder, Replay, Report};
///
/// // One record: a node of type 11 was deleted.
/// let journal = [8, 0, 1, 0, 11, 0, 0x2a, 0, 0, 0];
/// let mut trace = vec![];
/// let mut memory = vec![0; 4096];
/// let mut recorder = Recorder::new(&mut trace, &mut memory, &journal, &[], Edition(0));
/// recorder.call(&mut args::update_nodes(0, 1)).unwrap().unwrap();
///
/// let mut again = vec![0; 4096];
/// let mut replay = Replay::new(&mut again, &journal, &[], Edition(0));
/// assert_eq!(replay.read(&trace[..]).unwrap(), Report::Agreed { calls: 1 });
/// assert_eq!(again, memory);
///
/// // A status of 1 in the place of the 0 that was recorded.
/// *trace.last_mut().unwrap() = 1;
/// let mut again = vec![0; 4096];
/// let mut replay = Replay::new(&mut again, &journal, &[], Edition(0));
/// assert_eq!(replay.feed(&trace).to_string(), "differs call 1 at 23");
/// assert_eq!(replay.difference().unwrap().ours[20..], [0, 0, 0, 0]);
/// ```
pub struct Replay<'a> {
    memory: &'a mut [u8],
    journal: &'a [u8],
    inventory: &'a [u8],
    held: Box<[u8]>,
    args: Box<[u8]>,
    state: ffi::Replay,
    stop: Stop,
}

/// The record that stopped a replay, and the body of the one before it.
#[derive(Default)]
struct Stop {
    before: Vec<u8>,
    record: Vec<u8>,
}

impl<'a> Replay<'a> {
    /// A replay that has been fed nothing. Memory is as it was when the recording began; the 34s of the trace and its
    /// calls write it.
    pub fn new(memory: &'a mut [u8], journal: &'a [u8], inventory: &'a [u8], edition: Edition) -> Replay<'a> {
        Replay {
            memory,
            journal,
            inventory,
            held: vec![0; RECORD_LIMIT].into(),
            args: vec![0; BODY_LIMIT].into(),
            state: ffi::replay_start(edition.0),
            stop: Stop::default(),
        }
    }

    /// Feeds it the next bytes of the trace, which may break off anywhere, and gives the report so far. Where it has
    /// stopped, nothing changes.
    pub fn feed(&mut self, bytes: &[u8]) -> Report {
        if self.is_stopped() {
            return self.report();
        }
        let earlier = self.standing();
        let Replay { held, args, memory, journal, inventory, state, .. } = self;
        let fed = ffi::replay_feed(held, args, memory, journal, inventory, *state, bytes);
        assert_eq!(fed.number, 0, "the library takes every replay that it gave");
        self.state = fed.replay;
        if self.is_stopped() {
            self.stop = earlier.stop(bytes, &self.state);
        }
        self.report()
    }

    /// Reads a trace to its end, or to where the replay stops, and gives the report of a trace that ends there. If
    /// reading fails, the replay stands after the last byte that was read, and can go on.
    pub fn read(&mut self, trace: impl Read) -> io::Result<Report> {
        if !self.is_stopped() {
            read_bursts(trace, |burst| self.feed(burst).is_agreed())?;
        }
        Ok(self.end())
    }

    /// The report of a trace that ends here: only the end makes a record that is not finished malformed, and a call that
    /// still waits for its `After`. It changes nothing, and a later feed goes on.
    pub fn end(&self) -> Report {
        let ended = ffi::replay_end(self.state);
        assert_eq!(ended.number, 0, "the library takes every replay that it gave");
        Report::of(ended.report)
    }

    /// The report so far.
    pub fn report(&self) -> Report {
        Report::of(self.state.report)
    }

    /// Whether a difference or a malformed record has stopped it.
    pub fn is_stopped(&self) -> bool {
        !self.report().is_agreed()
    }

    /// How many records were taken. A malformed one is not.
    pub fn records(&self) -> u64 {
        self.state.records
    }

    /// The partition's memory, with what was done so far. The call that differs has been made.
    pub fn memory(&self) -> &[u8] {
        self.memory
    }

    /// The registration that the last call left.
    pub fn registration(&self) -> Registration {
        Registration::of(self.state.registration)
    }

    /// The reading record that the last call left.
    pub fn reading(&self) -> ReadingRecord {
        ReadingRecord::of(self.state.reading)
    }

    /// The buffers of the call that differs, where one does.
    pub fn difference(&self) -> Option<Difference<'_>> {
        let Report::Differs { .. } = self.report() else { return None };
        let before = &self.stop.before[..];
        Some(Difference { before, recorded: &self.stop.record[4..], ours: &self.args[..before.len()] })
    }

    /// The record that stopped the replay, from its length on; where length or kind is wrong, these two alone. While nothing
    /// has stopped it, the bytes of a record that is not finished.
    pub fn last_record(&self) -> &[u8] {
        if self.is_stopped() {
            &self.stop.record
        } else {
            &self.held[..self.state.held]
        }
    }

    /// What a burst may overwrite, and the end of it has to know.
    fn standing(&self) -> Standing {
        let waiting = self.state.waiting.saturating_sub(1) as usize;
        Standing {
            records: self.state.records,
            held: self.held[..self.state.held].to_vec(),
            before: self.args[..waiting].to_vec(),
        }
    }
}

/// Where a replay stood before a burst: the records taken, the bytes of one that was not finished, and the body of a 32
/// that waited.
struct Standing {
    records: u64,
    held: Vec<u8>,
    before: Vec<u8>,
}

impl Standing {
    /// Finds the record of a burst that stopped the replay: the last one taken, or a malformed one after it.
    fn stop(self, bytes: &[u8], state: &ffi::Replay) -> Stop {
        let stream = Stream { held: &self.held, bytes };
        let taken = state.records - self.records;
        let passed = if state.report.verdict == 1 { taken - 1 } else { taken };
        let (mut before, mut at) = (None, 0);
        for _ in 0..passed {
            before = Some(at);
            at = stream.next(at);
        }
        Stop {
            before: before.map_or(self.before, |place| stream.part(place + 4, stream.next(place))),
            record: stream.part(at, stream.next(at)),
        }
    }
}

/// The bytes of a trace from the beginning of a record on: those that were held, then those of a burst.
struct Stream<'a> {
    held: &'a [u8],
    bytes: &'a [u8],
}

impl Stream<'_> {
    fn byte(&self, at: usize) -> u8 {
        match at.checked_sub(self.held.len()) {
            None => self.held[at],
            Some(place) => self.bytes[place],
        }
    }

    fn number(&self, at: usize) -> u16 {
        u16::from_le_bytes([self.byte(at), self.byte(at + 1)])
    }

    /// The place after the record at a place; after length and kind alone, if these are wrong.
    fn next(&self, at: usize) -> usize {
        let (length, kind) = (self.number(at) as usize, self.number(at + 2));
        let is_kind = (Kind::Before as u16..=Kind::Memory as u16).contains(&kind);
        let good = is_kind && (2..=RECORD_LIMIT - 2).contains(&length);
        at + if good { 2 + length } else { 4 }
    }

    fn part(&self, from: usize, upto: usize) -> Vec<u8> {
        (from..upto).map(|at| self.byte(at)).collect()
    }
}

#[cfg(test)]
mod tests {
    use super::{Replay, Report};
    use crate::{ffi, Edition};

    const SETTING: [u8; 9] = [7, 0, 34, 0, 0, 0, 0, 0, 5];

    /// The verdicts as the header numbers them, which tests/readings/header.rs holds it to.
    #[test]
    fn a_verdict_is_read() {
        let of = |verdict, offset| Report::of(ffi::Report { verdict, offset, number: 7 });
        assert_eq!(of(0, 0), Report::Agreed { calls: 7 });
        assert_eq!(of(1, 9), Report::Differs { call: 7, offset: 9 });
        assert_eq!(of(2, 0), Report::Malformed { record: 7 });
    }

    /// A state that the library never gave has the numbers of the header, and is not taken.
    #[test]
    fn a_state_of_no_feed_is_refused() {
        let mut state = ffi::replay_start(0);
        state.report.number = 1;
        assert_eq!(ffi::replay_end(state).number, 14);
        let (mut held, mut args) = ([0; 4104], [0; 4100]);
        assert_eq!(ffi::replay_feed(&mut held, &mut args, &mut [], &[], &[], state, &[]).number, 14);
        assert_eq!(ffi::replay_feed(&mut held[1..], &mut args, &mut [], &[], &[], state, &[]).number, 15);
    }

    #[test]
    fn no_record_follows_the_last_number() {
        let mut memory = [0];
        let mut replay = Replay::new(&mut memory, &[], &[], Edition(0));
        replay.state.records = u32::MAX as u64 - 1;
        assert_eq!(replay.feed(&SETTING), Report::Agreed { calls: 0 });
        assert_eq!((replay.records(), replay.end()), (u32::MAX as u64, Report::Agreed { calls: 0 }));
        let beyond = Report::Malformed { record: 1 << 32 };
        assert_eq!((replay.feed(&SETTING[..1]), replay.end()), (Report::Agreed { calls: 0 }, beyond));
        assert_eq!(replay.feed(&SETTING[1..]), beyond);
        assert_eq!((replay.records(), replay.last_record()), (u32::MAX as u64, &SETTING[..]));
        assert_eq!(beyond.to_string(), "malformed record 4294967296");
    }

    #[test]
    fn no_call_has_the_last_number_for_its_before() {
        let mut memory = [];
        let mut replay = Replay::new(&mut memory, &[], &[], Edition(0));
        replay.state.records = u32::MAX as u64 - 1;
        replay.feed(&[2, 0, 32, 0, 2, 0, 33, 0]);
        assert_eq!(replay.report(), Report::Malformed { record: u32::MAX as u64 });
    }
}
