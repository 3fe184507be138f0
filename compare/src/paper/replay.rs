//! M-110, "Replay a partition's session."

use super::month::{self, Counts};
use super::words::little;
use super::{call, Phase, Platform, ReadingRecord, Registration, NO_READING};

/// "Malformed too: .. a body above 4,100 bytes"
pub const LONGEST_BODY: usize = 4_100;

/// "and any record after number 4,294,967,295"
pub const LAST_NUMBER: u64 = 4_294_967_295;

/// "kind 32 an argument buffer before the call, kind 33 the same after it, kind 34 a four-byte address and bytes of
/// memory set before a call"
pub const BEFORE: u64 = 32;
pub const AFTER: u64 = 33;
pub const SETTING: u64 = 34;

/// What is reported.
#[derive(Clone, Copy, PartialEq, Eq, Debug)]
pub enum Report {
    /// "the number of agreeing calls"
    Agreed { calls: u64 },
    /// "the number of the first call whose recorded buffer differs from ours in length or any byte, with the first
    /// differing offset"
    Differs { call: u64, offset: u64 },
    /// "trace malformed, with the record's number", and the rule that makes it so.
    Malformed { record: u64, rule: &'static str },
}

/// "Replay over a given journal, inventory with its edition, and memory"
#[derive(Clone, Copy)]
pub struct Over<'a> {
    pub journal: &'a [u8],
    pub inventory: &'a [u8],
    pub edition: u64,
}

/// Where a replay stands in front of a record: how many records there were, how many calls agreed, what the platform keeps
/// for the partition, and what the calls came to (M-111). No 32 waits for its 33.
#[derive(Clone, Copy)]
pub struct Position {
    pub records: u64,
    pub calls: u64,
    pub registration: Registration,
    pub reading: ReadingRecord,
    pub counts: Counts,
}

/// "starting with no registration and no reading in progress"
pub fn beginning() -> Position {
    let registration = Registration { phase: Phase::None, length: 0, copy: [0; 512] };
    Position { records: 0, calls: 0, registration, reading: NO_READING, counts: month::NOTHING }
}

/// What a replay comes to: its report, where it stopped, the bytes of the trace from there on, and our buffer of a call
/// that differs. The position counts the records of such a call, and no malformed one.
pub struct Replayed {
    pub report: Report,
    pub position: Position,
    pub left: usize,
    pub ours: Vec<u8>,
}

/// Why a replay stops: its report, and our buffer of a call that differs.
type Stop = (Report, Vec<u8>);

/// Replays a trace to its end, from a position on. "Memory keeps what was done before the stop."
pub fn replay(trace: &[u8], memory: &mut [u8], over: &Over, from: Position) -> Replayed {
    let mut position = from;
    let mut rest = trace;
    while !rest.is_empty() {
        match step(rest, memory, over, &mut position) {
            Ok(behind) => rest = behind,
            Err((report, ours)) => return Replayed { report, position, left: rest.len(), ours },
        }
    }
    Replayed { report: Report::Agreed { calls: position.calls }, position, left: 0, ours: Vec::new() }
}

/// Takes the first record of what is left of the trace, a 32 together with its 33; gives what is behind. "Records and
/// calls count from 1."
fn step<'a>(rest: &'a [u8], memory: &mut [u8], over: &Over, position: &mut Position) -> Result<&'a [u8], Stop> {
    let number = position.records + 1;
    let malformed = |rule: &'static str| (Report::Malformed { record: number, rule }, Vec::new());
    let (record, behind) = first_record(rest, number).map_err(malformed)?;
    match record.kind {
        SETTING => {
            set_memory(memory, record.body).map_err(malformed)?;
            position.records += 1;
            Ok(behind)
        }
        // "any other 33"
        AFTER => Err(malformed("33 without a 32")),
        _ => {
            // "a 32 without a good 33 right after it (the 32's number; its call isn't run)"
            let (after, behind) = good_33(behind, number + 1).ok_or(malformed("32 without a good 33"))?;
            position.records += 2;
            run_call(record.body, after, memory, over, position)?;
            Ok(behind)
        }
    }
}

/// The body of the 33 that these bytes begin with, and what is behind it.
fn good_33(bytes: &[u8], number: u64) -> Option<(&[u8], &[u8])> {
    match first_record(bytes, number) {
        Ok((Record { kind: AFTER, body }, behind)) => Some((body, behind)),
        _ => None,
    }
}

pub struct Record<'a> {
    pub kind: u64,
    pub body: &'a [u8],
}

/// The rule of a record that the end of the trace cuts off.
pub const CUT_OFF: &str = "cut off";

/// The record of this number that the bytes begin with, and what is behind it; or the rule that makes it malformed. "A
/// trace holds our usual records, numbers little-endian": length, kind and body, the length counts kind and body.
pub fn first_record(bytes: &[u8], number: u64) -> Result<(Record<'_>, &[u8]), &'static str> {
    if number > LAST_NUMBER {
        return Err("after the last number");
    }
    if bytes.len() < 4 {
        return Err(CUT_OFF);
    }
    let (length, kind) = (little(&bytes[0..2]) as usize, little(&bytes[2..4]));
    if length < 2 {
        return Err("length under 2");
    }
    if ![BEFORE, AFTER, SETTING].contains(&kind) {
        return Err("kind");
    }
    if length - 2 > LONGEST_BODY {
        return Err("body above 4,100 bytes");
    }
    if 2 + length > bytes.len() {
        return Err(CUT_OFF);
    }
    let (record, behind) = bytes.split_at(2 + length);
    Ok((Record { kind, body: &record[4..] }, behind))
}

/// "a 34 body under 5, a 34 whose bytes pass the end of memory"; neither sets a byte.
fn set_memory(memory: &mut [u8], body: &[u8]) -> Result<(), &'static str> {
    if body.len() < 5 {
        return Err("34 body under 5");
    }
    let (address, bytes) = (little(&body[0..4]), &body[4..]);
    if address + bytes.len() as u64 > memory.len() as u64 {
        return Err("34 past the end of memory");
    }
    memory[address as usize..address as usize + bytes.len()].copy_from_slice(bytes);
    Ok(())
}

/// Makes the call again, and compares the buffer that it leaves with the recorded one.
fn run_call(before: &[u8], after: &[u8], memory: &mut [u8], over: &Over, position: &mut Position) -> Result<(), Stop> {
    let Over { journal, inventory, edition } = *over;
    let platform =
        Platform { journal, inventory, edition, registration: position.registration, reading: position.reading };
    let mut ours = before.to_vec();
    let told = call(&mut ours, memory, &platform);
    month::count(&mut position.counts, &ours, memory, &told);
    position.registration = told.registration;
    position.reading = told.reading;
    match first_differing_offset(&ours, after) {
        Some(offset) => Err((Report::Differs { call: position.calls + 1, offset }, ours)),
        None => {
            position.calls += 1;
            Ok(())
        }
    }
}

/// "differs from ours in length or any byte, with the first differing offset (the shorter length if they agree so far)"
fn first_differing_offset(ours: &[u8], recorded: &[u8]) -> Option<u64> {
    if ours == recorded {
        return None;
    }
    let differing = ours.iter().zip(recorded).position(|(ours, recorded)| ours != recorded);
    Some(differing.unwrap_or(ours.len().min(recorded.len())) as u64)
}
