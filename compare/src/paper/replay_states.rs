//! The replay of M-110 as include/draugsten.h has it: fed in bursts, with a state that the caller keeps between them. A
//! feed replays what is not done yet of the trace, as one trace: the 32 that waits, the bytes that are held, the burst.

use super::month::{self, Counts};
use super::replay::{self, beginning, first_record, Over, Position, Record, Replayed, Report};
use super::{get_indices, kernel_dump, Phase, ReadingRecord, Registration, NO_READING};

/// "`held` has under 4,104 bytes, or `args` under 4,100"
pub const NO_ROOM: u32 = 15;

/// "a replay, or a front of `held`, that no start and no feed gives"
pub const NO_REPLAY: u32 = 14;

const HELD: usize = 4_104;
const ARGS: usize = 4_100;

/// "Where a replay stands." The registration is missing where its phase is above 2 or its length above 512.
#[derive(Clone, Copy)]
pub struct State {
    pub records: u64,
    pub verdict: u64,
    pub offset: u64,
    pub number: u64,
    pub held: u64,
    pub waiting: u64,
    pub edition: u64,
    pub registration: Option<Registration>,
    pub reading: ReadingRecord,
}

/// The buffers that a feed writes.
pub struct Lent<'a> {
    pub held: &'a mut [u8],
    pub args: &'a mut [u8],
    pub memory: &'a mut [u8],
}

/// The number of a feed or an end that is not taken, and the rule that says so.
pub struct Refused {
    pub number: u32,
    pub rule: &'static str,
}

fn refused<T>(number: u32, rule: &'static str) -> Result<T, Refused> {
    Err(Refused { number, rule })
}

/// "The replay that a trace starts with, over an inventory of this edition."
pub fn start(edition: u64) -> State {
    state_at(&beginning(), edition)
}

/// The state of a replay that stands at a position, all calls so far agreed.
fn state_at(position: &Position, edition: u64) -> State {
    State {
        records: position.records,
        verdict: 0,
        offset: 0,
        number: position.calls,
        held: 0,
        waiting: 0,
        edition,
        registration: Some(position.registration),
        reading: position.reading,
    }
}

/// "Feeds a replay the next bytes of its trace."
pub fn feed(lent: &mut Lent, over: &Over, state: &State, bytes: &[u8]) -> Result<State, Refused> {
    let registration = judge_feed(lent, state)?;
    Ok(go_on(lent, over, state, (registration, month::NOTHING), bytes).0)
}

/// Holds a feed to its room and to its replay; gives the registration. "The checks come in this order: 15; 14."
pub fn judge_feed(lent: &Lent, state: &State) -> Result<Registration, Refused> {
    if lent.held.len() < HELD {
        return refused(NO_ROOM, "held under 4,104 bytes");
    }
    if lent.args.len() < ARGS {
        return refused(NO_ROOM, "args under 4,100 bytes");
    }
    let registration = judge(state)?;
    if makes_a_record(&lent.held[..state.held as usize]) {
        return refused(NO_REPLAY, "held bytes that make a record");
    }
    Ok(registration)
}

/// Goes on with a replay that is taken, from its registration and its counts on; gives the counts beside it.
pub fn go_on(
    lent: &mut Lent,
    over: &Over,
    state: &State,
    (registration, counts): (Registration, Counts),
    bytes: &[u8],
) -> (State, Counts) {
    // "A difference or a malformed record stops a replay, and every later feed changes nothing."
    if state.verdict != 0 {
        return (*state, counts);
    }
    let trace = not_done(lent, state, bytes);
    let records = state.records - waits(state);
    let from = Position { records, calls: state.number, registration, reading: state.reading, counts };
    let replayed = replay::replay(&trace, lent.memory, over, from);
    (come_to(lent, state.edition, &trace, &replayed), replayed.position.counts)
}

/// 1 where a 32 waits for its 33.
fn waits(state: &State) -> u64 {
    u64::from(state.waiting > 0)
}

/// All of the trace that is not done yet.
fn not_done(lent: &Lent, state: &State, bytes: &[u8]) -> Vec<u8> {
    let mut trace = Vec::new();
    if state.waiting > 0 {
        let body = &lent.args[..state.waiting as usize - 1];
        trace.extend((2 + body.len() as u16).to_le_bytes());
        trace.extend((replay::BEFORE as u16).to_le_bytes());
        trace.extend(body);
    }
    trace.extend(&lent.held[..state.held as usize]);
    trace.extend(bytes);
    trace
}

/// The state after a burst, whose bytes stand at the end of the trace.
fn come_to(lent: &mut Lent, edition: u64, trace: &[u8], replayed: &Replayed) -> State {
    let state = state_at(&replayed.position, edition);
    match replayed.report {
        Report::Agreed { .. } => state,
        Report::Differs { call, offset } => {
            lent.args[..replayed.ours.len()].copy_from_slice(&replayed.ours);
            State { verdict: 1, offset, number: call, ..state }
        }
        Report::Malformed { record, .. } => malformed(lent, state, &trace[trace.len() - replayed.left..], record),
    }
}

/// The state in front of a malformed record, with what is left of the trace from there on. Where the end alone makes it
/// malformed, it waits for more: a whole 32 in `args`, and what is behind it in `held`.
fn malformed(lent: &mut Lent, before: State, left: &[u8], record: u64) -> State {
    let mut state = before;
    let mut behind = left;
    if let Ok((Record { kind: replay::BEFORE, body }, rest)) = first_record(left, record) {
        lent.args[..body.len()].copy_from_slice(body);
        state.waiting = 1 + body.len() as u64;
        state.records += 1;
        behind = rest;
    }
    if behind.is_empty() || first_record(behind, state.records + 1).err() == Some(replay::CUT_OFF) {
        lent.held[..behind.len()].copy_from_slice(behind);
        return State { held: behind.len() as u64, ..state };
    }
    State { verdict: 2, number: record, ..state }
}

/// "What the replay of a trace that ends here comes to: a record that is not finished, and a 32 that waits for its 33,
/// are malformed by the end alone." Verdict, offset and number.
pub fn end(state: &State) -> Result<(u64, u64, u64), Refused> {
    judge(state)?;
    Ok(match *state {
        State { verdict: 0, waiting: 1.., records, .. } => (2, 0, records),
        State { verdict: 0, held: 1.., records, .. } => (2, 0, records + 1),
        State { verdict, offset, number, .. } => (verdict, offset, number),
    })
}

/// Holds a state to what a start or a feed can give; gives its registration.
fn judge(state: &State) -> Result<Registration, Refused> {
    let Some(registration) = state.registration else {
        return refused(NO_REPLAY, "registration");
    };
    let rule = broken_in_bounds(state)
        .or_else(|| broken_registration(&registration))
        .or_else(|| broken_reading(state))
        .or_else(|| broken_report(state, calls_at_least(&registration, &state.reading)));
    match rule {
        Some(rule) => refused(NO_REPLAY, rule),
        None => Ok(registration),
    }
}

fn broken_in_bounds(state: &State) -> Option<&'static str> {
    if state.records > replay::LAST_NUMBER {
        return Some("records above 4,294,967,295");
    }
    if state.waiting > 1 + ARGS as u64 {
        return Some("waiting above 4,101");
    }
    if state.held >= HELD as u64 {
        return Some("held above 4,103");
    }
    if state.held != 0 && state.verdict != 0 {
        return Some("held after a stop");
    }
    None
}

/// "phase 0, length 0, 512 zero bytes", or a good structure that was registered, "then zero bytes". No call makes a
/// registration active.
fn broken_registration(registration: &Registration) -> Option<&'static str> {
    let length = registration.length as usize;
    let (structure, behind) = registration.copy.split_at(length);
    if behind.iter().any(|&byte| byte != 0) {
        return Some("bytes behind the copy");
    }
    match registration.phase {
        Phase::None => (length != 0).then_some("none registered, with a copy"),
        Phase::Registered if length < 40 => Some("copy under 40 bytes"),
        Phase::Registered => kernel_dump::broken_rule(structure).map(|_| "no good structure"),
        Phase::Active => Some("active"),
    }
}

/// No reading in progress, or one of a list that can be asked for, in the replay's own edition.
fn broken_reading(state: &State) -> Option<&'static str> {
    let ReadingRecord { flag, kind, number, edition } = state.reading;
    if state.reading == NO_READING {
        return None;
    }
    if number < 2 {
        return Some("reading number under 2");
    }
    if number > 69_905 {
        return Some("reading number above the entries of any inventory");
    }
    if get_indices::broken_list(flag, kind).is_some() {
        return Some("reading of no list");
    }
    (edition != state.edition).then_some("reading in another edition")
}

/// The calls that a replay has made at the least: one that registered, and one that began the reading in progress.
fn calls_at_least(registration: &Registration, reading: &ReadingRecord) -> u128 {
    u128::from(registration.phase == Phase::Registered) + u128::from(reading.number > 1)
}

/// What a replay came to, beside the records taken: a call takes two, and a 32 that waits one.
fn broken_report(state: &State, least: u128) -> Option<&'static str> {
    let (records, number, waits) = (u128::from(state.records), u128::from(state.number), u128::from(waits(state)));
    let broken = match state.verdict {
        0 => [
            (state.offset != 0, "agreed, offset"),
            (2 * number + waits > records, "agreed, more calls than records"),
            (number < least, "agreed, fewer calls than made"),
        ],
        1 => [
            (waits != 0 || state.offset >= ARGS as u64, "differs, waiting or offset"),
            (2 * number > records, "differs, more calls than records"),
            (number < least.max(1), "differs, fewer calls than made"),
        ],
        2 => [
            (state.offset != 0, "malformed, offset"),
            (number + waits != records + 1, "malformed, not the record behind"),
            (2 * least + waits > records, "malformed, fewer records than calls made"),
        ],
        _ => return Some("verdict above 2"),
    };
    broken.into_iter().find(|rule| rule.0).map(|rule| rule.1)
}

/// Bytes of an unfinished record: where its length and kind are in, they are good, and the record is not whole.
fn makes_a_record(held: &[u8]) -> bool {
    held.len() >= 4 && first_record(held, 1).err() != Some(replay::CUT_OFF)
}
