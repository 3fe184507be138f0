//! M-109 "Journals over the service line", as include/draugsten.h has it: in bursts, with a state that the caller keeps
//! between them. A burst reads what is held and its own bytes as one, record by record, and appends each as M-106 does.

use super::tallies::{self, Tallied};
use super::words::little;
use std::ops::RangeInclusive;

/// "malformed" and "no room as in M-106", as the tallies number them.
const MALFORMED: u32 = 50;
const NO_ROOM: u32 = 51;

/// "unfinished, when the end is announced inside a record"
const UNFINISHED: u32 = 53;

/// What an end says where there is nothing to say.
const NOTHING: (u32, u64) = (0, 0);

/// A state that no start and no burst leaves, and a store that not every record fits in.
const NO_STATE: u32 = 54;
const SMALL_STORE: u32 = 55;

/// "Keep at most one unfinished record": the longest has two bytes for its length, and 32,806 more.
const STORE: usize = 32_808;

/// What an intake has between bursts. The number is that of the record that it is inside, or that comes next; the fault is
/// 0, or the number of the refusal that stopped it.
#[derive(Clone, Copy, PartialEq, Eq, Debug)]
pub struct State {
    pub journal: Tallied,
    pub number: u64,
    pub held: u64,
    pub fault: u32,
}

/// The buffers of an intake: the journal's, and the one for its unfinished record.
pub struct Lent<'a> {
    pub buffer: &'a mut [u8],
    pub store: &'a mut [u8],
}

/// What a burst gives: 0 or the number of a refusal, the record's number, the state, and the rule that refuses.
#[derive(Clone, Copy, PartialEq, Eq, Debug)]
pub struct Told {
    pub number: u32,
    pub record: u64,
    pub state: State,
    pub rule: &'static str,
}

/// What stands at the front of some bytes.
enum Front<'a> {
    Unfinished,
    Whole { record: &'a [u8], behind: &'a [u8] },
    Refused(&'static str),
}

/// Over a journal that may hold records already: "its record's number from 1".
pub fn start(journal: &Tallied) -> State {
    State { journal: *journal, number: 1, held: 0, fault: 0 }
}

/// The lengths that good records of a kind have; for kinds 5 and 6 those of any good one.
fn lengths(kind: u64) -> Option<RangeInclusive<u64>> {
    match kind {
        1 | 2 => Some(8..=8),
        3 => Some(12..=12),
        4 => Some(16..=16),
        5 => Some(8..=32_806),
        6 => Some(8..=38),
        _ => None,
    }
}

/// "A record's length and kind are judged when its first four bytes are in, the rest when it is complete."
fn front(arrived: &[u8]) -> Front<'_> {
    if arrived.len() < 4 {
        return Front::Unfinished;
    }
    let (length, kind) = (little(&arrived[0..2]), little(&arrived[2..4]));
    let Some(good) = lengths(kind) else {
        return Front::Refused("malformed at four bytes: kind");
    };
    if !good.contains(&length) {
        return Front::Refused("malformed at four bytes: length");
    }
    let size = 2 + length as usize;
    if arrived.len() < size {
        return Front::Unfinished;
    }
    let (record, behind) = arrived.split_at(size);
    Front::Whole { record, behind }
}

/// "The service processor sends the journal in bursts that break anywhere."
pub fn burst(lent: &mut Lent, state: &State, bytes: &[u8]) -> Told {
    if let Some((number, rule)) = broken_state(lent.buffer, lent.store, state) {
        return Told { number, record: 0, state: *state, rule };
    }
    // "after either, every burst and the end get the same refusal and change nothing"
    if state.fault != 0 {
        return Told { number: state.fault, record: state.number, state: *state, rule: "after a fault" };
    }
    let held = state.held as usize;
    let arrived = [&lent.store[..held], bytes].concat();
    take(lent, State { held: 0, ..*state }, &arrived)
}

/// "feed complete ones to the tallies and a lent journal buffer"
fn take(lent: &mut Lent, from: State, arrived: &[u8]) -> Told {
    let (mut state, mut rest) = (from, arrived);
    loop {
        match front(rest) {
            Front::Unfinished => {
                lent.store[..rest.len()].copy_from_slice(rest);
                state.held = rest.len() as u64;
                return Told { number: 0, record: 0, state, rule: "" };
            }
            Front::Refused(rule) => return stop(state, MALFORMED, rule),
            Front::Whole { record, behind } => match tallies::append(lent.buffer, &state.journal, record) {
                Ok(journal) => {
                    state.journal = journal;
                    state.number = state.number.saturating_add(1);
                    rest = behind;
                }
                Err(refused) => return stop(state, refused.number, refused.rule),
            },
        }
    }
}

/// The first fault; what is behind it is not looked at.
fn stop(state: State, fault: u32, rule: &'static str) -> Told {
    Told { number: fault, record: state.number, state: State { fault, ..state }, rule }
}

/// "unfinished, when the end is announced inside a record. An end changes nothing." The refusal, and the record's number.
pub fn end(buffer: &[u8], store: &[u8], state: &State) -> (u32, u64) {
    if let Some((number, _)) = broken_state(buffer, store, state) {
        return (number, 0);
    }
    if state.fault != 0 {
        return (state.fault, state.number);
    }
    if state.held > 0 {
        return (UNFINISHED, state.number);
    }
    NOTHING
}

/// What is no state of an intake is refused before all else, the store first.
fn broken_state(buffer: &[u8], store: &[u8], state: &State) -> Option<(u32, &'static str)> {
    if store.len() < STORE {
        return Some((SMALL_STORE, "a store under 32,808 bytes"));
    }
    let rule = broken_parts(state).or_else(|| broken_journal(buffer, state)).or_else(|| broken_held(store, state));
    rule.map(|rule| (NO_STATE, rule))
}

fn broken_parts(state: &State) -> Option<&'static str> {
    if state.number == 0 {
        return Some("number 0");
    }
    if ![0, MALFORMED, NO_ROOM].contains(&state.fault) {
        return Some("a fault that is none");
    }
    if state.fault != 0 && state.held != 0 {
        return Some("a fault with bytes held");
    }
    None
}

/// What M-106 refuses first.
fn broken_journal(buffer: &[u8], state: &State) -> Option<&'static str> {
    tallies::judge(buffer, &state.journal).err().map(|refused| refused.rule)
}

/// The held bytes are those of an unfinished record.
fn broken_held(store: &[u8], state: &State) -> Option<&'static str> {
    if state.held > store.len() as u64 {
        return Some("more held than the store has");
    }
    match front(&store[..state.held as usize]) {
        Front::Unfinished => None,
        Front::Whole { .. } => Some("a whole record held"),
        Front::Refused(_) => Some("four bytes held that are refused"),
    }
}
