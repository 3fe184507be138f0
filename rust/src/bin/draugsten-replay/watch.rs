//! Which sessions are open when a trace ends.
//!
//! A session of update-nodes is known by its scope and, in scope 3, its unit, and one of update-properties by its phandle.
//! An answered call with status 1 leaves it open, with the state that stands at the head of its area; an answered call with
//! status 0 ends it. The state rises from call to call: one that does not is of a session that began anew.

use crate::shared::calls::word;
use draugsten::trace::{Kind, RECORD_LIMIT};
use draugsten::{ReadingRecord, Replay};
use std::collections::BTreeMap;

const UPDATE_NODES: u32 = 1;
const GET_INDICES: u32 = 2;
const UPDATE_PROPERTIES: u32 = 4;

/// Feeds a replay, and looks at its calls on the way.
#[derive(Default)]
pub struct Watch {
    calls: u64,
    /// The call that began the reading of get-indices.
    reading: u64,
    sessions: BTreeMap<Key, Session>,
}

#[derive(Clone, Copy, PartialEq, Eq, PartialOrd, Ord, Debug)]
enum Key {
    Nodes { scope: i32, unit: Option<u64> },
    Properties { phandle: u32 },
}

/// A session that is open: the call since which it is, and its state.
struct Session {
    call: u64,
    state: u32,
}

/// What bytes of a trace begin with.
enum Part {
    /// A call with its two records: the size of the first, and of both.
    Call(usize, usize),
    /// A record that sets memory.
    Setting(usize),
    Unfinished,
    /// Something else, which stops the replay.
    Wrong,
}

/// The size of a record by its first four bytes, if they are there and it is of a kind.
fn record(bytes: &[u8], kind: Kind) -> Option<usize> {
    let [low, high, first, second, ..] = *bytes else { return None };
    let size = 2 + usize::from(u16::from_le_bytes([low, high]));
    let good = u16::from_le_bytes([first, second]) == kind as u16 && (4..=RECORD_LIMIT).contains(&size);
    good.then_some(size)
}

fn part(bytes: &[u8]) -> Part {
    if bytes.len() < 4 {
        return Part::Unfinished;
    }
    if let Some(size) = record(bytes, Kind::Memory) {
        return if size <= bytes.len() { Part::Setting(size) } else { Part::Unfinished };
    }
    let Some(before) = record(bytes, Kind::Before) else { return Part::Wrong };
    if bytes.len() < before + 4 {
        return Part::Unfinished;
    }
    match record(&bytes[before..], Kind::After) {
        None => Part::Wrong,
        Some(after) if before + after <= bytes.len() => Part::Call(before, before + after),
        Some(_) => Part::Unfinished,
    }
}

/// A call of a trace that is answered: its token, its inputs and its status.
struct Call<'a> {
    token: u32,
    before: &'a [u8],
    status: u32,
}

impl Call<'_> {
    /// Of one with the counts of its call.
    fn of<'a>(before: &'a [u8], after: &[u8]) -> Option<Call<'a>> {
        let token = word(before, 0)?;
        let (inputs, outputs) = match token {
            UPDATE_NODES | UPDATE_PROPERTIES => (2, 1),
            GET_INDICES => (5, 2),
            _ => return None,
        };
        let own = word(before, 4)? == inputs && word(before, 8)? == outputs;
        let status = word(after, 12 + 4 * inputs as usize)?;
        (own && status <= 1).then_some(Call { token, before, status })
    }

    fn input(&self, number: usize) -> u32 {
        word(self.before, 8 + 4 * number).unwrap_or_default()
    }

    fn scope(&self) -> i32 {
        self.input(2) as i32
    }

    /// The state that the call left at the head of its area, and which session it is of.
    fn head(&self, memory: &[u8]) -> (u32, Key) {
        let area = memory.get(self.input(1) as usize..).unwrap_or_default();
        let of = |at| word(area, at).unwrap_or_default();
        if self.token == UPDATE_PROPERTIES {
            return (of(4), Key::Properties { phandle: of(0) });
        }
        let unit = (self.scope() == 3).then(|| u64::from(of(4)) << 32 | u64::from(of(8)));
        (of(0), Key::Nodes { scope: self.scope(), unit })
    }
}

impl Watch {
    /// Feeds the replay these bytes, without a part at their end that is not finished, and gives how many were taken. Between
    /// calls that nothing has to be seen of, they are fed together.
    pub fn feed(&mut self, replay: &mut Replay<'_>, bytes: &[u8]) -> usize {
        let (mut fed, mut at) = (0, 0);
        loop {
            let next = match part(&bytes[at..]) {
                Part::Setting(size) => at + size,
                Part::Call(first, size) => {
                    let call = Call::of(&bytes[at + 4..at + first], &bytes[at + first + 4..at + size]);
                    self.calls += 1;
                    if call.is_some_and(|call| self.pass(&call, replay, &bytes[fed..at + size])) {
                        fed = at + size;
                    }
                    at + size
                }
                Part::Unfinished => break,
                Part::Wrong => {
                    at = bytes.len();
                    break;
                }
            };
            at = next;
        }
        replay.feed(&bytes[fed..at]);
        at
    }

    /// Notes what an answered call does to its session. If memory has to be seen for that, the bytes up to its end are fed,
    /// and it is true. A call that differs stops the replay, and then nothing is told of what is open.
    fn pass(&mut self, call: &Call<'_>, replay: &mut Replay<'_>, bytes: &[u8]) -> bool {
        if call.token == GET_INDICES {
            if call.status == 1 && call.input(5) == 1 {
                self.reading = self.calls;
            }
            return false;
        }
        let is_named = call.token == UPDATE_NODES && call.scope() != 3;
        if call.status == 0 && (is_named || self.sessions.is_empty()) {
            self.sessions.remove(&Key::Nodes { scope: call.scope(), unit: None });
            return false;
        }
        replay.feed(bytes);
        let (state, key) = call.head(replay.memory());
        let earlier = self.sessions.remove(&key);
        if call.status == 1 {
            let call = earlier.filter(|session| session.state < state).map_or(self.calls, |session| session.call);
            self.sessions.insert(key, Session { call, state });
        }
        true
    }

    /// A line for each session that is open at the end of a replay in which all calls agreed, in the order of their first
    /// calls.
    pub fn open(&self, replay: &Replay<'_>) -> Vec<String> {
        let mut open: Vec<(u64, String)> = self.sessions.iter().map(|(key, session)| tell(*key, session)).collect();
        let ReadingRecord { flag, type_number, starting_number, .. } = replay.reading();
        if replay.reading() != ReadingRecord::none() {
            let kind = if flag == 0 { "indicator" } else { "sensor" };
            let what = format!("a reading of get-indices, {kind} {type_number}, begun by call {}", self.reading);
            open.push((self.reading, format!("{what}, next Starting Number {starting_number}")));
        }
        open.sort();
        open.into_iter().map(|(_, line)| format!("open at the end: {line}")).collect()
    }
}

/// The first call of a session that is open, and what is told of it.
fn tell(key: Key, session: &Session) -> (u64, String) {
    let (what, progress) = match key {
        Key::Nodes { scope, unit } => {
            let unit = unit.map_or(String::new(), |unit| format!(", unit {unit:#018x}"));
            (format!("update-nodes, scope {scope}{unit}"), "the operations reported so far")
        }
        Key::Properties { phandle } => {
            (format!("update-properties, phandle {phandle:08x}"), "the journal offset that is due next")
        }
    };
    let Session { call, state } = session;
    (*call, format!("a session of {what}, since call {call}, state {state}, {progress}"))
}
