//! A journal that is kept with its tallies (M-106), journals joined end to end (M-108), and forecasts from tallies (M-107).

pub mod case;
pub mod subject;

use crate::buffers::{arguments, put_word, word_at, Lent};
use crate::case::CallCase;
use crate::compare::{buffer_difference, run_call, Sides};
use crate::coverage::Coverage;
use crate::library::tallies::{Forecast, Kept, Tallied, Tallies};
use crate::library::{ReadingRecord, Registration};
use crate::subject::Subject;
use case::{Operation, TalliesCase};

/// A journal that is kept on one side.
pub struct Journal<'a> {
    subject: &'a dyn Subject,
    pub buffer: Lent,
    pub kept: Tallied,
}

impl<'a> Journal<'a> {
    pub fn new(subject: &'a dyn Subject, buffer: &[u8], kept: Tallied) -> Journal<'a> {
        Journal { subject, buffer: Lent::new(buffer), kept }
    }

    pub fn apply(&mut self, operation: &Operation) -> Kept {
        let (keeping, buffer) = (self.subject.keeping(), self.buffer.content_mut());
        let kept = match operation {
            Operation::Append(record) => keeping.append(buffer, &self.kept, record),
            Operation::Join(part) => keeping.join(buffer, &self.kept, part),
            Operation::Clear => Kept { number: 0, journal: keeping.cleared(), rule: "" },
            Operation::Overwrite(byte) => {
                let used = buffer.len().min(self.kept.used as usize);
                buffer[used..].fill(*byte);
                Kept { number: 0, journal: self.kept, rule: "" }
            }
        };
        self.kept = kept.journal;
        kept
    }

    /// The bytes in use, of a journal that is one.
    pub fn bytes(&self) -> &[u8] {
        &self.buffer.content()[..self.kept.used as usize]
    }
}

pub fn difference(sides: Sides, case: &TalliesCase, coverage: &mut Coverage) -> Option<String> {
    match case {
        TalliesCase::List { buffer, operations } => list_difference(sides, buffer, operations, coverage),
        TalliesCase::State { buffer, journal, operation } => {
            let [mut paper, mut tested] =
                [sides.paper, sides.tested].map(|subject| Journal::new(subject, buffer, *journal));
            operation_difference(sides, &mut paper, &mut tested, operation, coverage).err()
        }
        TalliesCase::Recount(journal) => recount_difference(sides, journal, coverage).err(),
        TalliesCase::Three { parts, room } => three_difference(sides, parts, *room, coverage),
        TalliesCase::Call { journal, scope, state } => call_difference(sides, journal, *scope, *state, coverage),
        TalliesCase::Forecast { tallies, scope, state } => {
            forecast_difference(sides, tallies, *scope, *state, coverage).err()
        }
    }
}

/// The first difference in a list of operations, and in which of them.
fn list_difference(sides: Sides, buffer: &[u8], operations: &[Operation], coverage: &mut Coverage) -> Option<String> {
    let [mut paper, mut tested] =
        [sides.paper, sides.tested].map(|subject| Journal::new(subject, buffer, subject.keeping().cleared()));
    let mut before: Option<(&Operation, u32)> = None;
    for (number, operation) in operations.iter().enumerate() {
        match operation_difference(sides, &mut paper, &mut tested, operation, coverage) {
            Err(text) => return Some(format!("operation {}, {}: {text}", number + 1, operation.name())),
            Ok(kept) => {
                coverage.kept_behind(before, operation, kept.number);
                before = Some((operation, kept.number));
            }
        }
    }
    recount_of_use_difference(&tested)
}

/// What one operation gives, where it is the same on both sides.
fn operation_difference(
    sides: Sides,
    paper: &mut Journal,
    tested: &mut Journal,
    operation: &Operation,
    coverage: &mut Coverage,
) -> Result<Kept, String> {
    let before = paper.kept;
    let (told, other) = (paper.apply(operation), tested.apply(operation));
    coverage.kept(operation, paper.buffer.content().len(), &before, &told);
    if (told.number, told.journal) != (other.number, other.journal) {
        let side = |subject: &dyn Subject, kept: &Kept| {
            format!("  {}: {} {}, {}\n", subject.name(), kept.number, kept.rule, kept.journal.text())
        };
        return Err(format!("what is kept differs\n{}{}", side(sides.paper, &told), side(sides.tested, &other)));
    }
    buffer_difference(sides, "the buffer", &paper.buffer, &tested.buffer).map_or(Ok(told), Err)
}

/// "appending, clearing and every later operation keep them equal to the recount", on the side under test alone.
fn recount_of_use_difference(tested: &Journal) -> Option<String> {
    let recount = tested.subject.keeping().recount(tested.bytes());
    let same = recount.number == 0 && recount.tallies == tested.kept.tallies;
    (!same).then(|| format!("the recount of the bytes in use is {recount:?}, and {} is kept\n", tested.kept.text()))
}

/// The tallies of a journal, where both sides count the same.
fn recount_difference(sides: Sides, journal: &[u8], coverage: &mut Coverage) -> Result<Option<Tallies>, String> {
    let [told, other] = [sides.paper, sides.tested].map(|subject| subject.keeping().recount(journal));
    coverage.recount(journal, &told);
    if told != other {
        let (left, right) = (sides.paper.name(), sides.tested.name());
        return Err(format!("the recount differs\n  {left}: {told:?}\n  {right}: {other:?}\n"));
    }
    Ok((told.number == 0).then_some(told.tallies))
}

/// Joins a, b and c one after the other, and the join of b and c to a: where both are done, they leave the same.
fn three_difference(sides: Sides, parts: &[Vec<u8>; 3], room: usize, coverage: &mut Coverage) -> Option<String> {
    let buffer = vec![0x5a; room];
    let [mut paper, mut left] =
        [sides.paper, sides.tested].map(|subject| Journal::new(subject, &buffer, Tallied::EMPTY));
    for part in parts {
        let operation = Operation::Join(part.clone());
        if let Err(text) = operation_difference(sides, &mut paper, &mut left, &operation, coverage) {
            return Some(text);
        }
    }
    let [mut right, mut behind] = [(); 2].map(|()| Journal::new(sides.tested, &buffer, Tallied::EMPTY));
    let numbers = [&parts[1], &parts[2]].map(|part| behind.apply(&Operation::Join(part.clone())).number);
    let first = right.apply(&Operation::Join(parts[0].clone())).number;
    let last = right.apply(&Operation::Join(behind.bytes().to_vec())).number;
    let done = [numbers[0], numbers[1], first, last] == [0; 4];
    coverage.joined_both_ways(parts, done);
    if done && (left.kept != right.kept || left.buffer != right.buffer) {
        return Some(format!("joined both ways: {} and {}\n", left.kept.text(), right.kept.text()));
    }
    lists_difference(sides, parts, &left, done)
}

/// "for each scope and opcode the list of the joined journal is the first's list followed by the second's", as
/// update-nodes hands them out, where an area holds each of them.
fn lists_difference(sides: Sides, parts: &[Vec<u8>; 3], joined: &Journal, done: bool) -> Option<String> {
    if !done || joined.kept.used > 4000 {
        return None;
    }
    for scope in [0xffff_ffff, 1, 2] {
        let whole = handed_out(sides.tested, joined.bytes(), scope);
        let lists = [0, 1, 2].map(|place| handed_out(sides.tested, &parts[place], scope));
        let of = |list: &[[u32; 3]], opcode: u32| -> Vec<[u32; 3]> {
            list.iter().copied().filter(|operation| operation[0] == opcode).collect()
        };
        for opcode in 1..=3 {
            if of(&whole, opcode) != lists.iter().flat_map(|list| of(list, opcode)).collect::<Vec<_>>() {
                return Some(format!("the lists of opcode {opcode} in scope {scope:#x} do not follow each other\n"));
            }
        }
    }
    None
}

/// The operations of the first area of a session.
fn handed_out(subject: &dyn Subject, journal: &[u8], scope: u32) -> Vec<[u32; 3]> {
    let result = run_call(subject, &update_nodes(journal, scope, 0));
    let mut out = vec![0; 3 * 1018];
    let reading = subject.read_nodes(result.memory.content(), scope, &mut out);
    out.chunks_exact(3).take(reading.entries as usize).map(|entry| [entry[0], entry[1], entry[2]]).collect()
}

/// A call over an area that begins with this state and twelve zero bytes.
fn update_nodes(journal: &[u8], scope: u32, state: u32) -> CallCase {
    let mut memory = vec![0; 4096];
    put_word(&mut memory, 0, state);
    CallCase {
        args: arguments(1, &[0, scope], &[0x5555_5555]),
        memory,
        journal: journal.to_vec(),
        inventory: Vec::new(),
        edition: 0,
        registration: Registration { phase: 0, length: 0, copy: [0; 512] },
        reading: ReadingRecord::NONE,
    }
}

/// The status that the call gives, and the state that it writes; 0 where it is refused.
fn call_answer(subject: &dyn Subject, journal: &[u8], scope: u32, state: u32) -> Forecast {
    let result = run_call(subject, &update_nodes(journal, scope, state));
    let next = if result.answered() { word_at(result.memory.content(), 0).unwrap_or(0) } else { 0 };
    Forecast { status: result.status().unwrap_or(0) as u32, next: u64::from(next) }
}

/// The recount of a journal, its forecast, and the call of the side under test, which has to answer so; in scope 3 the
/// forecast is -3 whatever the call answers.
fn call_difference(sides: Sides, journal: &[u8], scope: u32, state: u32, coverage: &mut Coverage) -> Option<String> {
    let tallies = match recount_difference(sides, journal, coverage) {
        Ok(tallies) => tallies?,
        Err(text) => return Some(text),
    };
    let told = match forecast_difference(sides, &tallies, scope, state, coverage) {
        Ok(told) => told,
        Err(text) => return Some(text),
    };
    let call = call_answer(sides.tested, journal, scope, state);
    let expected = if scope == 3 { Forecast { status: -3_i32 as u32, next: 0 } } else { call };
    coverage.forecast_of_call(scope, &call);
    (told != expected).then(|| format!("the call answers {call:?}, and the forecast is {told:?}\n"))
}

/// A forecast, where both sides tell the same.
fn forecast_difference(
    sides: Sides,
    tallies: &Tallies,
    scope: u32,
    state: u32,
    coverage: &mut Coverage,
) -> Result<Forecast, String> {
    let [told, other] = [sides.paper, sides.tested].map(|subject| subject.keeping().forecast(tallies, scope, state));
    coverage.forecast(tallies, scope, state, &told);
    if told != other {
        let (left, right) = (sides.paper.name(), sides.tested.name());
        return Err(format!("the forecast differs\n  {left}: {told:?}\n  {right}: {other:?}\n"));
    }
    Ok(told)
}
