//! Replays of traces (M-110). The paper replays the whole trace at once; the side under test is fed it in bursts, and
//! after the last of them, and after some between, it has to stand where the paper's replay of the bytes so far does.

pub mod states;

use crate::buffers::{record_places, Lent};
use crate::case::{Burst, Given, TraceCase};
use crate::compare::{buffer_difference, reading_difference, registration_difference, Sides};
use crate::coverage::Coverage;
use crate::library::{Replay, Report};
use crate::subject::{Ended, Fed, Feeding, Subject};

/// A replay under way on one side.
#[derive(Clone)]
pub struct Running<'a> {
    pub subject: &'a dyn Subject,
    given: &'a Given,
    held: Lent,
    pub args: Lent,
    pub memory: Lent,
    pub replay: Replay,
}

impl<'a> Running<'a> {
    pub fn new(subject: &'a dyn Subject, given: &'a Given, replay: Replay) -> Running<'a> {
        let [held, args, memory] = [&given.held, &given.args, &given.memory].map(|bytes| Lent::new(bytes));
        Running { subject, given, held, args, memory, replay }
    }

    /// What a feed is given beside the replay.
    pub fn lend(&mut self) -> Feeding<'_> {
        Feeding {
            held: self.held.content_mut(),
            args: self.args.content_mut(),
            memory: self.memory.content_mut(),
            journal: &self.given.journal,
            inventory: &self.given.inventory,
        }
    }

    pub fn feed(&mut self, bytes: &[u8]) -> Fed {
        let (subject, replay) = (self.subject, self.replay);
        let fed = subject.replay_feed(self.lend(), &replay, bytes);
        self.replay = fed.replay;
        fed
    }

    pub fn end(&self) -> Ended {
        self.subject.replay_end(&self.replay)
    }

    /// A difference or a malformed record has stopped it.
    pub fn stopped(&self) -> bool {
        self.replay.report.verdict != 0
    }

    /// The bytes of a record that is not finished.
    pub fn held_bytes(&self) -> &[u8] {
        &self.held.content()[..self.replay.held as usize]
    }

    /// What is not as it was before.
    pub fn changed(&self, before: &Running) -> Option<&'static str> {
        let parts = [
            (self.replay != before.replay, "the replay"),
            (self.held != before.held, "held"),
            (self.args != before.args, "args"),
            (self.memory != before.memory, "memory"),
        ];
        parts.into_iter().find(|part| part.0).map(|part| part.1)
    }
}

/// The first difference in the replay of a trace.
pub fn difference(sides: Sides, case: &TraceCase, coverage: &mut Coverage) -> Option<String> {
    match run(sides, case) {
        Ok(report) => {
            coverage.trace(case, report);
            None
        }
        Err(text) => Some(text),
    }
}

/// The bursts as they are fed, with the bytes that are fed behind each: all of the trace.
pub fn bursts(case: &TraceCase) -> Vec<(Burst, usize)> {
    let mut at = 0;
    let mut bursts = Vec::new();
    for burst in &case.bursts {
        let length = burst.length.min(case.trace.len() - at);
        at += length;
        bursts.push((Burst { length, ..*burst }, at));
    }
    bursts.push((Burst { length: case.trace.len() - at, end: true }, case.trace.len()));
    bursts
}

/// Feeds the side under test; gives the report, on which the sides have to agree.
fn run(sides: Sides, case: &TraceCase) -> Result<Report, String> {
    let start = sides.paper.replay_start(case.edition);
    let mut tested = Running::new(sides.tested, &case.given, sides.tested.replay_start(case.edition));
    if tested.replay != start {
        return Err(format!("the start differs\n  paper: {}\n  tested: {}\n", start.text(), tested.replay.text()));
    }
    let mut stop: Option<Running> = None;
    for (burst, to) in bursts(case) {
        let fed = tested.feed(&case.trace[to - burst.length..to]);
        if fed.number != 0 {
            return Err(format!("a replay got {} for the burst up to byte {to}: {}\n", fed.number, fed.replay.text()));
        }
        if tested.stopped() && stop.is_none() {
            stop = Some(tested.clone());
        }
        if burst.end {
            judge(sides, case, start, &tested, to)?;
        }
    }
    match stop.and_then(|stop| tested.changed(&stop)) {
        Some(part) => Err(format!("a burst after the stop changed {part}\n")),
        None => Ok(tested.end().report),
    }
}

/// Holds the side under test to the paper's replay of as many bytes of the trace.
fn judge(sides: Sides, case: &TraceCase, start: Replay, tested: &Running, bytes: usize) -> Result<(), String> {
    let mut paper = Running::new(sides.paper, &case.given, start);
    paper.feed(&case.trace[..bytes]);
    match replay_difference(sides, &paper, tested, &case.trace, 0) {
        Some(text) => Err(format!("after {bytes} of {} bytes of the trace\n{text}", case.trace.len())),
        None => Ok(()),
    }
}

/// The first difference between two replays that stand behind the same bytes. The trace is the one behind so many calls.
pub fn replay_difference(sides: Sides, paper: &Running, tested: &Running, trace: &[u8], calls: u64) -> Option<String> {
    let (told, other) = (paper.end(), tested.end());
    if told != other {
        let (paper_name, tested_name) = (sides.paper.name(), sides.tested.name());
        return Some(format!("the end differs\n  {paper_name}: {told:?}\n  {tested_name}: {other:?}\n"));
    }
    let (left, right) = (&paper.replay, &tested.replay);
    if (left.records, left.waiting, left.edition) != (right.records, right.waiting, right.edition) {
        return Some(format!("the replays stand apart\n  {}\n  {}\n", left.text(), right.text()));
    }
    if !tested.held.is_guarded() || !tested.args.is_guarded() {
        return Some(String::from("a guard byte outside held or args differs\n"));
    }
    let ours = if told.report.verdict == 1 { buffer_of_call(trace, told.report.number - calls) } else { 0 };
    buffer_difference(sides, "memory", &paper.memory, &tested.memory)
        .or_else(|| registration_difference(sides, &left.registration, &right.registration))
        .or_else(|| reading_difference(sides, &left.reading, &right.reading))
        .or_else(|| buffer_difference(sides, "our buffer", &paper.args.front(ours), &tested.args.front(ours)))
}

/// The size of the argument buffer of a call that a trace, good as far, has; calls count from 1.
fn buffer_of_call(trace: &[u8], call: u64) -> usize {
    let mut sizes = record_places(trace).into_iter().filter(|place| trace[place.0..].get(2) == Some(&32));
    sizes.nth(call as usize - 1).map_or(0, |(from, to)| to - from - 4)
}
