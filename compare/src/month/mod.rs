//! The month (M-111): traces that are replayed and counted, totals that they are added to, totals that are merged, and
//! shares. The paper replays a whole trace at once, as beside a replay alone.

pub mod case;
pub mod subject;

use crate::case::{Given, StateCase, TraceCase};
use crate::compare::Sides;
use crate::coverage::Coverage;
use crate::library::month::{Added, Counted, Counting, Counts, Totals};
use crate::paper::replay::LAST_NUMBER;
use crate::replay::{self, bursts, replay_difference, Running};
use crate::subject::Subject;
use case::MonthCase;

/// A replay under way on one side, with its counts.
#[derive(Clone)]
pub struct Tallied<'a> {
    running: Running<'a>,
    counts: Counts,
}

impl<'a> Tallied<'a> {
    pub fn new(subject: &'a dyn Subject, given: &'a Given, counting: Counting) -> Tallied<'a> {
        Tallied { running: Running::new(subject, given, counting.replay), counts: counting.counts }
    }

    pub fn feed(&mut self, bytes: &[u8]) -> Counted {
        let (month, counting) = (self.running.subject.month(), self.counting());
        let counted = month.feed(self.running.lend(), &counting, bytes);
        self.running.replay = counted.counting.replay;
        self.counts = counted.counting.counts;
        counted
    }

    pub fn add(&self, totals: &Totals) -> Added {
        self.running.subject.month().add(totals, &self.counting())
    }

    pub fn counting(&self) -> Counting {
        Counting { replay: self.running.replay, counts: self.counts }
    }

    /// What is not as it was before.
    pub fn changed(&self, before: &Tallied) -> Option<&'static str> {
        let counts = (self.counts != before.counts).then_some("the counts");
        counts.or_else(|| self.running.changed(&before.running))
    }
}

/// The first difference in a case of the month.
pub fn difference(sides: Sides, case: &MonthCase, coverage: &mut Coverage) -> Option<String> {
    match case {
        MonthCase::Trace { case, totals } => trace_difference(sides, case, totals, coverage).err(),
        MonthCase::State { case, counts, totals } => state_difference(sides, case, counts, totals, coverage).err(),
        MonthCase::Merge { totals, more } => merge_difference(sides, totals, more, coverage),
        MonthCase::Share(totals) => share_difference(sides, totals, coverage),
    }
}

/// Feeds the side under test in bursts; it has to stand where the paper does, and to add to the totals what the paper adds.
fn trace_difference(sides: Sides, case: &TraceCase, totals: &Totals, coverage: &mut Coverage) -> Result<(), String> {
    let start = sides.paper.month().start(case.edition);
    let mut tested = Tallied::new(sides.tested, &case.given, sides.tested.month().start(case.edition));
    if tested.counting() != start {
        return Err(format!("the start differs\n  {:?}\n  {:?}\n", start, tested.counting()));
    }
    let mut stop: Option<Tallied> = None;
    for (burst, to) in bursts(case) {
        let counted = tested.feed(&case.trace[to - burst.length..to]);
        if counted.number != 0 {
            return Err(format!("a counted replay got {} for the burst up to byte {to}\n", counted.number));
        }
        if tested.running.stopped() && stop.is_none() {
            stop = Some(tested.clone());
        }
        if burst.end {
            let mut paper = Tallied::new(sides.paper, &case.given, start);
            paper.feed(&case.trace[..to]);
            let told = |text| format!("after {to} of {} bytes of the trace\n{text}", case.trace.len());
            standing_difference(sides, &paper, &tested, &case.trace, 0).map_or(Ok(()), Err).map_err(told)?;
            let added = add_difference(sides, &paper, &tested, totals).map_err(told)?;
            coverage.month_trace(case, &paper.counts, totals, &added, to == case.trace.len());
        }
    }
    match stop.and_then(|stop| tested.changed(&stop)) {
        Some(part) => Err(format!("a burst after the stop changed {part}\n")),
        None => Ok(()),
    }
}

/// The first difference between two replays that stand behind the same bytes: in any field, in what they hold, in memory,
/// or in the counts. The trace is the one behind so many calls.
fn standing_difference(sides: Sides, paper: &Tallied, tested: &Tallied, trace: &[u8], calls: u64) -> Option<String> {
    if paper.counts != tested.counts {
        return Some(format!("the counts differ\n  {}\n  {}\n", paper.counts.text(), tested.counts.text()));
    }
    let (left, right) = (&paper.running, &tested.running);
    replay_difference(sides, left, right, trace, calls).or_else(|| {
        let apart = left.replay != right.replay || left.held_bytes() != right.held_bytes();
        // Bytes behind the last record may be held, or be malformed at once: the end is the same.
        (apart && left.replay.records < LAST_NUMBER)
            .then(|| format!("the replays stand apart\n  {}\n  {}\n", left.replay.text(), right.replay.text()))
    })
}

/// What both sides tell of a trace that ends here and is added to totals.
fn add_difference(sides: Sides, paper: &Tallied, tested: &Tallied, totals: &Totals) -> Result<Added, String> {
    let (told, other) = (paper.add(totals), tested.add(totals));
    if (told.number, told.report, told.totals) == (other.number, other.report, other.totals) {
        return Ok(told);
    }
    let side = |subject: &dyn Subject, added: &Added| {
        format!("  {}: {}, {:?}, {}\n", subject.name(), added.number, added.report, added.totals.text())
    };
    Err(format!("adding differs\n{}{}", side(sides.paper, &told), side(sides.tested, &other)))
}

/// A feed of a replay that stands anywhere. One that is refused changes nothing.
fn state_difference(
    sides: Sides,
    case: &StateCase,
    counts: &Counts,
    totals: &Totals,
    coverage: &mut Coverage,
) -> Result<(), String> {
    let counting = Counting { replay: case.replay, counts: *counts };
    let [mut paper, mut tested] =
        [sides.paper, sides.tested].map(|subject| Tallied::new(subject, &case.given, counting));
    let before = tested.clone();
    let added = add_difference(sides, &paper, &tested, totals).map_err(|text| format!("before the feed {text}"))?;
    let (told, fed) = (paper.feed(&case.burst), tested.feed(&case.burst));
    if told.number != fed.number {
        let numbers = format!("{}: {} ({})", sides.paper.name(), told.number, told.rule);
        return Err(format!("the counted feed differs\n  {numbers}\n  {}: {}\n", sides.tested.name(), fed.number));
    }
    coverage.month_state(&counting, &told, totals, &added);
    if fed.number != 0 || before.running.stopped() {
        let changed = tested.changed(&before);
        return changed.map_or(Ok(()), |part| Err(format!("a feed with number {} changed {part}\n", fed.number)));
    }
    let not_done = replay::states::not_done(case);
    standing_difference(sides, &paper, &tested, &not_done, case.replay.report.number).map_or(Ok(()), Err)?;
    add_difference(sides, &paper, &tested, totals).map(|_| ())
}

fn merge_difference(sides: Sides, totals: &Totals, more: &Totals, coverage: &mut Coverage) -> Option<String> {
    let [told, other] = [sides.paper, sides.tested].map(|subject| subject.month().merge(totals, more));
    coverage.month_merge(totals, more, &told);
    let same = (told.number, told.totals) == (other.number, other.totals);
    let [left, right] = [&told, &other].map(|merged| format!("{}, {}", merged.number, merged.totals.text()));
    (!same).then(|| format!("merging differs\n  {}: {left}\n  {}: {right}\n", sides.paper.name(), sides.tested.name()))
}

fn share_difference(sides: Sides, totals: &Totals, coverage: &mut Coverage) -> Option<String> {
    let [told, other] = [sides.paper, sides.tested].map(|subject| subject.month().share(totals));
    coverage.month_share(totals, &told);
    let (left, right) = (sides.paper.name(), sides.tested.name());
    (told != other).then(|| format!("the share differs\n  {left}: {told:?}\n  {right}: {other:?}\n"))
}
