//! Feeds of replays that stand anywhere. One that no start or feed can give is refused, and then nothing changes; any
//! other one goes on as the paper's does.

use super::{replay_difference, Running};
use crate::buffers::record;
use crate::case::StateCase;
use crate::compare::Sides;
use crate::coverage::Coverage;

/// The first difference in the feed of a replay.
pub fn difference(sides: Sides, case: &StateCase, coverage: &mut Coverage) -> Option<String> {
    let [mut paper, mut tested] =
        [sides.paper, sides.tested].map(|subject| Running::new(subject, &case.given, case.replay));
    let before = tested.clone();
    if let Some(text) = end_difference(sides, &paper, &tested) {
        return Some(format!("before the feed {text}"));
    }
    let (told, fed) = (paper.feed(&case.burst), tested.feed(&case.burst));
    if told.number != fed.number {
        let numbers = format!("{}: {} ({})", sides.paper.name(), told.number, told.rule);
        return Some(format!("the feed differs\n  {numbers}\n  {}: {}\n", sides.tested.name(), fed.number));
    }
    coverage.state(case, told.number, told.rule, paper.end().report);
    if fed.number != 0 || before.stopped() {
        let changed = tested.changed(&before);
        return changed
            .map(|part| format!("a feed with number {} after a stop or a refusal changed {part}\n", fed.number));
    }
    replay_difference(sides, &paper, &tested, &not_done(case), case.replay.report.number)
}

/// What both sides tell of a trace that ends here.
fn end_difference(sides: Sides, paper: &Running, tested: &Running) -> Option<String> {
    let (told, other) = (paper.end(), tested.end());
    let (left, right) = (sides.paper.name(), sides.tested.name());
    (told != other).then(|| format!("the end differs\n  {left}: {told:?}\n  {right}: {other:?}\n"))
}

/// The trace from the 32 on that waits.
pub fn not_done(case: &StateCase) -> Vec<u8> {
    let held = &case.given.held[..case.replay.held as usize];
    match case.replay.waiting as usize {
        0 => [held, &case.burst].concat(),
        waiting => [&record(32, &case.given.args[..waiting - 1]), held, &case.burst].concat(),
    }
}
