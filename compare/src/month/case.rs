//! The cases of the month.

use crate::case::{StateCase, TraceCase};
use crate::library::month::{Counts, Totals};

#[derive(Clone)]
#[allow(clippy::large_enum_variant)]
pub enum MonthCase {
    /// A trace, replayed in bursts and counted, that is added to these totals.
    Trace { case: TraceCase, totals: Totals },
    /// One feed of a replay that stands anywhere, with any counts. It is added to these totals before and behind the feed.
    State { case: StateCase, counts: Counts, totals: Totals },
    /// Totals that get those of other traces.
    Merge { totals: Totals, more: Totals },
    /// The share of these totals.
    Share(Totals),
}

impl MonthCase {
    pub fn text(&self) -> String {
        match self {
            MonthCase::Trace { case, totals } => format!("counted {}  {}\n", case.text(), totals.text()),
            MonthCase::State { case, counts, totals } => {
                format!("counted {}  {}\n  {}\n", case.text(), counts.text(), totals.text())
            }
            MonthCase::Merge { totals, more } => format!("merging\n  {}\n  {}\n", totals.text(), more.text()),
            MonthCase::Share(totals) => format!("the share of\n  {}\n", totals.text()),
        }
    }

    /// All figures of the case.
    pub fn figures_mut(&mut self) -> Vec<&mut u64> {
        match self {
            MonthCase::Trace { totals, .. } | MonthCase::Share(totals) => totals.figures_mut().collect(),
            MonthCase::State { counts, totals, .. } => counts.figures_mut().chain(totals.figures_mut()).collect(),
            MonthCase::Merge { totals, more } => totals.figures_mut().chain(more.figures_mut()).collect(),
        }
    }
}

impl Counts {
    pub fn text(&self) -> String {
        let Counts { calls, operations, used } = self;
        format!("counts: calls {calls:?}, operations {operations}, used {used}")
    }

    fn figures_mut(&mut self) -> impl Iterator<Item = &mut u64> {
        let Counts { calls, operations, used } = self;
        calls.iter_mut().flatten().chain([operations, used])
    }
}

impl Totals {
    pub fn text(&self) -> String {
        let Totals { calls, token_calls, operations, used, available } = self;
        let tokens = format!("of the tokens {token_calls:?}");
        format!("totals: calls {calls:?}, {tokens}, operations {operations}, used {used}, available {available}")
    }

    fn figures_mut(&mut self) -> impl Iterator<Item = &mut u64> {
        let Totals { calls, token_calls, operations, used, available } = self;
        calls.iter_mut().flatten().chain(token_calls).chain([operations, used, available])
    }
}
