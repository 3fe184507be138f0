//! What traces added to totals, which counts were refused, and what merges and shares came to (M-111).

use super::Line;
use crate::buffers::{record_places, word_at};
use crate::case::TraceCase;
use crate::library::month::{Added, Counted, Counting, Counts, Merged, Share, Totals};
use crate::library::Replay;

/// The words of an answered call.
const WORDS: u128 = 1019;

/// What adding came to, of a whole trace or in the middle of one.
pub const ADDED: [&str; 8] = [
    "added",
    "16: differs",
    "16: malformed",
    "17: past 2^64 - 1",
    "in the middle, added",
    "in the middle, 16: differs",
    "in the middle, 16: malformed",
    "in the middle, 17: past 2^64 - 1",
];

pub fn added_row(added: &Added, whole: bool) -> &'static str {
    let row = match added.rule {
        "" => 0,
        "differs" => 1,
        "malformed" => 2,
        _ => 3,
    };
    ADDED[row + if whole { 0 } else { 4 }]
}

/// A trace that ends, with its counts, the totals that it is added to, and what came of it.
pub struct Facts {
    calls: Vec<Vec<u8>>,
    counts: Counts,
    before: Totals,
    number: u32,
    totals: Totals,
}

pub fn facts(case: &TraceCase, counts: &Counts, before: &Totals, added: &Added) -> Facts {
    let records = record_places(&case.trace).into_iter().map(|(from, to)| &case.trace[from..to]);
    let calls =
        records.filter(|record| record.len() >= 4 && record[2] == 32).map(|record| record[4..].to_vec()).collect();
    Facts { calls, counts: *counts, before: *before, number: added.number, totals: added.totals }
}

impl Facts {
    /// A trace that was added, of whose counts this holds.
    fn added(&self, holds: impl Fn(&Counts) -> bool) -> bool {
        self.number == 0 && holds(&self.counts)
    }

    /// A trace that was added, with a call of number 0 whose token and counts of inputs and outputs are such.
    fn called(&self, holds: impl Fn(u32, [u32; 2]) -> bool) -> bool {
        self.number == 0 && self.calls.iter().any(|args| has_number_0(args).is_some_and(|told| holds(told.0, told.1)))
    }

    /// Refused, and the first figure without room is one of these.
    fn first_past(&self, place: std::ops::Range<usize>) -> bool {
        let mut figures = self.before.figures().into_iter().zip(of_counts(&self.counts));
        let first = figures.position(|(one, more)| u128::from(one) + more > LARGEST);
        self.number == 17 && first.is_some_and(|first| place.contains(&first))
    }
}

const LARGEST: u128 = u64::MAX as u128;

/// Token, inputs and outputs of a call with number 0.
fn has_number_0(args: &[u8]) -> Option<(u32, [u32; 2])> {
    let [token, inputs, outputs] = [word_at(args, 0)?, word_at(args, 4)?, word_at(args, 8)?];
    let whole = args.len() >= 12 + 4 * (inputs as usize + outputs as usize);
    (inputs <= 16 && (1..=16).contains(&outputs) && whole).then_some((token, [inputs, outputs]))
}

fn of_counts(counts: &Counts) -> [u128; 35] {
    let mut figures = [0; 35];
    let wide = counts.calls.map(|rows| rows.map(u128::from));
    wide.iter().flatten().enumerate().for_each(|(place, &row)| figures[place] = row);
    wide.iter().enumerate().for_each(|(token, rows)| figures[28 + token] = rows.iter().sum());
    figures[32] = u128::from(counts.operations);
    figures[33] = u128::from(counts.used);
    figures[34] = WORDS * (wide[0][0] + wide[0][1]);
    figures
}

/// The inputs and outputs of the tokens 1 to 4.
const OWN: [[u32; 2]; 4] = [[2, 1], [5, 2], [3, 1], [2, 1]];

pub const LINES: &[Line<Facts>] = &[
    ("a trace without a call, added", |f| f.calls.is_empty() && f.number == 0),
    ("calls and none of them counted, added", |f| !f.calls.is_empty() && f.added(|counts| *counts == Counts::NONE)),
    ("update-nodes, status 0", |f| f.added(|counts| counts.calls[0][0] > 0)),
    ("update-nodes, status 1", |f| f.added(|counts| counts.calls[0][1] > 0)),
    ("update-nodes, status -1", |f| f.added(|counts| counts.calls[0][2] > 0)),
    ("update-nodes, status -3", |f| f.added(|counts| counts.calls[0][3] > 0)),
    ("get-indices, status 0", |f| f.added(|counts| counts.calls[1][0] > 0)),
    ("get-indices, status 1", |f| f.added(|counts| counts.calls[1][1] > 0)),
    ("get-indices, status -1", |f| f.added(|counts| counts.calls[1][2] > 0)),
    ("get-indices, status -3", |f| f.added(|counts| counts.calls[1][3] > 0)),
    ("configure-kernel-dump, status 0", |f| f.added(|counts| counts.calls[2][0] > 0)),
    ("configure-kernel-dump, status -3", |f| f.added(|counts| counts.calls[2][3] > 0)),
    ("configure-kernel-dump, status -9", |f| f.added(|counts| counts.calls[2][5] > 0)),
    ("update-properties, status 0", |f| f.added(|counts| counts.calls[3][0] > 0)),
    ("update-properties, status 1", |f| f.added(|counts| counts.calls[3][1] > 0)),
    ("update-properties, status -1", |f| f.added(|counts| counts.calls[3][2] > 0)),
    ("update-properties, status -3", |f| f.added(|counts| counts.calls[3][3] > 0)),
    ("answered, and nothing handed out", |f| f.added(|c| c.calls[0][0] > 0 && c.used == 0)),
    ("an area filled, 1,019 words", |f| f.added(|c| c.calls[0][1] > 0 && u128::from(c.used) >= WORDS)),
    ("operations and refused calls of update-nodes", |f| f.added(|c| c.operations > 0 && c.calls[0][3] > 0)),
    ("counts unlike the call's own", |f| f.called(|t, counts| (1..=4).contains(&t) && OWN[t as usize - 1] != counts)),
    ("a call of token 0", |f| f.called(|token, _| token == 0)),
    ("a call of token 5", |f| f.called(|token, _| token == 5)),
    ("to 2^64 - 1 exactly", |f| f.number == 0 && f.comes_to_the_limit()),
    ("past it, a status of a token", |f| f.first_past(0..28)),
    ("past it, the calls of a token", |f| f.first_past(28..32)),
    ("past it, the operations", |f| f.first_past(32..33)),
    ("past it, the words used", |f| f.first_past(33..34)),
    ("past it, the words available", |f| f.first_past(34..35)),
    ("16, where 17 was due too", |f| f.number == 16 && f.any_past()),
];

impl Facts {
    fn any_past(&self) -> bool {
        past(&self.before.figures(), &of_counts(&self.counts))
    }

    /// A figure is 2^64 - 1 that was less before.
    fn comes_to_the_limit(&self) -> bool {
        let mut figures = self.before.figures().into_iter().zip(self.totals.figures());
        figures.any(|(before, now)| before < now && now == u64::MAX)
    }
}

fn past(figures: &[u64; 35], more: &[u128; 35]) -> bool {
    figures.iter().zip(more).any(|(&one, more)| u128::from(one) + more > LARGEST)
}

/// What the feed of a replay with counts came to.
pub const STATES: [&str; 7] = [
    "taken",
    "15",
    "14 by the replay",
    "more calls counted than made",
    "more operations counted than words",
    "more words counted than available",
    "taken, after a stop",
];

pub fn state_row(counting: &Counting, told: &Counted) -> &'static str {
    let rules = STATES.into_iter().find(|&row| row == told.rule);
    match (told.number, rules) {
        (0, _) => STATES[if counting.replay.report.verdict == 0 { 0 } else { 6 }],
        (15, _) => STATES[1],
        (_, Some(rule)) => rule,
        _ => STATES[2],
    }
}

/// A replay with its counts, the number of its feed, and the totals that it was added to.
pub struct StateFacts {
    replay: Replay,
    counts: Counts,
    number: u32,
    rule: &'static str,
    adding: u32,
    past: bool,
}

pub fn state_facts(counting: &Counting, told: &Counted, before: &Totals, added: &Added) -> StateFacts {
    let Counting { replay, counts } = *counting;
    let past = past(&before.figures(), &of_counts(&counts));
    StateFacts { replay, counts, number: told.number, rule: told.rule, adding: added.number, past }
}

impl StateFacts {
    fn calls(&self) -> u128 {
        self.counts.calls.iter().flatten().map(|&row| u128::from(row)).sum()
    }

    fn available(&self) -> u128 {
        of_counts(&self.counts)[34]
    }

    /// The counted calls are as many as the report tells, and so many more.
    fn at_number(&self, verdict: u32, more: u128) -> bool {
        let report = self.replay.report;
        report.verdict == verdict && report.number > 0 && self.calls() == u128::from(report.number) + more
    }

    /// The counted calls take all records but for so many.
    fn at_records(&self, waits: bool, records: u128) -> bool {
        let taken = 2 * self.calls() + u128::from(waits);
        let Replay { report, waiting, .. } = self.replay;
        report.verdict == 2
            && waits == (waiting > 0)
            && self.calls() > 0
            && taken == u128::from(self.replay.records) + records
    }

    fn refused_by(&self, rule: &str) -> bool {
        self.rule == rule
    }
}

const TOO_MANY: &str = "more calls counted than made";

pub const STATE_LINES: &[Line<StateFacts>] = &[
    ("agreed, as many calls as made, taken", |f| f.number == 0 && f.at_number(0, 0)),
    ("agreed, one call more, refused", |f| f.refused_by(TOO_MANY) && f.at_number(0, 1)),
    ("differs, as many calls as made, taken", |f| f.number == 0 && f.at_number(1, 0)),
    ("differs, one call more, refused", |f| f.refused_by(TOO_MANY) && f.at_number(1, 1)),
    ("malformed, as many calls as records, taken", |f| f.number == 0 && f.at_records(false, 0)),
    ("malformed, one record too few, refused", |f| f.refused_by(TOO_MANY) && f.at_records(false, 1)),
    ("malformed, a 32 waits, as many calls as records, taken", |f| f.number == 0 && f.at_records(true, 0)),
    ("malformed, a 32 waits, one record too few, refused", |f| f.refused_by(TOO_MANY) && f.at_records(true, 1)),
    ("calls whose sum is above 2^64 - 1", |f| f.refused_by(TOO_MANY) && f.calls() > LARGEST),
    ("operations = words used, taken", |f| f.number == 0 && f.counts.used > 0 && f.counts.operations == f.counts.used),
    ("an operation more, refused", |f| {
        f.refused_by("more operations counted than words") && f.counts.operations == f.counts.used + 1
    }),
    ("words used = words available, taken", |f| {
        f.number == 0 && f.counts.used > 0 && u128::from(f.counts.used) == f.available()
    }),
    ("a word more, refused", |f| {
        f.refused_by("more words counted than available") && u128::from(f.counts.used) == f.available() + 1
    }),
    ("both 15 and 14 by the counts due", |f| f.number == 15 && f.counts.operations > f.counts.used),
    ("adding, 14 where 17 was due too", |f| f.adding == 14 && f.past),
    ("adding, 16 where 17 was due too", |f| f.adding == 16 && f.past),
    ("adding, 17", |f| f.adding == 17),
    ("adding, 0", |f| f.adding == 0),
];

pub const MERGES: [&str; 6] = [
    "merged",
    "18: calls of a token",
    "18: words available",
    "18: operations above the words used",
    "18: words used above those available",
    "17: past 2^64 - 1",
];

pub fn merge_row(merged: &Merged) -> &'static str {
    let named = MERGES.into_iter().find(|row| row.split_once(": ").is_some_and(|(_, rule)| rule == merged.rule));
    named.unwrap_or(MERGES[0])
}

pub struct MergeFacts {
    given: [Totals; 2],
    number: u32,
    totals: Totals,
}

pub fn merge_facts(totals: &Totals, more: &Totals, merged: &Merged) -> MergeFacts {
    MergeFacts { given: [*totals, *more], number: merged.number, totals: merged.totals }
}

impl MergeFacts {
    fn past(&self, place: std::ops::Range<usize>) -> bool {
        let [one, more] = self.given.map(|totals| totals.figures());
        let (one, more) = (&one[place.clone()], &more[place]);
        one.iter().zip(more).any(|(one, more)| one.checked_add(*more).is_none())
    }

    /// Refused by the totals that are added, of which this holds.
    fn other(&self, holds: impl Fn(&Totals) -> bool) -> bool {
        self.number == 18 && holds(&self.given[1])
    }
}

fn of_token(totals: &Totals, token: usize) -> u128 {
    totals.calls[token].iter().map(|&row| u128::from(row)).sum()
}

fn available(totals: &Totals) -> u128 {
    WORDS * (u128::from(totals.calls[0][0]) + u128::from(totals.calls[0][1]))
}

/// The calls of a token hold in 64 bits alone.
fn tokens_wrap(totals: &Totals) -> bool {
    (0..4).any(|token| of_token(totals, token) > LARGEST && of_token(totals, token) as u64 == totals.token_calls[token])
}

pub const MERGE_LINES: &[Line<MergeFacts>] = &[
    ("two times no trace", |f| f.given == [Totals::NONE; 2]),
    ("merged, all three figures of update-nodes alike", |f| {
        f.number == 0
            && f.totals.used > 0
            && f.totals.operations == f.totals.used
            && f.totals.used == f.totals.available
    }),
    ("merged, the calls of a token to 2^64 - 1", |f| f.number == 0 && f.totals.token_calls.contains(&u64::MAX)),
    ("merged, the largest number of words available", |f| f.number == 0 && u64::MAX - f.totals.available < 1019),
    ("17, the words available alone", |f| f.number == 17 && f.past(34..35) && !f.past(0..33)),
    ("17, the calls of a token and no words", |f| f.number == 17 && f.past(28..32) && !f.past(32..35)),
    ("17, the calls of a token and none of its statuses", |f| f.number == 17 && f.past(28..32) && !f.past(0..28)),
    ("18, where 17 was due too", |f| f.number == 18 && f.past(0..35)),
    ("merged, to totals that no traces have", |f| f.number == 0 && f.given[0].operations > f.given[0].used),
    ("18, an operation above the words used", |f| f.other(|t| t.used < LARGEST as u64 && t.operations == t.used + 1)),
    ("18, a word above those available", |f| f.other(|t| u128::from(t.used) == u128::from(t.available) + 1)),
    ("18, a word available too many", |f| f.other(|t| u128::from(t.available) == available(t) + 1)),
    ("18, calls of a token that hold in 64 bits alone", |f| f.other(tokens_wrap)),
    ("18, words available that hold in 64 bits alone", |f| {
        f.other(|t| available(t) > LARGEST && available(t) as u64 == t.available)
    }),
];

/// Totals, and their share.
pub type ShareFacts = (Totals, Share);

pub const SHARE_LINES: &[Line<ShareFacts>] = &[
    ("no words available, none used", |(t, _)| (t.used, t.available) == (0, 0)),
    ("no words available, some used", |(t, _)| t.used > 0 && t.available == 0),
    ("words available, none used", |(t, _)| t.used == 0 && t.available > 0),
    ("all used", |(t, _)| t.used > 1 && t.used == t.available),
    ("in lowest terms already", |(t, share)| t.available > 1 && (t.used, t.available) == (share.part, share.whole)),
    ("reduced", |(t, share)| share.whole > 1 && share.part > 0 && share.whole < t.available),
    ("reduced by a number above 2^32", |(t, share)| share.part > 1 && t.available / share.whole > 1 << 32),
    ("reduced by 1,019", |(t, share)| share.part > 1 && t.available / share.whole == 1019),
    ("2^64 - 1 words available", |(t, _)| t.available == u64::MAX && t.used > 0),
];
