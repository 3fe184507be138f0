//! Cases of the month (M-111): traces and totals that they are added to, replays with counts that stand anywhere, totals
//! that are merged, and shares. Much of it lies about a line.

use super::journals::Size;
use super::{recordings, replay_states, traces};
use crate::case::{StateCase, TraceCase};
use crate::library::month::{Counting, Counts, Totals};
use crate::library::{Replay, Report};
use crate::month::case::MonthCase;
use crate::random::Random;
use crate::subject::{Paper, Subject};

/// The words of an answered call.
const WORDS: u64 = 1019;

/// The most answered calls whose words are not above 2^64 - 1.
const MOST_ANSWERED: u64 = u64::MAX / WORDS;

/// The places of the figures that a merge looks at.
const TOKENS: usize = 28;
const OPERATIONS: usize = 32;
const USED: usize = 33;
const AVAILABLE: usize = 34;

pub fn case(random: &mut Random) -> MonthCase {
    match random.below(10) {
        0..=3 => trace(random),
        4..=6 => state(random),
        7 | 8 => merge(random),
        _ => MonthCase::Share(shared(random)),
    }
}

/// Some go over journals that fill an area, so that a call has more to hand out than it can.
fn trace(random: &mut Random) -> MonthCase {
    let case = if random.one_in(20) {
        let size = random.pick(&[Size::Area, Size::Areas]);
        let recording = recordings::session_of(random, size, 12);
        traces::case_of(random, recording)
    } else {
        traces::case(random)
    };
    let Counting { counts, .. } = whole(&case);
    let totals = totals_beside(random, &counts);
    MonthCase::Trace { case, totals }
}

/// Where the paper's side stands behind the whole trace.
fn whole(case: &TraceCase) -> Counting {
    replay_states::feed_paper(&mut case.given.clone(), case.edition, &case.trace)
}

fn state(random: &mut Random) -> MonthCase {
    let (mut case, counted) = standing(random);
    if random.one_in(4) && case.replay.report.verdict == 0 {
        stop(random, &mut case.replay);
    }
    let mut counts = match random.below(3) {
        0 => counted,
        _ => made(random, most_calls(&case)),
    };
    if random.one_in(6) {
        wrap(random, &mut counts);
    }
    let totals = totals_beside(random, &counts);
    MonthCase::State { case, counts, totals }
}

/// A replay that stands anywhere; mostly one that is taken, so that its counts are looked at.
fn standing(random: &mut Random) -> (StateCase, Counts) {
    let mut found = replay_states::counted(random);
    for _ in 0..random.below(6) {
        if Paper.replay_end(&found.0.replay).number == 0 {
            break;
        }
        found = replay_states::counted(random);
    }
    found
}

/// Makes it one that a malformed record has stopped, often behind a 32 that waits.
fn stop(random: &mut Random, replay: &mut Replay) {
    if replay.records > 0 {
        replay.waiting = random.pick(&[0, 1, 25]);
    }
    let number = replay.records.wrapping_add(1).wrapping_sub(u64::from(replay.waiting > 0));
    (replay.held, replay.report) = (0, Report { verdict: 2, offset: 0, number });
}

/// The calls that the replay can have made.
fn most_calls(case: &StateCase) -> u64 {
    let Replay { records, report, waiting, .. } = case.replay;
    match report.verdict {
        2 => records.saturating_sub(u64::from(waiting > 0)) / 2,
        _ => report.number,
    }
}

/// Counts of about so many calls, each of the three rules near its line.
fn made(random: &mut Random, most: u64) -> Counts {
    let mut counts = Counts::NONE;
    let mut left = match random.below(8) {
        0..=3 => most,
        4 | 5 => most.wrapping_add(1),
        6 => most.saturating_sub(1),
        _ => random.below(3) as u64,
    };
    for _ in 0..random.between(0, 3) {
        let part = random.pick(&[left / 2, left.min(1), left]);
        *any_row(random, &mut counts) += part;
        left -= part;
    }
    *any_row(random, &mut counts) += left;
    let available = WORDS.wrapping_mul(counts.calls[0][0].wrapping_add(counts.calls[0][1]));
    counts.used = about(random, available);
    counts.operations = about(random, counts.used);
    counts
}

/// A count of calls; often one of update-nodes that were answered.
fn any_row<'a>(random: &mut Random, counts: &'a mut Counts) -> &'a mut u64 {
    let row = if random.one_in(2) { random.below(2) } else { random.below(28) };
    &mut counts.calls[row / 7][row % 7]
}

/// A number not far above the line, mostly not above it.
fn about(random: &mut Random, line: u64) -> u64 {
    match random.below(8) {
        0..=2 => line,
        3 => line.wrapping_add(1),
        4 => line.saturating_sub(1),
        5 => line / 2,
        _ => 0,
    }
}

/// Counts whose sums in 64 bits come out small.
fn wrap(random: &mut Random, counts: &mut Counts) {
    match random.below(3) {
        0 => {
            let more = random.pick(&[1, 1, 2]);
            for _ in 0..2 * more {
                let row = any_row(random, counts);
                *row = row.wrapping_add((1 << 63) / more);
            }
        }
        1 => (counts.calls[0][0], counts.calls[0][1]) = (u64::MAX, random.pick(&[1, 2, 3])),
        _ => (counts.operations, counts.used) = (0, u64::MAX - random.below(3) as u64),
    }
}

/// Totals to which these counts are added: with much room, or with just enough for some figure, or one too few.
fn totals_beside(random: &mut Random, counts: &Counts) -> Totals {
    let mut figures = any_figures(random);
    let more = figures_of(counts);
    let counted: Vec<usize> = (0..35).filter(|&place| more[place] > 0).collect();
    for _ in 0..random.pick(&[0, 0, 0, 1, 1, 2]) {
        let place = if counted.is_empty() || random.one_in(8) { random.below(35) } else { random.pick(&counted) };
        figures[place] = (u64::MAX - more[place]).saturating_add(random.pick(&[0, 0, 0, 1, 2]));
    }
    Totals::of_figures(&figures)
}

/// Figures of no trace, small ones, or any. Those of one trace have room beside them.
fn any_figures(random: &mut Random) -> [u64; 35] {
    match random.below(4) {
        0 => [0; 35],
        1 => std::array::from_fn(|_| random.below(9) as u64),
        2 => consistent(random, 40).figures(),
        _ => std::array::from_fn(|_| random.next() >> random.between(1, 60)),
    }
}

/// The figures that counts give, in 64 bits.
fn figures_of(counts: &Counts) -> [u64; 35] {
    let mut totals = Totals { calls: counts.calls, ..Totals::NONE };
    (totals.operations, totals.used) = (counts.operations, counts.used);
    complete(&mut totals);
    totals.figures()
}

/// Sets the calls of each token and the available words, in 64 bits.
fn complete(totals: &mut Totals) {
    totals.token_calls = totals.calls.map(|rows| rows.iter().fold(0, |sum: u64, &row| sum.wrapping_add(row)));
    totals.available = WORDS.wrapping_mul(totals.calls[0][0].wrapping_add(totals.calls[0][1]));
}

/// Totals that some traces have, with counts of up to so many bits.
fn consistent(random: &mut Random, bits: usize) -> Totals {
    let mut totals = Totals::NONE;
    for rows in &mut totals.calls {
        rows.iter_mut().for_each(|row| *row = if random.one_in(2) { 0 } else { random.next() % (1 << bits) });
    }
    complete(&mut totals);
    totals.used = about(random, totals.available).min(totals.available);
    totals.operations = about(random, totals.used).min(totals.used);
    totals
}

fn merge(random: &mut Random) -> MonthCase {
    let bits = random.pick(&[0, 1, 4, 30, 30, 50, 50]);
    let mut totals = consistent(random, bits);
    let mut more = consistent(random, bits);
    if random.one_in(2) {
        to_the_limit(random, &mut totals, &more);
    }
    if random.one_in(2) {
        std::mem::swap(&mut totals, &mut more);
    }
    if random.one_in(2) {
        let spoilt = if random.one_in(2) { &mut totals } else { &mut more };
        spoil(random, spoilt);
    }
    MonthCase::Merge { totals, more }
}

/// Totals that have just enough room for the others in one figure, or one too few.
fn to_the_limit(random: &mut Random, totals: &mut Totals, more: &Totals) {
    let past = random.pick(&[0, 0, 1]);
    match random.below(4) {
        0 => {
            let [done, again] = [more.calls[0][0], more.calls[0][1]];
            let room = MOST_ANSWERED - (done + again).min(MOST_ANSWERED) + past;
            totals.calls[0] = [room.min(MOST_ANSWERED), 0, 0, 0, 0, 0, 0];
        }
        token => {
            let row = random.between(2, 6);
            totals.calls[token] = [0; 7];
            totals.calls[token][row] = (u64::MAX - more.token_calls[token]).saturating_add(past);
        }
    }
    complete(totals);
    totals.used = about(random, totals.available).min(totals.available);
    totals.operations = about(random, totals.used).min(totals.used);
}

/// Changes one figure, mostly by one; or gives figures that hold in 64 bits alone.
fn spoil(random: &mut Random, totals: &mut Totals) {
    let mut figures = totals.figures();
    match random.below(8) {
        0 => {
            let (token, row) = (random.below(4), random.between(0, 5));
            let half = 1 << 63;
            [row, row + 1].iter().for_each(|row| figures[7 * token + row] = half + random.below(2) as u64);
            *totals = Totals::of_figures(&figures);
            return complete(totals);
        }
        1 => {
            totals.calls[0] = [MOST_ANSWERED + 1 + random.below(9) as u64, 0, 0, 0, 0, 0, 0];
            complete(totals);
            (totals.operations, totals.used) = (0, random.below(2) as u64);
            return;
        }
        2 => figures[OPERATIONS] = figures[USED].saturating_add(1),
        3 => figures[USED] = figures[AVAILABLE].saturating_add(1),
        4 => figures[AVAILABLE] = figures[AVAILABLE].wrapping_add(random.pick(&[1, u64::MAX, WORDS])),
        5 => figures[TOKENS + random.below(4)] = random.next() >> random.below(64),
        _ => {
            let place = random.below(35);
            figures[place] = figures[place].wrapping_add(random.pick(&[1, u64::MAX]));
        }
    }
    *totals = Totals::of_figures(&figures);
}

/// Totals whose share is asked for; the figures need not be such as traces give.
fn shared(random: &mut Random) -> Totals {
    let mut totals = consistent(random, 40);
    let factor = random.next() >> random.between(1, 63);
    let [part, whole] = [random.below(60) as u64, random.below(60) as u64];
    match random.below(6) {
        0 => {}
        1 => (totals.used, totals.available) = (part.wrapping_mul(factor), whole.wrapping_mul(factor)),
        2 => (totals.used, totals.available) = (part.saturating_mul(WORDS), whole * WORDS),
        3 => (totals.used, totals.available) = (random.next(), random.next()),
        4 => (totals.used, totals.available) = (1 << random.below(64), 1 << random.below(64)),
        _ => {
            let ends = [0, 1, 2, u64::MAX, u64::MAX - 1, factor];
            (totals.used, totals.available) = (random.pick(&ends), random.pick(&ends));
        }
    }
    totals
}
