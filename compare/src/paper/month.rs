//! M-111, "The month in whole numbers." The counts of a trace stand beside its replay, as include/draugsten.h has them, and
//! are added to totals at its end.

use super::replay::Over;
use super::replay_states::{self, Lent, Refused, State, NO_REPLAY};
use super::update_nodes::{AREA, MOST_WORDS};
use super::words::{big, word};
use super::Told;

/// "Refusals: a malformed or differing trace, then a count that would pass 2^64 - 1"
pub const NOT_AGREED: u32 = 16;
pub const PAST_LIMIT: u32 = 17;

/// "figures that the totals of no traces have"
pub const NO_TOTALS: u32 = 18;

/// The largest figure: 2^64 - 1.
const LARGEST: u128 = u64::MAX as u128;

/// The statuses, in the order in which their calls are counted.
const STATUSES: [i32; 7] = [0, 1, -1, -3, -4, -9, -10];

/// The counts of one trace: "for each token 1 to 4, calls with argument answer 0 and each status's count; for node updates
/// also operations handed out, words used (operators and operands)".
#[derive(Clone, Copy, PartialEq, Eq, Debug)]
pub struct Counts {
    pub calls: [[u64; 7]; 4],
    pub operations: u64,
    pub used: u64,
}

pub const NOTHING: Counts = Counts { calls: [[0; 7]; 4], operations: 0, used: 0 };

/// Counts a call, by its argument buffer and memory as it left them. Other tokens than 1 to 4 are counted nowhere, nor are
/// the answers 10 to 12.
pub fn count(counts: &mut Counts, args: &[u8], memory: &[u8], told: &Told) {
    if told.number != 0 {
        return;
    }
    let token = word(args, 0);
    let place = match token {
        own @ 1..=4 => own as usize - 1,
        _ => return,
    };
    let status = word(args, 12 + 4 * word(args, 4) as usize) as u32 as i32;
    let Some(row) = STATUSES.iter().position(|&one| one == status) else {
        return;
    };
    counts.calls[place][row] += 1;
    if token == 1 && is_answer(status) {
        let (operations, used) = handed_out(memory, word(args, 12));
        counts.operations += operations;
        counts.used += used;
    }
}

/// "A call is answered when its number is 0 and its status 0 or 1"
fn is_answer(status: i32) -> bool {
    status == 0 || status == 1
}

/// The operations in the area at this address, and the words that they take: behind sixteen bytes "one operator and its
/// operands for each opcode present, then 0x00000000", where "an addition counts two" operand words.
fn handed_out(memory: &[u8], address: u64) -> (u64, u64) {
    let area = memory.iter().skip(address as usize).take(AREA as usize).copied().collect::<Vec<u8>>();
    let mut words = area.chunks_exact(4).skip(4).map(big);
    let (mut operations, mut used) = (0, 0);
    while let Some(operator) = words.next().filter(|&operator| operator != 0) {
        let operands = words.by_ref().take((operator & 0x00ff_ffff) as usize).count() as u64;
        let each = if operator >> 24 == 3 { 2 } else { 1 };
        operations += operands / each;
        used += 1 + operands;
    }
    (operations, used)
}

/// A replay and the counts of its calls so far.
#[derive(Clone, Copy)]
pub struct Counting {
    pub state: State,
    pub counts: Counts,
}

/// "The replay that a trace starts with, over an inventory of this edition, with nothing counted."
pub fn start(edition: u64) -> Counting {
    Counting { state: replay_states::start(edition), counts: NOTHING }
}

/// "Feeds a replay the next bytes of its trace, as draugsten_replay_feed does, and counts its calls."
pub fn feed(lent: &mut Lent, over: &Over, counting: &Counting, bytes: &[u8]) -> Result<Counting, Refused> {
    let registration = replay_states::judge_feed(lent, &counting.state)?;
    judge_counts(counting)?;
    let (state, counts) = replay_states::go_on(lent, over, &counting.state, (registration, counting.counts), bytes);
    Ok(Counting { state, counts })
}

/// Holds counts to what the calls of their replay can give.
fn judge_counts(counting: &Counting) -> Result<(), Refused> {
    let Counts { calls, operations, used } = counting.counts;
    let counted = calls.iter().flatten().map(|&count| u128::from(count)).sum::<u128>();
    let available = u128::from(MOST_WORDS) * answered(&calls[0]);
    let broken = [
        (counted > most_calls(&counting.state), "more calls counted than made"),
        (operations > used, "more operations counted than words"),
        (u128::from(used) > available, "more words counted than available"),
    ];
    match broken.into_iter().find(|rule| rule.0) {
        Some((_, rule)) => Err(Refused { number: NO_REPLAY, rule }),
        None => Ok(()),
    }
}

/// The calls that a replay can have made. Its report tells them, but where a record is malformed: there they take two
/// records each, and a 32 that waits one more.
fn most_calls(state: &State) -> u128 {
    let waits = u64::from(state.waiting > 0);
    match state.verdict {
        2 => u128::from((state.records - waits) / 2),
        _ => u128::from(state.number),
    }
}

/// The calls with status 0 or 1, of a token's seven counts.
fn answered(calls: &[u64; 7]) -> u128 {
    u128::from(calls[0]) + u128::from(calls[1])
}

/// What is reported of any number of traces: the calls of the tokens 1 to 4 by status, then those of each token, then of
/// node updates the operations, the words used and the words available.
pub type Figures = [u128; 35];
const TOKENS: usize = 28;
const OPERATIONS: usize = 32;
const USED: usize = 33;
const AVAILABLE: usize = 34;

/// The figures of one trace. "words available (1,019 for each answered call)"
fn figures(counts: &Counts) -> Figures {
    let mut figures = [0; 35];
    for (place, calls) in counts.calls.iter().enumerate() {
        let calls = calls.map(u128::from);
        figures[7 * place..7 * place + 7].copy_from_slice(&calls);
        figures[TOKENS + place] = calls.iter().sum();
    }
    figures[OPERATIONS] = u128::from(counts.operations);
    figures[USED] = u128::from(counts.used);
    figures[AVAILABLE] = u128::from(MOST_WORDS) * answered(&counts.calls[0]);
    figures
}

/// What comes of adding a trace: the number, the trace's report as verdict, offset and number, and the rule that refuses it.
pub struct Added {
    pub number: u32,
    pub report: (u64, u64, u64),
    pub rule: &'static str,
}

/// Adds the counts of a trace that ends here. "Refusals: a malformed or differing trace, then a count that would pass
/// 2^64 - 1; in both the counts before that trace are kept whole."
pub fn add(totals: &mut Figures, counting: &Counting) -> Added {
    let ended = replay_states::end(&counting.state).and_then(|report| judge_counts(counting).map(|()| report));
    match ended {
        Err(Refused { number, rule }) => Added { number, report: (2, 0, 0), rule },
        Ok(report) if report.0 == 2 => Added { number: NOT_AGREED, report, rule: "malformed" },
        Ok(report) if report.0 == 1 => Added { number: NOT_AGREED, report, rule: "differs" },
        Ok(report) => match put_in(totals, &figures(&counting.counts)) {
            true => Added { number: 0, report, rule: "" },
            false => Added { number: PAST_LIMIT, report, rule: "past 2^64 - 1" },
        },
    }
}

/// Adds each figure; false, and nothing is added, where one of them would pass 2^64 - 1.
fn put_in(totals: &mut Figures, more: &Figures) -> bool {
    let before = *totals;
    for (sum, more) in totals.iter_mut().zip(more) {
        *sum += more;
        if *sum > LARGEST {
            *totals = before;
            return false;
        }
    }
    true
}

/// Adds the totals of other traces: the number, and the rule that refuses it. Those that they are added to are not judged,
/// here as little as where a trace is added.
pub fn merge(totals: &mut Figures, more: &Figures) -> (u32, &'static str) {
    if let Some(rule) = broken_figures(more) {
        return (NO_TOTALS, rule);
    }
    match put_in(totals, more) {
        true => (0, ""),
        false => (PAST_LIMIT, "past 2^64 - 1"),
    }
}

/// "Refused are figures that no traces give: the calls of a token are those of its seven statuses together, the available
/// words 1,019 times the answered calls of update-nodes, the operations no more than the used words, and these no more than
/// the available ones."
fn broken_figures(figures: &Figures) -> Option<&'static str> {
    let [operations, used, available] = [OPERATIONS, USED, AVAILABLE].map(|place| figures[place]);
    let of_token = |place: usize| figures[7 * place..7 * place + 7].iter().sum::<u128>();
    let broken = [
        ((0..4).any(|place| figures[TOKENS + place] != of_token(place)), "calls of a token"),
        (available != u128::from(MOST_WORDS) * (figures[0] + figures[1]), "words available"),
        (operations > used, "operations above the words used"),
        (used > available, "words used above those available"),
    ];
    broken.into_iter().find(|rule| rule.0).map(|rule| rule.1)
}

/// "the share used, as two whole numbers in lowest terms (0 over 1 where no call was answered)"
pub fn share(totals: &Figures) -> (u128, u128) {
    let (used, available) = (totals[USED], totals[AVAILABLE]);
    if available == 0 {
        return (0, 1);
    }
    let common = common_divisor(used, available);
    (used / common, available / common)
}

/// The greatest number that divides both, by halves and differences alone.
fn common_divisor(one: u128, other: u128) -> u128 {
    match (one % 2, other % 2) {
        _ if one == 0 || other == 0 => one + other,
        (0, 0) => 2 * common_divisor(one / 2, other / 2),
        (0, _) => common_divisor(one / 2, other),
        (_, 0) => common_divisor(one, other / 2),
        _ => common_divisor(one.max(other) - one.min(other), one.min(other)),
    }
}
