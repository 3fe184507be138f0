//! The readings of M-111 on totals: which are merged, and their shares.

use super::months::totals;
use crate::library::month::{Share, Totals};
use crate::subject::Subject;

/// Totals that get those of other traces: the number, and the totals afterwards, which are kept where it is not 0.
pub struct MergeReading {
    name: &'static str,
    totals: Totals,
    more: Totals,
    number: u32,
    sums: Totals,
}

/// Words used and available, and their share.
pub struct ShareReading {
    words: [u64; 2],
    share: [u64; 2],
}

const MAX: u64 = u64::MAX;

/// The most answered calls whose words are not above 2^64 - 1: 1,019 times them is 2^64 - 345.
const MOST: u64 = 18_102_791_043_875_909;

fn merged(name: &'static str, totals: Totals, more: Totals, sums: Totals) -> MergeReading {
    MergeReading { name, totals, more, number: 0, sums }
}

fn refused(name: &'static str, number: u32, totals: Totals, more: Totals) -> MergeReading {
    MergeReading { name, totals, more, number, sums: totals }
}

pub fn merges() -> Vec<MergeReading> {
    [sums(), past_the_limit(), inconsistent()].into_iter().flatten().collect()
}

fn sums() -> Vec<MergeReading> {
    let one = totals(&[(1, 0, 1), (1, 3, 2), (2, 1, 4)], [1, 2, 1019]);
    let other = totals(&[(1, 1, 1), (1, 3, 1), (4, 6, 8)], [1018, 1019, 1019]);
    let both = totals(&[(1, 0, 1), (1, 1, 1), (1, 3, 3), (2, 1, 4), (4, 6, 8)], [1019, 1021, 2038]);
    let no_traces = totals(&[], [1, 0, 0]);
    vec![
        merged("no trace and no trace", Totals::NONE, Totals::NONE, Totals::NONE),
        merged("some and no trace", one, Totals::NONE, one),
        merged("no trace and some", Totals::NONE, one, one),
        merged("some and others", one, other, both),
        merged("others and some", other, one, both),
        merged("no traces' totals and no trace", no_traces, Totals::NONE, no_traces),
    ]
}

/// "then a count that would pass 2^64 - 1"
fn past_the_limit() -> Vec<MergeReading> {
    let calls = |row: usize, number: u64| totals(&[(3, row, number)], [0; 3]);
    let words = |calls: u64, words: u64| totals(&[(1, 1, calls)], [0, words, 1019 * calls]);
    let two_rows = totals(&[(3, 2, MAX - 1), (3, 3, 1)], [0; 3]);
    vec![
        merged("a status up to 2^64 - 1", calls(2, MAX - 1), calls(2, 1), calls(2, MAX)),
        refused("a status up to 2^64", 17, calls(2, MAX), calls(2, 1)),
        merged("a token's calls up to 2^64 - 1", calls(2, MAX - 1), calls(3, 1), two_rows),
        refused("a token's calls up to 2^64", 17, calls(2, MAX), calls(3, 1)),
        merged("the most words available", words(MOST - 1, 7), words(1, 8), words(MOST, 15)),
        refused("words available past 2^64 - 1", 17, words(MOST, 7), words(1, 8)),
        refused("one of nothing but its own totals", 17, words(MOST, 7), words(MOST, 7)),
    ]
}

/// "figures that the totals of no traces have", before 17.
fn inconsistent() -> Vec<MergeReading> {
    let good = totals(&[(1, 0, 1), (1, 1, 1), (1, 3, 1)], [3, 3, 2038]);
    let full = totals(&[(1, 3, MAX), (2, 3, MAX), (3, 3, MAX), (4, 3, MAX)], [0; 3]);
    let mut wrapped_calls = Totals::NONE;
    (wrapped_calls.calls[1][0], wrapped_calls.calls[1][6]) = (1 << 63, 1 << 63);
    let wrapped_words = totals(&[(1, 0, MOST + 1)], [0, 0, 1019u64.wrapping_mul(MOST + 1)]);
    let to_no_trace = |name, more| refused(name, 18, Totals::NONE, more);
    vec![
        merged("the largest figures", Totals::NONE, totals(&[(1, 0, 1)], [1019; 3]), totals(&[(1, 0, 1)], [1019; 3])),
        to_no_trace("a call of a token too many", Totals { token_calls: [3, 0, 0, 1], ..good }),
        to_no_trace("a call of a token too few", Totals { token_calls: [2, 0, 0, 0], ..good }),
        to_no_trace("a word available too many", Totals { available: 2039, ..good }),
        to_no_trace("words available of a refused call", Totals { available: 3057, ..good }),
        to_no_trace("an operation above the words used", Totals { operations: 4, ..good }),
        to_no_trace("a word used above those available", Totals { used: 2039, ..good }),
        to_no_trace("calls of a token past 2^64 - 1", wrapped_calls),
        to_no_trace("words past 2^64 - 1", wrapped_words),
        refused("18 before 17", 18, full, Totals { operations: 4, ..good }),
        refused("17 for the same, without the fault", 17, full, good),
    ]
}

pub fn shares() -> Vec<ShareReading> {
    let list = [
        ([0, 0], [0, 1]),
        ([5, 0], [0, 1]),
        ([0, 1019], [0, 1]),
        ([0, MAX], [0, 1]),
        ([1, 1019], [1, 1019]),
        ([2, 1019], [2, 1019]),
        ([2, 2038], [1, 1019]),
        ([1018, 2038], [509, 1019]),
        ([1019, 1019], [1, 1]),
        ([1019, 2038], [1, 2]),
        ([3057, 4076], [3, 4]),
        ([MAX, MAX], [1, 1]),
        ([MAX - 1, MAX], [MAX - 1, MAX]),
        ([1 << 63, MAX - 1], [1 << 62, MAX >> 1]),
        ([MAX, 1], [MAX, 1]),
    ];
    list.into_iter().map(|(words, share)| ShareReading { words, share }).collect()
}

impl MergeReading {
    pub fn failure(&self, subject: &dyn Subject) -> Option<String> {
        let got = subject.month().merge(&self.totals, &self.more);
        let good = (got.number, got.totals) == (self.number, self.sums);
        let told = format!("{}, {}", got.number, got.totals.text());
        (!good).then(|| format!("fixed reading '{}' on {}: {told}", self.name, subject.name()))
    }
}

impl ShareReading {
    pub fn failure(&self, subject: &dyn Subject) -> Option<String> {
        let ([used, available], [part, whole]) = (self.words, self.share);
        let got = subject.month().share(&Totals { used, available, ..Totals::NONE });
        let name = format!("the share of {used} over {available}");
        (got != Share { part, whole }).then(|| format!("fixed reading '{name}' on {}: {got:?}", subject.name()))
    }
}
