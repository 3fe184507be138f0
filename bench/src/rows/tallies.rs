//! A journal that is kept with its tallies: appends, joins and recounts.

use super::Range;
use crate::inputs::SCOPE_1;
use crate::interface::{LIMIT, SIDES};
use crate::journal;
use crate::plain::tallies as plain;
use crate::tallies::{records, Journal, Keeper, PROVED};
use crate::timing::{medians, Effort, Work};
use std::hint::black_box;

/// The appends of a row, so many in one work.
const MILLION: usize = 1_000_000;
const HUNDRED: usize = 100;

/// The bytes in use at which an append is measured.
const FEW: usize = 1_000;
const MANY: usize = 1_000_000;

/// Something that is done with a journal, and what stands beside it, with the median times in microseconds.
pub struct Kept {
    pub what: &'static str,
    pub bytes: usize,
    pub beside: &'static str,
    pub other: f64,
    pub proved: f64,
    /// The least and the largest ratio, over the runs.
    pub ratios: Range,
}

fn kept(what: &'static str, bytes: usize, beside: &'static str, [other, proved]: [f64; 2]) -> Kept {
    Kept { what, bytes, beside, other, proved, ratios: (proved / other, proved / other) }
}

pub fn tallies(effort: Effort) -> Vec<Kept> {
    let journal = journal::four_kinds(LIMIT);
    let mut rows = vec![appending(&journal, effort), last_hundred(&journal, effort), at_two_uses(&journal, effort)];
    rows.extend(joining(&journal, effort));
    rows.extend(recounting(&journal, effort));
    rows
}

/// A million appends; the journal is cleared whenever it is full. Answers how often.
pub fn million_appends(keeper: &mut impl Keeper, records: &[&[u8]]) -> u64 {
    let mut cleared = 0;
    keeper.clear();
    for record in black_box(records).iter().cycle().take(MILLION) {
        if keeper.append(record) != 0 {
            keeper.clear();
            cleared += 1;
            assert_eq!(keeper.append(record), 0);
        }
    }
    cleared
}

/// The bytes of the first records of a journal, as many as so many bytes hold.
fn front_within(journal: &[u8], most: usize) -> usize {
    let mut front = 0;
    for record in records(journal) {
        if front + record.len() > most {
            break;
        }
        front += record.len();
    }
    front
}

/// Appends each of some records, which find room.
fn append_all(keeper: &mut impl Keeper, records: &[&[u8]]) -> u64 {
    for record in black_box(records) {
        assert_eq!(keeper.append(record), 0);
    }
    keeper.tallies().rows[1][0]
}

fn appending(journal: &[u8], effort: Effort) -> Kept {
    let records = records(journal);
    let (mut rust, mut proved) = (plain::Journal::new(LIMIT), Journal::new(LIMIT));
    let works: [Work; 2] =
        [Box::new(|| million_appends(&mut rust, &records)), Box::new(|| million_appends(&mut proved, &records))];
    kept("a million appends, cleared whenever full", LIMIT, "Rust that keeps counts", medians(works, effort))
}

/// The last hundred appends to a full journal, each from the same bytes in use.
fn last_hundred(journal: &[u8], effort: Effort) -> Kept {
    let records = records(journal);
    let last = &records[records.len() - HUNDRED..];
    let front = journal.len() - last.iter().map(|record| record.len()).sum::<usize>();
    let (mut rust, mut proved) = (plain::Journal::new(LIMIT), Journal::new(LIMIT));
    assert_eq!((rust.join(&journal[..front]), proved.join(&journal[..front])), (0, 0));
    let (used, tallies, before) = (rust.used, rust.tallies, proved.kept);
    let recounting = move || {
        (rust.used, rust.tallies) = (used, tallies);
        last.iter().for_each(|record| assert_eq!(rust.append_recounting(black_box(record)), 0));
        rust.tallies.rows[1][0]
    };
    let keeping = move || {
        proved.kept = before;
        append_all(&mut proved, last)
    };
    let works: [Work; 2] = [Box::new(recounting), Box::new(keeping)];
    kept("the last 100 appends to a full journal", LIMIT, "Rust that recounts", medians(works, effort))
}

/// A hundred appends at many bytes in use, beside the same at few.
fn at_two_uses(journal: &[u8], effort: Effort) -> Kept {
    let records = &records(journal)[..HUNDRED];
    let works = [FEW, MANY].map(|size| -> Work {
        let mut proved = Journal::new(LIMIT);
        assert_eq!(proved.join(&journal[..front_within(journal, size)]), 0);
        let before = proved.kept;
        Box::new(move || {
            proved.kept = before;
            append_all(&mut proved, records)
        })
    });
    kept("100 appends at 1,000,000 bytes in use", MANY, "100 at 1,000", medians(works, effort))
}

/// The second half of a journal joined to the first.
fn joining(journal: &[u8], effort: Effort) -> [Kept; 2] {
    let (first, second) = journal.split_at(front_within(journal, LIMIT / 2));
    let behind = records(second);
    let (mut rust, mut one_by_one, mut proved) = (plain::Journal::new(LIMIT), Journal::new(LIMIT), Journal::new(LIMIT));
    assert_eq!((rust.join(first), one_by_one.join(first), proved.join(first)), (0, 0, 0));
    let (used, tallies, before) = (rust.used, rust.tallies, proved.kept);
    let works: [Work; 3] = [
        Box::new(move || {
            (rust.used, rust.tallies) = (used, tallies);
            rust.join(black_box(second)).into()
        }),
        Box::new(move || {
            one_by_one.kept = before;
            append_all(&mut one_by_one, &behind)
        }),
        Box::new(move || {
            proved.kept = before;
            proved.join(black_box(second)).into()
        }),
    ];
    let [rust, appended, joined] = medians(works, effort);
    let what = "the join of two half-full journals";
    [
        kept(what, second.len(), "its records appended", [appended, joined]),
        kept(what, second.len(), "Rust that joins", [rust, joined]),
    ]
}

/// The recount of a full journal, beside Rust and beside the scan of one scope.
fn recounting(journal: &[u8], effort: Effort) -> [Kept; 2] {
    let works: [Work; 3] = [
        Box::new(move || plain::recount(black_box(journal)).map_or(0, |tallies| tallies.rows[1][0])),
        Box::new(move || (SIDES[2].scan_journal)(black_box(journal), SCOPE_1)),
        Box::new(move || (PROVED.recount)(black_box(journal)).tallies.rows[1][0]),
    ];
    let [rust, scan, recount] = medians(works, effort);
    let what = "the recount of a full journal";
    [
        kept(what, journal.len(), "Rust that recounts", [rust, recount]),
        kept(what, journal.len(), "the scan of scope 1", [scan, recount]),
    ]
}
