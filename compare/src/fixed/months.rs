//! The readings of M-111: traces, what they add to totals, and the counts that a replay can have.

use super::replays::{after, agreed, answered, before, called, differs, given, malformed, nodes, set, structure};
use super::NONE;
use crate::buffers::{arguments, journal_record, property_record, words};
use crate::case::Given;
use crate::library::month::{Counting, Counts, Share, Totals};
use crate::library::{ReadingRecord, Replay, Report};
use crate::month::Tallied;
use crate::subject::Subject;

const ROOM: [usize; 2] = [4104, 4100];

/// A trace over a journal, added to totals: the number, its report, and the totals afterwards with their share.
pub struct MonthReading {
    name: String,
    journal: Vec<u8>,
    trace: Vec<u8>,
    totals: Totals,
    number: u32,
    report: Report,
    sums: Totals,
    share: [u64; 2],
}

/// A replay with counts, fed nothing and added to totals that are all alike: both numbers.
pub struct CountsReading {
    name: &'static str,
    room: [usize; 2],
    /// Records, report, and what waits.
    replay: (u64, Report, u32),
    counts: Counts,
    figure: u64,
    feed: u32,
    add: u32,
}

/// Totals of no more than these: status counts as token, row and number; operations, words used, words available.
pub fn totals(rows: &[(usize, usize, u64)], [operations, used, available]: [u64; 3]) -> Totals {
    let mut totals = Totals { operations, used, available, ..Totals::NONE };
    for &(token, row, number) in rows {
        totals.calls[token - 1][row] = number;
        totals.token_calls[token - 1] += number;
    }
    totals
}

/// A trace that is added to no other.
fn first(name: &str, trace: &[Vec<u8>], calls: u64, sums: Totals, share: [u64; 2]) -> MonthReading {
    let (journal, trace) = (given(ROOM).journal, trace.concat());
    let (name, report) = (String::from(name), agreed(calls));
    MonthReading { name, journal, trace, totals: Totals::NONE, number: 0, report, sums, share }
}

/// A trace over another journal.
fn over(journal: Vec<u8>, reading: MonthReading) -> MonthReading {
    MonthReading { journal, ..reading }
}

/// A refused trace over totals at 2^64 - 1, which are kept.
fn refused(name: &str, trace: &[Vec<u8>], report: Report) -> MonthReading {
    let full = Totals::of_figures(&[u64::MAX; 35]);
    MonthReading { totals: full, number: 16, report, ..first(name, trace, 0, full, [1, 1]) }
}

/// A call with its buffer before and after it.
fn made(token: u32, inputs: &[u32], outputs: &[u32]) -> Vec<u8> {
    [before(&arguments(token, inputs, &vec![5; outputs.len()])), after(&arguments(token, inputs, outputs))].concat()
}

/// A call with number 10 to 12: its buffer stays.
fn kept(args: &[u8]) -> Vec<u8> {
    [before(args), after(args)].concat()
}

/// The status -3.
const PARAMETER: u32 = 0xffff_fffd;

/// The figures of one call of update-nodes that hands out a delete.
fn one_delete() -> Totals {
    totals(&[(1, 0, 1)], [1, 2, 1019])
}

pub fn readings() -> Vec<MonthReading> {
    [without_calls(), of_nodes(), of_others(), not_agreed(), at_the_limit()].into_iter().flatten().collect()
}

fn without_calls() -> Vec<MonthReading> {
    let before = totals(&[(1, 1, 2), (3, 5, 1)], [3, 1019, 2038]);
    let no_call = first("a trace with no call", &[set(0, &[1])], 0, before, [1, 2]);
    let none = Totals::NONE;
    vec![
        first("a trace with no record", &[], 0, none, [0, 1]),
        MonthReading { totals: before, ..no_call },
        first("a call with number 10", &[kept(&[0; 11])], 1, none, [0, 1]),
        first("a call with number 11", &[kept(&arguments(1, &[0, 1], &[]))], 1, none, [0, 1]),
        first("a call with number 12", &[kept(&words(&[1, 17, 1]))], 1, none, [0, 1]),
        first("a call of token 0", &[made(0, &[0, 1], &[PARAMETER])], 1, none, [0, 1]),
        first("a call of token 5", &[made(5, &[0, 1], &[PARAMETER])], 1, none, [0, 1]),
    ]
}

/// "operations handed out, words used (operators and operands), words available (1,019 for each answered call)"
fn of_nodes() -> Vec<MonthReading> {
    let again = made(1, &[0, 1], &[0]);
    let nothing = [set(0, &[0; 16]), made(1, &[0, 2], &[0])];
    let outside = [set(0, &[0; 16]), made(1, &[0, 0], &[PARAMETER])];
    let unlike = [made(1, &[0, 1, 0], &[PARAMETER])];
    let deletes = |number: u32| (0..number).flat_map(|node| journal_record(1, 10, node, 0)).collect::<Vec<u8>>();
    let three = [journal_record(1, 10, 7, 0), journal_record(2, 10, 8, 0), journal_record(3, 10, 9, 6)].concat();
    let on = [set(0, &[0; 16]), made(1, &[0, 1], &[1]), again.clone()];
    let malformed = made(1, &[0, 1], &[0xffff_ffff]);
    let both = totals(&[(1, 0, 1), (1, 1, 1)], [1019, 1021, 2038]);
    vec![
        first("a delete", &[answered()], 1, one_delete(), [2, 1019]),
        first("two times a delete", &[answered(), again], 2, totals(&[(1, 0, 2)], [2, 4, 2038]), [2, 1019]),
        first("nothing handed out", &nothing, 1, totals(&[(1, 0, 1)], [0, 0, 1019]), [0, 1]),
        first("a refused call", &outside, 1, totals(&[(1, 3, 1)], [0; 3]), [0, 1]),
        first("three inputs", &unlike, 1, totals(&[(1, 3, 1)], [0; 3]), [0, 1]),
        over(three, first("three opcodes", &[answered()], 1, totals(&[(1, 0, 1)], [3, 7, 1019]), [7, 1019])),
        over(deletes(1018), first("a full area", &[answered()], 1, totals(&[(1, 0, 1)], [1018, 1019, 1019]), [1, 1])),
        over(deletes(1019), first("an area and one more", &on, 2, both, [1021, 2038])),
        over(vec![0, 0, 1, 0], first("status -1", &[malformed], 1, totals(&[(1, 2, 1)], [0; 3]), [0, 1])),
    ]
}

fn of_others() -> Vec<MonthReading> {
    let asks = |start, outputs| made(2, &[1, 9, 0, 16, start], outputs);
    let sensors = [asks(1, &[1, 2]), asks(2, &[0, 1]), asks(7, &[PARAMETER, 5])];
    let command = |status: u32| made(3, &[1, 0, 80], &[status]);
    let dumps = [set(0, &structure()), command(0), command(0xffff_fff7)];
    let property = property_record(0x2a, b"a", Some(b"b"));
    let asked = [set(0, &words(&[0x2a, 0, 0, 0])), made(4, &[0, 1], &[0]), made(4, &[0, 1, 0], &[PARAMETER])];
    let (read, given) = (totals(&[(2, 1, 1), (2, 0, 1), (2, 3, 1)], [0; 3]), totals(&[(4, 0, 1), (4, 3, 1)], [0; 3]));
    vec![
        first("get-indices", &sensors, 3, read, [0, 1]),
        first("configure-kernel-dump", &dumps, 2, totals(&[(3, 0, 1), (3, 5, 1)], [0; 3]), [0, 1]),
        over(property, first("update-properties", &asked, 2, given, [0, 1])),
    ]
}

/// "Refusals: a malformed or differing trace, then a count that would pass 2^64 - 1"
fn not_agreed() -> Vec<MonthReading> {
    let second = [answered(), before(&nodes(0)), after(&nodes(1))];
    vec![
        refused("a trace that differs", &[called(), after(&nodes(1))], differs(1, 23)),
        refused("a trace that differs in its second call", &second, differs(2, 23)),
        refused("a trace that is malformed", &[answered(), vec![0, 0, 32, 0]], malformed(4)),
        refused("a trace that ends in a record", &[answered(), vec![7]], malformed(4)),
        refused("a trace that ends in a 32", &[answered(), before(&nodes(0))], malformed(4)),
    ]
}

/// "a count that would pass 2^64 - 1", for each of the five figures that a delete has.
fn at_the_limit() -> Vec<MonthReading> {
    let own = [(0, 1), (28, 1), (32, 1), (33, 2), (34, 1019)];
    own.into_iter().flat_map(|(place, count)| [last(place, count), past(place, count)]).collect()
}

/// Totals with this one figure alone.
fn figure(place: usize, number: u64) -> Totals {
    let mut figures = [0; 35];
    figures[place] = number;
    Totals::of_figures(&figures)
}

/// The figure comes to 2^64 - 1.
fn last(place: usize, count: u64) -> MonthReading {
    let mut figures = one_delete().figures();
    figures[place] = u64::MAX;
    let share = match place {
        33 => [u64::MAX, 1019],
        34 => [2, u64::MAX],
        _ => [2, 1019],
    };
    let reading = first("", &[answered()], 1, Totals::of_figures(&figures), share);
    let name = format!("figure {place} up to 2^64 - 1");
    MonthReading { name, totals: figure(place, u64::MAX - count), ..reading }
}

/// One more: nothing is added.
fn past(place: usize, count: u64) -> MonthReading {
    let totals = figure(place, u64::MAX - count + 1);
    let reading = first("", &[answered()], 1, totals, [0, 1]);
    let name = format!("figure {place} up to 2^64");
    MonthReading { name, totals, number: 17, ..reading }
}

/// Counts of these rows, as token, row and number; operations and words used.
fn of_calls(rows: &[(usize, usize, u64)], [operations, used]: [u64; 2]) -> Counts {
    Counts { calls: totals(rows, [0; 3]).calls, operations, used }
}

fn standing(name: &'static str, replay: (u64, Report, u32), counts: Counts, numbers: [u32; 2]) -> CountsReading {
    let [feed, add] = numbers;
    CountsReading { name, room: ROOM, replay, counts, figure: 0, feed, add }
}

pub fn counts() -> Vec<CountsReading> {
    [calls_counted(), words_counted(), orders()].into_iter().flatten().collect()
}

/// The counted calls are at most those made.
fn calls_counted() -> Vec<CountsReading> {
    let calls = |number: u64| of_calls(&[(2, 3, number - 1), (4, 6, 1)], [0; 2]);
    let (three, differing) = ((6, agreed(3), 0), (6, differs(3, 0), 0));
    let bad = |records: u64| (records, malformed(records + 1), 0);
    let waiting = |records: u64| (records, malformed(records), 1);
    let half = 1 << 63;
    let wrapped = Counts { calls: [[half, 0, 0, 0, 0, 0, half], [0; 7], [0; 7], [1; 7]], ..Counts::NONE };
    vec![
        standing("three calls, three counted", three, calls(3), [0, 0]),
        standing("three calls, four counted", three, calls(4), [14, 14]),
        standing("the third call differs, three counted", differing, calls(3), [0, 16]),
        standing("the third call differs, four counted", differing, calls(4), [14, 14]),
        standing("malformed behind 7 records, three counted", bad(7), calls(3), [0, 16]),
        standing("malformed behind 7 records, four counted", bad(7), calls(4), [14, 14]),
        standing("malformed behind 8 records, four counted", bad(8), calls(4), [0, 16]),
        standing("a 32 waits among 8 records, three counted", waiting(8), calls(3), [0, 16]),
        standing("a 32 waits among 8 records, four counted", waiting(8), calls(4), [14, 14]),
        standing("a 32 waits among 9 records, four counted", waiting(9), calls(4), [0, 16]),
        standing("2^64 + 7 calls counted", (40, agreed(20), 0), wrapped, [14, 14]),
    ]
}

/// The operations are at most the words used, these at most 1,019 for each answered call of update-nodes.
fn words_counted() -> Vec<CountsReading> {
    let at = (8, agreed(4), 0);
    let answered = |words: [u64; 2]| of_calls(&[(1, 0, 1), (1, 1, 1)], words);
    let refused = |words: [u64; 2]| of_calls(&[(1, 3, 2), (2, 0, 1), (4, 1, 1)], words);
    let many = Counts { calls: [[u64::MAX, 1, 0, 0, 0, 0, 0], [0; 7], [0; 7], [0; 7]], ..Counts::NONE };
    vec![
        standing("as many operations as words", at, answered([7, 7]), [0, 0]),
        standing("an operation more than words", at, answered([8, 7]), [14, 14]),
        standing("2,038 words of two calls", at, answered([0, 2038]), [0, 0]),
        standing("2,039 words of two calls", at, answered([0, 2039]), [14, 14]),
        standing("no word of refused calls", at, refused([0; 2]), [0, 0]),
        standing("a word of refused calls", at, refused([0, 1]), [14, 14]),
        standing("2^64 answered calls", at, many, [14, 14]),
    ]
}

/// "The checks come in the order 15, 14"; where a trace is added, 14, 16, 17.
fn orders() -> Vec<CountsReading> {
    let (bad, good) = (of_calls(&[], [1, 0]), of_calls(&[(1, 3, 1)], [0; 2]));
    let (agrees, differing) = ((2, agreed(1), 0), (2, differs(1, 0), 0));
    let full = |reading| CountsReading { figure: u64::MAX, ..reading };
    let small = |reading| CountsReading { room: [4103, 4100], ..reading };
    vec![
        small(standing("15, and good counts", agrees, good, [15, 0])),
        small(standing("15 before 14", agrees, bad, [15, 14])),
        standing("14 before 16", differing, bad, [14, 14]),
        full(standing("14 before 17", agrees, bad, [14, 14])),
        full(standing("14 before 16 and 17", differing, bad, [14, 14])),
        full(standing("16 before 17", differing, good, [0, 16])),
        full(standing("17", agrees, good, [0, 17])),
    ]
}

impl MonthReading {
    /// What a side does otherwise than written, in bursts of some sizes.
    pub fn failure(&self, subject: &dyn Subject) -> Option<String> {
        [usize::MAX, 1, 7].into_iter().find_map(|burst| self.failure_in_bursts(subject, burst))
    }

    fn failure_in_bursts(&self, subject: &dyn Subject, burst: usize) -> Option<String> {
        let given = Given { journal: self.journal.clone(), ..given(ROOM) };
        let mut tallied = Tallied::new(subject, &given, subject.month().start(7));
        let taken = self.trace.chunks(burst).all(|bytes| tallied.feed(bytes).number == 0);
        let added = tallied.add(&self.totals);
        let share = subject.month().share(&added.totals);
        let [part, whole] = self.share;
        let good = taken
            && (added.number, added.report, added.totals) == (self.number, self.report, self.sums)
            && share == Share { part, whole };
        let told = format!("{}, {:?}, {}, {share:?}", added.number, added.report, added.totals.text());
        (!good).then(|| format!("fixed reading '{}' on {}: {told}", self.name, subject.name()))
    }
}

impl CountsReading {
    pub fn failure(&self, subject: &dyn Subject) -> Option<String> {
        let (records, report, waiting) = self.replay;
        let reading = ReadingRecord::NONE;
        let replay = Replay { records, report, held: 0, waiting, edition: 7, registration: NONE, reading };
        let given = given(self.room);
        let mut tallied = Tallied::new(subject, &given, Counting { replay, counts: self.counts });
        let (before, totals) = (tallied.clone(), Totals::of_figures(&[self.figure; 35]));
        let (number, added) = (tallied.feed(&[]).number, tallied.add(&totals));
        let told = if self.add == 14 { malformed(0) } else { report };
        let good = (number, added.number, added.report) == (self.feed, self.add, told)
            && tallied.changed(&before).is_none()
            && (added.totals == totals) == (self.add != 0);
        let numbers = format!("{number} and {}, {:?}, {}", added.number, added.report, added.totals.text());
        (!good).then(|| format!("fixed reading '{}' on {}: {numbers}", self.name, subject.name()))
    }
}
