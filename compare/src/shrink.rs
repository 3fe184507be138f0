//! Makes a case with a difference smaller, as long as the difference stays.

use crate::buffers::{put_word, record_places, word_at};
use crate::case::{Asked, CallCase, Case, Given, Listing, ReadCase, RunCase, SessionCase, Step, TraceCase};
use crate::library::ReadingRecord;
use crate::month::case::MonthCase;
use std::time::{Duration, Instant};

/// The parts of a case that are made smaller.
#[derive(Clone, Copy)]
enum Part {
    Journal,
    Inventory,
    Memory,
    Arguments,
    Copy,
    Platform,
    Area,
    Session,
    Trace,
}

const ALL: [Part; 9] = [
    Part::Trace,
    Part::Journal,
    Part::Inventory,
    Part::Session,
    Part::Memory,
    Part::Platform,
    Part::Area,
    Part::Arguments,
    Part::Copy,
];
/// All but the copy, which has 512 bytes always.
const OF_ANY_LENGTH: [Part; 8] = [
    Part::Trace,
    Part::Journal,
    Part::Inventory,
    Part::Session,
    Part::Memory,
    Part::Platform,
    Part::Area,
    Part::Arguments,
];
const OF_RECORDS: [Part; 4] = [Part::Trace, Part::Journal, Part::Inventory, Part::Session];
const MOST_TIME: Duration = Duration::from_secs(10);

fn bytes_of(case: &Case, part: Part) -> &[u8] {
    match (case, part) {
        (Case::Call(call), Part::Journal) => &call.journal,
        (Case::Call(call), Part::Inventory) => &call.inventory,
        (Case::Call(call), Part::Memory) => &call.memory,
        (Case::Call(call), Part::Arguments) => &call.args,
        (Case::Call(call), Part::Copy) => &call.registration.copy,
        (Case::Run(run), Part::Memory) => &run.memory,
        (Case::Run(run), Part::Platform) => &run.platform,
        (Case::Run(run), Part::Copy) => &run.registration.copy,
        (Case::ReadNodes { read, .. } | Case::ReadIndices(read) | Case::ReadProperties(read), Part::Area) => &read.area,
        (Case::Session(session), Part::Session) => &session.records,
        (Case::Trace(case) | Case::Month(MonthCase::Trace { case, .. }), Part::Trace) => &case.trace,
        (Case::State(case) | Case::Month(MonthCase::State { case, .. }), Part::Trace) => &case.burst,
        (Case::Trace(case) | Case::Month(MonthCase::Trace { case, .. }), _) => given_bytes(&case.given, part),
        (Case::State(case) | Case::Month(MonthCase::State { case, .. }), _) => given_bytes(&case.given, part),
        (Case::Locations(case), Part::Area) => case.area(),
        (Case::Locations(case), Part::Memory) => case.fixed(),
        (Case::Table(case), Part::Area) => case.bytes(),
        (Case::Tallies(case), _) => tallies_place(part).and_then(|place| case.part(place)).map_or(&[], Vec::as_slice),
        (Case::Intake(case), Part::Trace) => case.stream(),
        (Case::Intake(case), Part::Journal) => case.first(),
        _ => &[],
    }
}

fn given_bytes(given: &Given, part: Part) -> &[u8] {
    match part {
        Part::Journal => &given.journal,
        Part::Inventory => &given.inventory,
        Part::Memory => &given.memory,
        _ => &[],
    }
}

/// The case with other bytes in one part. The copy keeps its 512 bytes.
fn with_bytes(case: &Case, part: Part, bytes: Vec<u8>) -> Case {
    let mut changed = case.clone();
    match (&mut changed, part) {
        (Case::Call(call), Part::Journal) => call.journal = bytes,
        (Case::Call(call), Part::Inventory) => call.inventory = bytes,
        (Case::Call(call), Part::Memory) => call.memory = bytes,
        (Case::Call(call), Part::Arguments) => call.args = bytes,
        (Case::Call(call), Part::Copy) if bytes.len() == 512 => call.registration.copy.copy_from_slice(&bytes),
        (Case::Run(run), Part::Memory) => run.memory = bytes,
        (Case::Run(run), Part::Platform) => run.platform = bytes,
        (Case::Run(run), Part::Copy) if bytes.len() == 512 => run.registration.copy.copy_from_slice(&bytes),
        (Case::ReadNodes { read, .. } | Case::ReadIndices(read) | Case::ReadProperties(read), Part::Area) => {
            read.area = bytes
        }
        (Case::Session(session), Part::Session) => session.records = bytes,
        (Case::Trace(case) | Case::Month(MonthCase::Trace { case, .. }), Part::Trace) => case.trace = bytes,
        (Case::State(case) | Case::Month(MonthCase::State { case, .. }), Part::Trace) => case.burst = bytes,
        (Case::Trace(case) | Case::Month(MonthCase::Trace { case, .. }), _) => give(&mut case.given, part, bytes),
        (Case::State(case) | Case::Month(MonthCase::State { case, .. }), _) => give(&mut case.given, part, bytes),
        (Case::Locations(case), Part::Area) => *case.area_mut() = bytes,
        (Case::Table(case), Part::Area) => *case.bytes_mut() = bytes,
        (Case::Locations(case), Part::Memory) => case.fixed_mut().into_iter().for_each(|fixed| *fixed = bytes.clone()),
        (Case::Tallies(case), _) => {
            let place = tallies_place(part).and_then(|place| case.part_mut(place));
            place.into_iter().for_each(|place| *place = bytes.clone())
        }
        (Case::Intake(case), Part::Trace) => case.set_stream(bytes),
        (Case::Intake(case), Part::Journal) => case.set_first(bytes),
        _ => {}
    }
    changed
}

/// The journals of a case of the tallies, which has three at the most.
fn tallies_place(part: Part) -> Option<usize> {
    match part {
        Part::Journal => Some(0),
        Part::Session => Some(1),
        Part::Inventory => Some(2),
        _ => None,
    }
}

fn give(given: &mut Given, part: Part, bytes: Vec<u8>) {
    match part {
        Part::Journal => given.journal = bytes,
        Part::Inventory => given.inventory = bytes,
        Part::Memory => given.memory = bytes,
        _ => {}
    }
}

/// Changes of what is no buffer, each of one sort of case; of several of one thing the simplest is the last.
const SIMPLER: [fn(&mut Case); 16] = [
    |case| of_run(case, |run| run.steps.truncate(2)),
    |case| of_run(case, |run| run.steps.truncate(1)),
    |case| of_run(case, |run| run.steps = vec![Step::Run]),
    |case| of_trace(case, |trace| trace.bursts.iter_mut().for_each(|burst| burst.end = false)),
    |case| of_trace(case, |trace| trace.bursts.clear()),
    |case| of_session(case, |session| session.plain = true),
    |case| of_listing(case, |listing| listing.edition = 0),
    |case| of_listing(case, |listing| listing.disturbances = listing.disturbances.min(1)),
    |case| of_listing(case, |listing| listing.disturbances = 0),
    |case| of_read(case, |read| read.out = 0),
    |case| of_call(case, |call| call.registration.length = 0),
    |case| of_call(case, |call| (call.edition, call.reading.edition) = (0, 1)),
    |case| of_call(case, |call| (call.edition, call.reading.edition) = (0, 0)),
    |case| of_call(case, |call| call.reading.flag = 0),
    |case| of_call(case, |call| call.reading.kind = 0),
    |case| of_call(case, |call| (call.edition, call.reading) = (0, ReadingRecord::NONE)),
];

/// A structure's copy without its last section, and without its first.
const FEWER_SECTIONS: [fn(&mut [u8; 512]); 2] = [
    |copy| copy[5] = copy[5].wrapping_sub(1),
    |copy| {
        copy[5] = copy[5].wrapping_sub(1);
        let first = word_at(copy, 8).unwrap_or(0);
        put_word(copy, 8, first.wrapping_add(40));
    },
];

fn of_session(case: &mut Case, change: impl Fn(&mut SessionCase)) {
    if let Case::Session(session) = case {
        change(session);
    }
}

fn of_run(case: &mut Case, change: impl Fn(&mut RunCase)) {
    if let Case::Run(run) = case {
        change(run);
    }
}

fn of_trace(case: &mut Case, change: impl Fn(&mut TraceCase)) {
    if let Case::Trace(trace) | Case::Month(MonthCase::Trace { case: trace, .. }) = case {
        change(trace);
    }
}

fn of_listing(case: &mut Case, change: impl Fn(&mut Listing)) {
    if let Case::Session(SessionCase { asked: Asked::Indices(listing), .. }) = case {
        change(listing);
    }
}

fn of_read(case: &mut Case, change: impl Fn(&mut ReadCase)) {
    if let Case::ReadNodes { read, .. } | Case::ReadIndices(read) | Case::ReadProperties(read) = case {
        change(read);
    }
}

fn of_call(case: &mut Case, change: impl Fn(&mut CallCase)) {
    if let Case::Call(call) = case {
        change(call);
    }
}

struct Shrinking<'a> {
    best: Case,
    differs: &'a mut dyn FnMut(&Case) -> bool,
    end: Instant,
}

/// A small case that still differs.
pub fn shrink(case: Case, differs: &mut dyn FnMut(&Case) -> bool) -> Case {
    let mut shrinking = Shrinking { best: case, differs, end: Instant::now() + MOST_TIME };
    shrinking.simplify();
    shrinking.remove_sections();
    shrinking.zero_figures();
    shrinking.remove_operations();
    for _ in 0..2 {
        OF_RECORDS.into_iter().for_each(|part| shrinking.remove_records(part));
        OF_ANY_LENGTH.into_iter().for_each(|part| shrinking.shorten(part));
        ALL.into_iter().for_each(|part| shrinking.zero(part));
    }
    shrinking.best
}

impl Shrinking<'_> {
    /// The time for it has passed.
    fn over(&self) -> bool {
        Instant::now() >= self.end
    }

    /// Keeps the candidate if it still differs.
    fn keep(&mut self, candidate: Case) -> bool {
        let differs = !self.over() && (self.differs)(&candidate);
        if differs {
            self.best = candidate;
        }
        differs
    }

    /// Changes that are no matter of bytes, one after the other.
    fn simplify(&mut self) {
        for change in SIMPLER {
            let mut candidate = self.best.clone();
            change(&mut candidate);
            self.keep(candidate);
        }
    }

    /// Leaves out sections of a dump, from the last one on and from the first one on.
    fn remove_sections(&mut self) {
        for change in FEWER_SECTIONS {
            for _ in 0..9 {
                let mut candidate = self.best.clone();
                if let Case::Run(run) = &mut candidate {
                    change(&mut run.registration.copy);
                    self.keep(candidate);
                }
            }
        }
    }

    /// Sets the figures of a case of the month or of its table to zero, one after the other.
    fn zero_figures(&mut self) {
        for place in 0..100 {
            let mut candidate = self.best.clone();
            let figure = match &mut candidate {
                Case::Month(month) => month.figures_mut().into_iter().nth(place),
                Case::Table(case) => case.figures_mut().get_mut(place),
                _ => None,
            };
            if let Some(figure) = figure {
                *figure = 0;
                self.keep(candidate);
            }
        }
    }

    /// Leaves out operations on a kept journal and steps of an intake, from the last one on.
    fn remove_operations(&mut self) {
        for place in (0..120).rev() {
            let mut candidate = self.best.clone();
            let fewer = match &mut candidate {
                Case::Tallies(case) => case.without_operation(place),
                Case::Intake(case) => case.without_step(place),
                _ => false,
            };
            if fewer {
                self.keep(candidate);
            }
        }
    }

    /// Removes records, many at a time first.
    fn remove_records(&mut self, part: Part) {
        let mut many = record_places(bytes_of(&self.best, part)).len();
        while many > 0 {
            let mut from = 0;
            while self.remove_some(part, &mut from, many) {}
            many /= 2;
        }
    }

    /// Tries to remove `many` records from `from` on, and steps over them where they are needed. False at the end.
    fn remove_some(&mut self, part: Part, from: &mut usize, many: usize) -> bool {
        let bytes = bytes_of(&self.best, part);
        let places = record_places(bytes);
        if *from >= places.len() || self.over() {
            return false;
        }
        let last = (*from + many).min(places.len()) - 1;
        let rest = [&bytes[..places[*from].0], &bytes[places[last].1..]].concat();
        if !self.keep(with_bytes(&self.best, part, rest)) {
            *from += many;
        }
        true
    }

    /// Cuts bytes off the end.
    fn shorten(&mut self, part: Part) {
        let mut step = bytes_of(&self.best, part).len();
        while step > 0 && !self.over() {
            let bytes = bytes_of(&self.best, part);
            if step > bytes.len() || !self.keep(with_bytes(&self.best, part, bytes[..bytes.len() - step].to_vec())) {
                step /= 2;
            }
        }
    }

    /// Sets bytes to zero, or to the letter a where zero will not do, many at a time first.
    fn zero(&mut self, part: Part) {
        let (length, end) = (bytes_of(&self.best, part).len(), self.end);
        let least = length / 1024 + 1;
        let mut many = length;
        while many >= least {
            for from in (0..length).step_by(many).take_while(|_| Instant::now() < end) {
                let _ = self.fill_some(part, from, many, 0) || self.fill_some(part, from, many, b'a');
            }
            many /= 2;
        }
    }

    /// True where the bytes are such already or were made so.
    fn fill_some(&mut self, part: Part, from: usize, many: usize, value: u8) -> bool {
        let mut bytes = bytes_of(&self.best, part).to_vec();
        let end = (from + many).min(bytes.len());
        if bytes[from..end].iter().all(|&byte| byte == value) {
            return true;
        }
        bytes[from..end].fill(value);
        let candidate = with_bytes(&self.best, part, bytes);
        self.keep(candidate)
    }
}

#[cfg(test)]
mod tests {
    use super::*;
    use crate::compare::{self, Sides};
    use crate::coverage::Coverage;
    use crate::generate;
    use crate::intakes::subject::Receiving;
    use crate::library::{Edit, Reading, Registration, Replay};
    use crate::locations::subject::Locating;
    use crate::month::subject::Month;
    use crate::subject::{Answered, Ended, Fed, Feeding, Paper, Platform, Ran, Subject};
    use crate::tables::subject::Tabling;
    use crate::tallies::subject::Keeping;

    /// Gives number 9 where the journal holds a delete of node type 6, and where a dump copied a byte to address 0; clears the
    /// record where its number is 0.
    struct Faulty;

    impl Subject for Faulty {
        fn name(&self) -> &'static str {
            "faulty"
        }

        fn call(&self, args: &mut [u8], memory: &mut [u8], platform: &Platform) -> Answered {
            let mut answered = Paper.call(args, memory, platform);
            if platform.journal.windows(4).any(|part| part == [1, 0, 6, 0]) {
                answered.number = 9;
            }
            if platform.reading.number == 0 {
                answered.reading = ReadingRecord::NONE;
            }
            answered
        }

        fn run_dump(&self, registration: &Registration, memory: &mut [u8], platform: &[u8]) -> Ran {
            let before = memory.first().copied();
            let ran = Paper.run_dump(registration, memory, platform);
            Ran { number: if memory.first().copied() == before { ran.number } else { 9 }, ..ran }
        }

        fn no_reading(&self) -> ReadingRecord {
            Paper.no_reading()
        }

        fn edit(&self, edition: u32) -> Edit {
            Paper.edit(edition)
        }

        fn replay_start(&self, edition: u32) -> Replay {
            Paper.replay_start(edition)
        }

        fn replay_feed(&self, feeding: Feeding, replay: &Replay, bytes: &[u8]) -> Fed {
            Paper.replay_feed(feeding, replay, bytes)
        }

        fn replay_end(&self, replay: &Replay) -> Ended {
            Paper.replay_end(replay)
        }

        fn month(&self) -> &dyn Month {
            Paper.month()
        }

        fn tabling(&self) -> &dyn Tabling {
            Paper.tabling()
        }

        fn keeping(&self) -> &dyn Keeping {
            Paper.keeping()
        }

        fn receiving(&self) -> &dyn Receiving {
            Paper.receiving()
        }

        fn locating(&self) -> &dyn Locating {
            Paper.locating()
        }

        fn read_nodes(&self, area: &[u8], scope: u32, out: &mut [u32]) -> Reading {
            Paper.read_nodes(area, scope, out)
        }

        fn read_indices(&self, area: &[u8], out: &mut [u64]) -> Reading {
            Paper.read_indices(area, out)
        }

        fn read_properties(&self, area: &[u8], out: &mut [u32]) -> Reading {
            Paper.read_properties(area, out)
        }
    }

    /// The first case with a difference for which this holds, made small.
    fn small(holds: impl Fn(&Case) -> bool) -> Case {
        let sides = Sides { paper: &Paper, tested: &Faulty };
        let mut coverage = Coverage::new();
        let mut differs = |case: &Case| holds(case) && compare::difference(sides, case, &mut coverage).is_some();
        let found = (0..4000).map(|number| generate::case(2, number)).find(|case| differs(case)).unwrap();
        let small = shrink(found, &mut differs);
        assert!(differs(&small));
        small
    }

    /// The first call of this sort, made small.
    fn small_call(holds: impl Fn(&CallCase) -> bool) -> CallCase {
        let small = small(|case| matches!(case, Case::Call(call) if holds(call)));
        match small {
            Case::Call(call) => call,
            _ => panic!("no call: {}", small.text()),
        }
    }

    #[test]
    fn a_fault_is_found_and_made_small() {
        let call = small_call(|call| call.reading.number != 0);
        assert_eq!((call.args.len(), call.memory.len()), (0, 0));
        assert!(call.journal.len() <= 10, "{}", call.text());
        assert_eq!((call.edition, call.reading), (0, ReadingRecord::NONE));
    }

    #[test]
    fn a_run_is_made_small() {
        let Case::Run(run) = small(|case| matches!(case, Case::Run(run) if run.steps.len() > 1)) else {
            panic!("no run");
        };
        assert!(run.memory.len() <= 8 && run.platform.len() <= 1, "{}", run.text());
        assert_eq!((run.steps.len(), run.registration.copy[5]), (2, 1));
    }

    #[test]
    fn a_record_is_made_small() {
        let call = small_call(|call| call.reading.number == 0);
        assert_eq!((call.args.len(), call.memory.len(), call.journal.len()), (0, 0, 0));
        assert_eq!((call.edition, call.reading), (0, ReadingRecord { number: 0, ..ReadingRecord::NONE }));
    }
}
