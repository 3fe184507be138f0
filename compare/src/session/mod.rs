//! Sessions: lists of calls over one journal or one inventory up to status 0, with refused calls of any sort between.
//! Beside the comparison of every byte, the answered calls have to hand out the whole list, in order, once.

mod account;
mod indices;
mod nodes;
mod properties;

use crate::case::{Asked, CallCase, ReadCase, SessionCase};
use crate::compare::{self, CallPair, CallResult, Sides};
use crate::coverage::Coverage;
use crate::generate;
use crate::library::{ReadingRecord, Registration};
use crate::random::Random;

/// A session under way. What goes wrong is told as text.
struct Run<'a> {
    sides: Sides<'a>,
    case: &'a SessionCase,
    random: Random,
    memory: Vec<u8>,
    registration: Registration,
    edition: u32,
    reading: ReadingRecord,
    counts: Counts,
}

/// What a session came to.
#[derive(Default)]
pub struct Counts {
    /// Calls of the sessions themselves, not of others between.
    pub answered: u64,
    pub refused: u64,
    /// The entries that came.
    pub entries: u64,
    /// 1 where a session of get-indices came to its end: at the top there may be nothing to read and no edit.
    pub to_the_end: u64,
    pub edits: u64,
    pub edits_at_the_top: u64,
    /// Calls with -4.
    pub changed: u64,
    /// Readings that were begun afresh, since they could not go on.
    pub begun_afresh: u64,
    /// Readings that were begun between the calls of the session.
    pub other_readings: u64,
}

/// Room for every entry that an area can hold.
const ROOM: usize = 3 * 1024;

/// The words of every property that an area can hold.
const PROPERTY_ROOM: usize = 5 * 679;

pub fn difference(sides: Sides, case: &SessionCase, coverage: &mut Coverage) -> Option<String> {
    let mut random = Random::new(case.seed);
    let pages = random.between(1, 3);
    let memory = generate::memories::memory(&mut random, 4096 * pages);
    let registration = generate::registrations::any(&mut random);
    let edition = generate::reading_records::edition(&mut random);
    let reading = generate::reading_records::any(&mut random);
    let mut run = Run { sides, case, random, memory, registration, edition, reading, counts: Counts::default() };
    let handed_out = match &case.asked {
        Asked::Nodes(wanted) => nodes::run(&mut run, wanted),
        Asked::Indices(listing) => indices::run(&mut run, *listing),
        Asked::Properties(phandles) => properties::run(&mut run, phandles),
    };
    let counts = run.counts;
    match handed_out {
        Ok(entries) => {
            coverage.session(&case.asked, &Counts { entries, ..counts });
            None
        }
        Err(text) => Some(format!("after {} answered and {} refused calls\n{text}", counts.answered, counts.refused)),
    }
}

/// "demand 1 reads the record beside the work area, and that clearing as its one exception": a call that is no answered
/// one of get-indices keeps the record, but for -4.
fn keeps_record(call: &CallCase, result: &CallResult) -> bool {
    match (result.number, result.status()) {
        (0, Some(-4)) => result.reading == ReadingRecord::NONE,
        (0, Some(0 | 1)) if call.args.starts_with(&[0, 0, 0, 2]) => true,
        _ => result.reading == call.reading,
    }
}

impl Run<'_> {
    /// The call on both sides, which have to agree.
    fn both(&self, call: &CallCase) -> Result<CallPair, String> {
        let pair = compare::run_call_on_both(self.sides, call);
        match compare::call_difference(self.sides, &pair) {
            Some(text) => Err(format!("{text}of this {}", call.text())),
            None => Ok(pair),
        }
    }

    /// The call on both sides, which have to agree; a refused one leaves what is carried.
    fn judged(&mut self, call: &CallCase) -> Result<CallResult, String> {
        let result = self.both(call)?.paper;
        if !keeps_record(call, &result) {
            return Err(format!("the call left another reading record, this {}", call.text()));
        }
        if result.answered() {
            return Ok(result);
        }
        self.counts.refused += 1;
        if result.memory.content() == call.memory && result.registration == call.registration {
            Ok(result)
        } else {
            Err(format!("a refused call left other memory or another registration, of this {}", call.text()))
        }
    }

    /// A well-made call of another token than get-indices, which is answered; its memory is the next one's.
    fn well_made(&mut self, call: &CallCase) -> Result<CallResult, String> {
        let result = self.judged(call)?;
        if !result.answered() {
            return Err(format!("a well-made call was refused, this {}", call.text()));
        }
        self.counts.answered += 1;
        self.memory.copy_from_slice(result.memory.content());
        Ok(result)
    }

    /// Between calls the operating system may write anywhere in memory.
    fn write_anywhere(&mut self) {
        let at = self.random.below(self.memory.len());
        let end = (at + self.random.below(600)).min(self.memory.len());
        self.random.fill(&mut self.memory[at..end]);
    }

    /// The entries of a node area of this scope, on which both readers have to agree.
    fn read_nodes(&self, area: &[u8], scope: u32) -> Result<Vec<[u32; 3]>, String> {
        let case = ReadCase { area: area.to_vec(), out: ROOM };
        let paper = compare::run_read_nodes(self.sides.paper, scope, &case);
        let tested = compare::run_read_nodes(self.sides.tested, scope, &case);
        match (compare::read_difference(self.sides, &paper, &tested), paper.reading.refusal) {
            (Some(text), _) => Err(text),
            (None, 0) => Ok(paper.entries()),
            (None, refusal) => Err(format!("an answered call's area is refused: {refusal}\n")),
        }
    }

    /// The entries of an index area, on which both readers have to agree.
    fn read_indices(&self, area: &[u8]) -> Result<Vec<[u64; 3]>, String> {
        let case = ReadCase { area: area.to_vec(), out: ROOM };
        let paper = compare::run_read_indices(self.sides.paper, &case);
        let tested = compare::run_read_indices(self.sides.tested, &case);
        match (compare::read_difference(self.sides, &paper, &tested), paper.reading.refusal) {
            (Some(text), _) => Err(text),
            (None, 0) => Ok(paper.entries()),
            (None, refusal) => Err(format!("an answered call's area is refused: {refusal}\n")),
        }
    }

    /// The state of a property area and its properties, on which both readers have to agree.
    fn read_properties(&self, area: &[u8]) -> Result<(u32, Vec<[u32; 5]>), String> {
        let case = ReadCase { area: area.to_vec(), out: PROPERTY_ROOM };
        let paper = compare::run_read_properties(self.sides.paper, &case);
        let tested = compare::run_read_properties(self.sides.tested, &case);
        match (compare::read_difference(self.sides, &paper, &tested), paper.reading.refusal) {
            (Some(text), _) => Err(text),
            (None, 0) => Ok((paper.reading.state_or_zero, paper.entries())),
            (None, refusal) => Err(format!("an answered call's area is refused: {refusal}\n")),
        }
    }
}

/// The list that came so far against the whole one: it is a beginning of it, and the whole where the session is done.
fn judge_list<T: PartialEq>(got: &[T], whole: &[T], before: usize, status: i32) -> Result<(), String> {
    if !whole.starts_with(got) {
        return Err(format!("the first {} entries are not those of the list\n", got.len()));
    }
    if status == 0 && got.len() < whole.len() {
        return Err(format!("status 0 after {} of {} entries\n", got.len(), whole.len()));
    }
    if status == 1 && (got.len() == before || got.len() == whole.len()) {
        return Err(String::from("status 1 with nothing handed out or nothing left\n"));
    }
    Ok(())
}
