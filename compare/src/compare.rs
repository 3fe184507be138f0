//! Runs a case on both sides and tells the first difference.

use crate::buffers::{word_at, Lent};
use crate::case::{CallCase, Case, ReadCase};
use crate::coverage::Coverage;
use crate::dump;
use crate::intakes;
use crate::library::{Reading, ReadingRecord, Registration};
use crate::locations;
use crate::month;
use crate::replay;
use crate::session;
use crate::subject::{Answered, Subject};
use crate::tables;
use crate::tallies;
use crate::text::hex;

/// The two sides.
#[derive(Clone, Copy)]
pub struct Sides<'a> {
    pub paper: &'a dyn Subject,
    pub tested: &'a dyn Subject,
}

/// All that a call leaves.
pub struct CallResult {
    pub number: u32,
    pub registration: Registration,
    pub reading: ReadingRecord,
    pub rule: &'static str,
    pub args: Lent,
    pub memory: Lent,
}

impl CallResult {
    /// The status in the buffer, of a call with number 0.
    pub fn status(&self) -> Option<i32> {
        let args = self.args.content();
        let inputs = word_at(args, 4)? as usize;
        word_at(args, 12 + 4 * inputs).map(|word| word as i32)
    }

    /// "A call is answered when its number is 0 and its status 0 or 1; otherwise it is refused."
    pub fn answered(&self) -> bool {
        self.number == 0 && matches!(self.status(), Some(0 | 1))
    }

    fn text(&self) -> String {
        match self.number {
            0 => format!("number 0, status {}", self.status().unwrap_or(0)),
            number => format!("number {number}"),
        }
    }
}

pub fn run_call(subject: &dyn Subject, case: &CallCase) -> CallResult {
    let mut args = Lent::new(&case.args);
    let mut memory = Lent::new(&case.memory);
    let Answered { number, registration, reading, rule } =
        subject.call(args.content_mut(), memory.content_mut(), &case.platform());
    CallResult { number, registration, reading, rule, args, memory }
}

/// The results of the paper and of the side under test.
pub struct CallPair {
    pub paper: CallResult,
    pub tested: CallResult,
}

pub fn run_call_on_both(sides: Sides, case: &CallCase) -> CallPair {
    CallPair { paper: run_call(sides.paper, case), tested: run_call(sides.tested, case) }
}

/// The first byte in which two buffers differ, in words.
pub fn buffer_difference(sides: Sides, name: &str, paper: &Lent, tested: &Lent) -> Option<String> {
    let (place, left, right) = paper.first_difference(tested)?;
    let (paper_name, tested_name) = (sides.paper.name(), sides.tested.name());
    Some(format!("{name} differs from {place} on\n  {paper_name}: {}\n  {tested_name}: {}\n", hex(left), hex(right)))
}

pub fn registration_difference(sides: Sides, paper: &Registration, tested: &Registration) -> Option<String> {
    if paper == tested {
        return None;
    }
    let head = |side: &Registration| format!("phase {}, length {}", side.phase, side.length);
    let mut text = String::from("the registration differs\n");
    text += &format!("  {}: {}\n  {}: {}\n", sides.paper.name(), head(paper), sides.tested.name(), head(tested));
    let copies = buffer_difference(sides, "its copy", &Lent::new(&paper.copy), &Lent::new(&tested.copy));
    Some(text + &copies.unwrap_or_default())
}

pub fn reading_difference(sides: Sides, paper: &ReadingRecord, tested: &ReadingRecord) -> Option<String> {
    let side = |subject: &dyn Subject, record: &ReadingRecord| format!("  {}: {}\n", subject.name(), record.text());
    (paper != tested)
        .then(|| String::from("the reading record differs\n") + &side(sides.paper, paper) + &side(sides.tested, tested))
}

/// The first difference between two results of a call.
pub fn call_difference(sides: Sides, pair: &CallPair) -> Option<String> {
    let CallPair { paper, tested } = pair;
    let same = paper.number == tested.number
        && paper.registration == tested.registration
        && paper.reading == tested.reading
        && paper.args == tested.args
        && paper.memory == tested.memory;
    if same {
        return None;
    }
    let answers = format!("{}: {}; {}: {}\n", sides.paper.name(), paper.text(), sides.tested.name(), tested.text());
    let args = buffer_difference(sides, "the argument buffer", &paper.args, &tested.args);
    let memory = buffer_difference(sides, "memory", &paper.memory, &tested.memory);
    let registration = registration_difference(sides, &paper.registration, &tested.registration);
    let reading = reading_difference(sides, &paper.reading, &tested.reading);
    Some([Some(answers), args, memory, registration, reading].into_iter().flatten().collect())
}

/// The difference between what comes of an edit on both sides.
pub fn edit_difference(sides: Sides, edition: u32) -> Option<String> {
    let (paper, tested) = (sides.paper.edit(edition), sides.tested.edit(edition));
    (paper != tested).then(|| format!("{}: {paper:x?}; {}: {tested:x?}\n", sides.paper.name(), sides.tested.name()))
}

/// What a reading leaves: its result, and `out` with the guard numbers behind it.
pub struct ReadResult<T> {
    pub reading: Reading,
    out: Vec<T>,
}

/// Numbers behind `out` that nobody may write.
const GUARD_NUMBERS: usize = 6;

pub fn run_read_nodes(subject: &dyn Subject, scope: u32, case: &ReadCase) -> ReadResult<u32> {
    let mut out: Vec<u32> = (0..case.out + GUARD_NUMBERS).map(|place| 0xa5a5_0000 + place as u32).collect();
    let reading = subject.read_nodes(&case.area, scope, &mut out[..case.out]);
    ReadResult { reading, out }
}

pub fn run_read_indices(subject: &dyn Subject, case: &ReadCase) -> ReadResult<u64> {
    let mut out: Vec<u64> = (0..case.out + GUARD_NUMBERS).map(|place| 0xa5a5_a5a5_0000_0000 + place as u64).collect();
    let reading = subject.read_indices(&case.area, &mut out[..case.out]);
    ReadResult { reading, out }
}

pub fn run_read_properties(subject: &dyn Subject, case: &ReadCase) -> ReadResult<u32> {
    let mut out: Vec<u32> = (0..case.out + GUARD_NUMBERS).map(|place| 0xa5a5_0000 + place as u32).collect();
    let reading = subject.read_properties(&case.area, &mut out[..case.out]);
    ReadResult { reading, out }
}

impl<T: Copy> ReadResult<T> {
    /// The entries in `out`, each of so many numbers.
    pub fn entries<const ELEMENTS: usize>(&self) -> Vec<[T; ELEMENTS]> {
        let room = (self.out.len() - GUARD_NUMBERS) / ELEMENTS;
        let entries = room.min(self.reading.entries as usize);
        let whole = self.out.chunks_exact(ELEMENTS).take(entries);
        whole.map(|entry| std::array::from_fn(|element| entry[element])).collect()
    }
}

/// The first difference between two readings of one area.
pub fn read_difference<T: PartialEq + std::fmt::LowerHex>(
    sides: Sides,
    paper: &ReadResult<T>,
    tested: &ReadResult<T>,
) -> Option<String> {
    if paper.reading == tested.reading && paper.out == tested.out {
        return None;
    }
    let mut text =
        format!("{}: {:?}\n{}: {:?}\n", sides.paper.name(), paper.reading, sides.tested.name(), tested.reading);
    if let Some(at) = paper.out.iter().zip(&tested.out).position(|(left, right)| left != right) {
        let (left, right) = (&paper.out[at], &tested.out[at]);
        text += &format!("out differs from number {at} on: {left:x} and {right:x}\n");
    }
    Some(text)
}

/// The first difference in a case, if there is one; counts what the case covered.
pub fn difference(sides: Sides, case: &Case, coverage: &mut Coverage) -> Option<String> {
    match case {
        Case::Call(call) => {
            let pair = run_call_on_both(sides, call);
            coverage.call(call, &pair.paper);
            call_difference(sides, &pair)
        }
        Case::Run(case) => dump::difference(sides, case, coverage),
        Case::Edit(edition) => {
            coverage.edit(*edition);
            edit_difference(sides, *edition)
        }
        Case::ReadNodes { scope, read } => {
            let paper = run_read_nodes(sides.paper, *scope, read);
            let tested = run_read_nodes(sides.tested, *scope, read);
            coverage.node_area(*scope, read, &paper.reading);
            read_difference(sides, &paper, &tested)
        }
        Case::ReadIndices(read) => {
            let (paper, tested) = (run_read_indices(sides.paper, read), run_read_indices(sides.tested, read));
            coverage.index_area(read, &paper.reading);
            read_difference(sides, &paper, &tested)
        }
        Case::ReadProperties(read) => {
            let (paper, tested) = (run_read_properties(sides.paper, read), run_read_properties(sides.tested, read));
            coverage.property_area(read, &paper.reading);
            read_difference(sides, &paper, &tested)
        }
        Case::Session(case) => session::difference(sides, case, coverage),
        Case::Trace(case) => replay::difference(sides, case, coverage),
        Case::State(case) => replay::states::difference(sides, case, coverage),
        Case::Month(case) => month::difference(sides, case, coverage),
        Case::Table(case) => tables::difference(sides, case, coverage),
        Case::Tallies(case) => tallies::difference(sides, case, coverage),
        Case::Intake(case) => intakes::difference(sides, case, coverage),
        Case::Locations(case) => locations::difference(sides, case, coverage),
    }
}

#[cfg(test)]
mod tests {
    use super::*;
    use crate::generate;
    use crate::subject::Paper;

    #[test]
    fn the_paper_is_like_itself() {
        let sides = Sides { paper: &Paper, tested: &Paper };
        let mut coverage = Coverage::new();
        for number in 0..4000 {
            assert_eq!(difference(sides, &generate::case(2, number), &mut coverage), None);
        }
    }
}
