//! A journal that arrives in bursts (M-109).

pub mod case;
pub mod subject;

use crate::buffers::Lent;
use crate::compare::{buffer_difference, Sides};
use crate::coverage::{burst_facts, Coverage};
use crate::library::intakes::{Burst, End, Intake};
use crate::subject::Subject;
use crate::tallies::case::Operation;
use crate::tallies::Journal;
use case::{IntakeCase, Step, StreamCase};

/// What fills a journal's buffer and the store before anything arrives.
const BUFFER_BYTE: u8 = 0x5a;
const STORE_BYTE: u8 = 0xc3;

/// An intake on one side: its journal, its store, and where it stands.
pub struct Receiver<'a> {
    subject: &'a dyn Subject,
    pub journal: Journal<'a>,
    pub store: Lent,
    number: u64,
    held: u64,
    fault: u32,
}

impl<'a> Receiver<'a> {
    pub fn new(subject: &'a dyn Subject, buffer: &[u8], store: &[u8], intake: &Intake) -> Receiver<'a> {
        let Intake { journal, number, held, fault } = *intake;
        let journal = Journal::new(subject, buffer, journal);
        Receiver { subject, journal, store: Lent::new(store), number, held, fault }
    }

    /// A receiver that begins over a journal with these records.
    fn start(subject: &'a dyn Subject, case: &StreamCase) -> Receiver<'a> {
        let (buffer, intake) = beginning(subject, case);
        Receiver::new(subject, &buffer, &vec![STORE_BYTE; case.store], &intake)
    }

    /// Begins again. The store keeps what it has: before the first burst it may hold anything.
    fn restart(&mut self, case: &StreamCase) {
        let (buffer, Intake { journal, number, held, fault }) = beginning(self.subject, case);
        self.journal = Journal::new(self.subject, &buffer, journal);
        (self.number, self.held, self.fault) = (number, held, fault);
    }

    pub fn intake(&self) -> Intake {
        Intake { journal: self.journal.kept, number: self.number, held: self.held, fault: self.fault }
    }

    pub fn burst(&mut self, bytes: &[u8]) -> Burst {
        let intake = self.intake();
        let (buffer, store) = (self.journal.buffer.content_mut(), self.store.content_mut());
        let burst = self.subject.receiving().burst(buffer, store, &intake, bytes);
        let Intake { journal, number, held, fault } = burst.intake;
        (self.journal.kept, self.number, self.held, self.fault) = (journal, number, held, fault);
        burst
    }

    pub fn end(&self) -> End {
        let intake = self.intake();
        self.subject.receiving().end(self.journal.buffer.content(), self.store.content(), &intake)
    }

    /// The bytes that are held, as far as the store has them.
    pub fn held(&self) -> &[u8] {
        let store = self.store.content();
        &store[..store.len().min(self.held as usize)]
    }

    fn overwrite(&mut self, byte: u8) {
        let held = self.held().len();
        self.store.content_mut()[held..].fill(byte);
    }
}

/// The journal's buffer that a stream finds, and the intake that it begins with.
fn beginning(subject: &dyn Subject, case: &StreamCase) -> (Vec<u8>, Intake) {
    let (keeping, receiving) = (subject.keeping(), subject.receiving());
    let mut buffer = vec![BUFFER_BYTE; case.size];
    let kept = keeping.join(&mut buffer, &keeping.cleared(), &case.first);
    (buffer, Intake { number: case.number, ..receiving.start(&kept.journal) })
}

/// Both sides.
struct Pair<'a> {
    sides: Sides<'a>,
    paper: Receiver<'a>,
    tested: Receiver<'a>,
}

pub fn difference(sides: Sides, case: &IntakeCase, coverage: &mut Coverage) -> Option<String> {
    let result = match case {
        IntakeCase::Steps { case, steps } => steps_difference(sides, case, steps, coverage),
        IntakeCase::Cuttings(case) => cuttings_difference(sides, case, coverage),
        IntakeCase::Halves(case) => halves_difference(sides, case, coverage),
        IntakeCase::State { buffer, store, intake, bytes } => {
            let [paper, tested] =
                [sides.paper, sides.tested].map(|subject| Receiver::new(subject, buffer, store, intake));
            let mut pair = Pair { sides, paper, tested };
            pair.end(coverage).and_then(|_| pair.burst(bytes, coverage)).and_then(|_| pair.end(coverage)).map(|_| ())
        }
    };
    result.err()
}

impl<'a> Pair<'a> {
    fn start(sides: Sides<'a>, case: &StreamCase) -> Pair<'a> {
        let [paper, tested] = [sides.paper, sides.tested].map(|subject| Receiver::start(subject, case));
        Pair { sides, paper, tested }
    }

    fn restart(&mut self, case: &StreamCase) {
        self.paper.restart(case);
        self.tested.restart(case);
    }

    /// Two texts of one thing, by the names of the sides.
    fn told(&self, what: &str, paper: String, tested: String) -> String {
        let (left, right) = (self.sides.paper.name(), self.sides.tested.name());
        format!("{what} differs\n  {left}: {paper}\n  {right}: {tested}\n")
    }

    /// What a burst gives, where it is the same on both sides and leaves the same.
    fn burst(&mut self, bytes: &[u8], coverage: &mut Coverage) -> Result<Burst, String> {
        let before = self.paper.intake();
        let arrives = burst_facts(&self.paper, bytes);
        let told = self.paper.burst(bytes);
        // "change nothing": what is refused from the beginning leaves the store as it was, behind the held bytes too.
        let kept = (told.number != 0 && told.intake == before).then(|| self.tested.store.clone());
        let other = self.tested.burst(bytes);
        coverage.arrived(arrives, &told);
        if (told.number, told.in_record, told.intake) != (other.number, other.in_record, other.intake) {
            let text = |burst: &Burst| {
                let Burst { number, in_record, intake, rule } = burst;
                format!("{number} in record {in_record} {rule}, {}", intake.text())
            };
            return Err(self.told("what a burst gives", text(&told), text(&other)));
        }
        if kept.is_some_and(|store| store != self.tested.store) {
            return Err(String::from("a burst that is refused changes the store\n"));
        }
        self.buffers().map(|()| told)
    }

    fn end(&mut self, coverage: &mut Coverage) -> Result<End, String> {
        let (told, other) = (self.paper.end(), self.tested.end());
        coverage.ended(&told);
        if told != other {
            return Err(self.told("an end", format!("{told:?}"), format!("{other:?}")));
        }
        self.buffers().map(|()| told)
    }

    fn operation(&mut self, operation: &Operation, coverage: &mut Coverage) -> Result<(), String> {
        let (told, other) = (self.paper.journal.apply(operation), self.tested.journal.apply(operation));
        coverage.between(&self.paper.intake(), operation, told.number);
        if (told.number, told.journal) != (other.number, other.journal) {
            return Err(self.told("what is kept", format!("{told:?}"), format!("{other:?}")));
        }
        self.buffers()
    }

    /// Every byte of the journal's buffer, and the bytes that are held. What stands behind these is left free.
    fn buffers(&self) -> Result<(), String> {
        let (paper, tested) = (&self.paper, &self.tested);
        let journal = buffer_difference(self.sides, "the buffer", &paper.journal.buffer, &tested.journal.buffer);
        let held = || {
            let [paper, tested] = [paper, tested].map(|side| Lent::new(side.held()));
            buffer_difference(self.sides, "what is held", &paper, &tested)
        };
        let guard = || (!tested.store.is_guarded()).then(|| String::from("a byte beside the store is written\n"));
        journal.or_else(held).or_else(guard).map_or(Ok(()), Err)
    }

    /// One cutting of a stream, in every third one with bursts of nothing between.
    fn cut(&mut self, stream: &[u8], cutting: u32, coverage: &mut Coverage) -> Result<(), String> {
        let mut from = 0;
        for to in 1..=stream.len() {
            if to == stream.len() || cutting >> (to - 1) & 1 == 1 {
                self.burst(&stream[from..to], coverage)?;
                from = to;
            }
            if cutting % 3 == 1 {
                self.burst(&[], coverage)?;
            }
        }
        self.end(coverage).map(|_| ())
    }

    fn step(&mut self, step: &Step, stream: &mut &[u8], coverage: &mut Coverage) -> Result<(), String> {
        match step {
            Step::Burst(length) => {
                let (bytes, rest) = stream.split_at(stream.len().min(*length));
                *stream = rest;
                self.burst(bytes, coverage).map(|_| ())
            }
            Step::End => self.end(coverage).map(|_| ()),
            Step::Journal(operation) => self.operation(operation, coverage),
            Step::Overwrite(byte) => {
                [&mut self.paper, &mut self.tested].into_iter().for_each(|side| side.overwrite(*byte));
                Ok(())
            }
        }
    }
}

/// The first difference in a list of steps, and in which of them.
fn steps_difference(sides: Sides, case: &StreamCase, steps: &[Step], coverage: &mut Coverage) -> Result<(), String> {
    let mut pair = Pair::start(sides, case);
    let mut stream = case.stream.as_slice();
    for (number, step) in steps.iter().enumerate() {
        let result = pair.step(step, &mut stream, coverage);
        result.map_err(|text| format!("step {}, {}: {text}", number + 1, step.name()))?;
    }
    pair.burst(stream, coverage)?;
    pair.end(coverage)?;
    if !steps.iter().any(|step| matches!(step, Step::Journal(_))) {
        whole_difference(&in_one_burst(sides, case), &pair.tested)?;
    }
    recount_difference(&pair.tested)
}

/// The stream in one burst, on the side under test.
fn in_one_burst<'a>(sides: Sides<'a>, case: &StreamCase) -> Receiver<'a> {
    let mut whole = Receiver::start(sides.tested, case);
    whole.burst(&case.stream);
    whole
}

/// "the records stored, the tallies and the first fault, with its record's number from 1, are those of the same bytes given
/// as one burst", on the side under test alone.
fn whole_difference(whole: &Receiver, tested: &Receiver) -> Result<(), String> {
    let same = whole.intake() == tested.intake()
        && whole.end() == tested.end()
        && whole.journal.buffer == tested.journal.buffer
        && whole.held() == tested.held();
    let text = || format!("in one burst {}, in several {}\n", whole.intake().text(), tested.intake().text());
    same.then_some(()).ok_or_else(text)
}

/// The tallies are those of the bytes in use.
fn recount_difference(tested: &Receiver) -> Result<(), String> {
    let Intake { journal, .. } = tested.intake();
    let recount = tested.subject.keeping().recount(tested.journal.bytes());
    let same = recount.number == 0 && recount.tallies == journal.tallies;
    let text = || format!("the recount of the bytes in use is {recount:?}, and {} is kept\n", journal.text());
    same.then_some(()).ok_or_else(text)
}

/// Each cutting of a short stream is a number: its bits say behind which bytes the stream is cut.
fn cuttings_difference(sides: Sides, case: &StreamCase, coverage: &mut Coverage) -> Result<(), String> {
    let (whole, mut pair) = (in_one_burst(sides, case), Pair::start(sides, case));
    for cutting in 0..1_u32 << case.stream.len().saturating_sub(1) {
        pair.restart(case);
        let result = pair.cut(&case.stream, cutting, coverage);
        let result = result.and_then(|()| whole_difference(&whole, &pair.tested));
        result.map_err(|text| format!("cutting {cutting:#b}: {text}"))?;
    }
    coverage.cut(pair.paper.fault, false);
    Ok(())
}

/// Each cutting in two, asked between what an end says.
fn halves_difference(sides: Sides, case: &StreamCase, coverage: &mut Coverage) -> Result<(), String> {
    let (whole, mut pair) = (in_one_burst(sides, case), Pair::start(sides, case));
    for at in 0..=case.stream.len() {
        pair.restart(case);
        let (first, second) = case.stream.split_at(at);
        let result = pair.burst(first, coverage).and_then(|_| pair.end(coverage));
        let result = result.and_then(|_| pair.burst(second, coverage)).and_then(|_| pair.end(coverage));
        let result = result.and_then(|_| whole_difference(&whole, &pair.tested));
        result.map_err(|text| format!("cut at {at}: {text}"))?;
    }
    coverage.cut(pair.paper.fault, true);
    Ok(())
}
