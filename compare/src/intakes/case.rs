//! The cases of intakes.

use crate::library::intakes::Intake;
use crate::tallies::case::Operation;
use crate::text;

/// What is done with an intake.
#[derive(Clone)]
pub enum Step {
    /// The next bytes of the stream, so many.
    Burst(usize),
    End,
    /// Something that is done with its journal between bursts.
    Journal(Operation),
    /// Every byte of the store behind the held ones gets this value, by somebody else.
    Overwrite(u8),
}

impl Step {
    pub fn name(&self) -> &'static str {
        match self {
            Step::Burst(_) => "burst",
            Step::End => "end",
            Step::Journal(operation) => operation.name(),
            Step::Overwrite(_) => "bytes behind the held ones change",
        }
    }

    fn text(&self) -> String {
        match self {
            Step::Burst(length) => format!("{length}"),
            Step::Journal(Operation::Append(bytes) | Operation::Join(bytes)) => {
                format!("({} of {} bytes)", self.name(), bytes.len())
            }
            _ => format!("({})", self.name()),
        }
    }
}

/// So many steps are told.
const MOST_STEPS: usize = 40;

/// A stream that comes to an intake over a journal in a buffer of so many bytes. The journal may hold records already, the
/// store has so many bytes, and the first record of the stream has this number.
#[derive(Clone)]
pub struct StreamCase {
    pub first: Vec<u8>,
    pub size: usize,
    pub store: usize,
    pub number: u64,
    pub stream: Vec<u8>,
}

impl StreamCase {
    fn text(&self) -> String {
        let StreamCase { first, size, store, number, stream } = self;
        let head = format!("a buffer of {size} bytes, a store of {store}, from record {number} on\n");
        head + &text::records("first in the journal", first) + &text::records("stream", stream)
    }
}

#[derive(Clone)]
pub enum IntakeCase {
    /// A stream in steps. Bursts may be more or fewer than it has bytes; what they leave of it comes in one more.
    Steps { case: StreamCase, steps: Vec<Step> },
    /// Every cutting of a short stream, with bursts of nothing between in some of them.
    Cuttings(StreamCase),
    /// Every cutting of a stream in two.
    Halves(StreamCase),
    /// A burst and an end of an intake that stands anywhere, also where none can.
    State { buffer: Vec<u8>, store: Vec<u8>, intake: Intake, bytes: Vec<u8> },
}

impl IntakeCase {
    pub fn text(&self) -> String {
        match self {
            IntakeCase::Steps { case, steps } => {
                let told: Vec<String> = steps.iter().take(MOST_STEPS).map(Step::text).collect();
                let more = if steps.len() > MOST_STEPS { " .." } else { "" };
                format!("an intake in bursts: {}{more}\n  {}", told.join(" "), case.text())
            }
            IntakeCase::Cuttings(case) => format!("an intake, every cutting\n  {}", case.text()),
            IntakeCase::Halves(case) => format!("an intake, every cutting in two\n  {}", case.text()),
            IntakeCase::State { buffer, store, intake, bytes } => {
                let held = &store[..store.len().min(intake.held as usize)];
                let sizes = format!("a buffer of {} bytes, a store of {}", buffer.len(), store.len());
                let told = text::records("held", held) + &text::records("burst", bytes);
                format!("a burst of an intake: {}, {sizes}\n{told}", intake.text())
            }
        }
    }

    fn stream_case(&self) -> Option<&StreamCase> {
        match self {
            IntakeCase::Steps { case, .. } | IntakeCase::Cuttings(case) | IntakeCase::Halves(case) => Some(case),
            IntakeCase::State { .. } => None,
        }
    }

    fn stream_case_mut(&mut self) -> Option<&mut StreamCase> {
        match self {
            IntakeCase::Steps { case, .. } | IntakeCase::Cuttings(case) | IntakeCase::Halves(case) => Some(case),
            IntakeCase::State { .. } => None,
        }
    }

    /// The bytes that arrive, which are made smaller.
    pub fn stream(&self) -> &[u8] {
        match self {
            IntakeCase::State { bytes, .. } => bytes,
            _ => self.stream_case().map_or(&[], |case| &case.stream),
        }
    }

    pub fn set_stream(&mut self, stream: Vec<u8>) {
        match self {
            IntakeCase::State { bytes, .. } => *bytes = stream,
            _ => self.stream_case_mut().into_iter().for_each(|case| case.stream = stream.clone()),
        }
    }

    /// What the journal holds before the stream, which is made smaller too.
    pub fn first(&self) -> &[u8] {
        self.stream_case().map_or(&[], |case| &case.first)
    }

    pub fn set_first(&mut self, first: Vec<u8>) {
        self.stream_case_mut().into_iter().for_each(|case| case.first = first.clone());
    }

    /// Leaves out a step; false where there is no such one.
    pub fn without_step(&mut self, place: usize) -> bool {
        match self {
            IntakeCase::Steps { steps, .. } if place < steps.len() => {
                steps.remove(place);
                true
            }
            _ => false,
        }
    }
}
