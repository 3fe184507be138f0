//! The run of a registered dump (M-104), with commands through the argument buffer before and behind it.

use crate::buffers::{arguments, Lent};
use crate::case::{CallCase, RunCase, Step};
use crate::compare::{buffer_difference, call_difference, registration_difference, run_call_on_both, Sides};
use crate::coverage::Coverage;
use crate::library::{ReadingRecord, Registration};
use crate::subject::{Ran, Subject};

/// A partition's dump on one side.
pub struct Dump<'a> {
    subject: &'a dyn Subject,
    pub memory: Lent,
    pub platform: Lent,
    pub registration: Registration,
}

impl<'a> Dump<'a> {
    pub fn new(subject: &'a dyn Subject, case: &RunCase) -> Dump<'a> {
        let [memory, platform] = [&case.memory, &case.platform].map(|bytes| Lent::new(bytes));
        Dump { subject, memory, platform, registration: case.registration }
    }

    pub fn run(&mut self) -> Ran {
        let ran = self.subject.run_dump(&self.registration, self.memory.content_mut(), self.platform.content());
        self.registration = ran.registration;
        ran
    }
}

/// The first difference in what is done with a dump, and in which step.
pub fn difference(sides: Sides, case: &RunCase, coverage: &mut Coverage) -> Option<String> {
    let [mut paper, mut tested] = [sides.paper, sides.tested].map(|subject| Dump::new(subject, case));
    let mut before = None;
    for (number, step) in case.steps.iter().enumerate() {
        coverage.dump_step(before, *step);
        let difference = match step {
            Step::Run => run_difference(sides, &mut paper, &mut tested, coverage),
            Step::Command(command) => {
                let call = command_case(case, *command, &paper);
                command_difference(sides, &mut paper, &mut tested, &call)
            }
        };
        if let Some(text) = difference {
            return Some(format!("step {}, {}: {text}", number + 1, step.text()));
        }
        before = Some(*step);
    }
    buffer_difference(sides, "platform memory", &Lent::new(&case.platform), &tested.platform)
}

/// One run on both sides.
fn run_difference(sides: Sides, paper: &mut Dump, tested: &mut Dump, coverage: &mut Coverage) -> Option<String> {
    let (registration, memory) = (paper.registration, paper.memory.clone());
    let (told, other) = (paper.run(), tested.run());
    coverage.run(&registration, memory.content(), paper.platform.content(), &told);
    if (told.number, told.status) != (other.number, other.status) {
        let side = |subject: &dyn Subject, ran: &Ran| {
            format!("{}: number {}, status {} {}\n", subject.name(), ran.number, ran.status as i32, ran.rule)
        };
        return Some(side(sides.paper, &told) + &side(sides.tested, &other));
    }
    registration_difference(sides, &told.registration, &other.registration)
        .or_else(|| buffer_difference(sides, "memory", &paper.memory, &tested.memory))
}

/// A command on both sides, which keep the registration that it gives.
fn command_difference(sides: Sides, paper: &mut Dump, tested: &mut Dump, call: &CallCase) -> Option<String> {
    let pair = run_call_on_both(sides, call);
    let difference = call_difference(sides, &pair);
    (paper.registration, tested.registration) = (pair.paper.registration, pair.tested.registration);
    difference
}

/// A command for the structure that the case names, over the memory that the steps so far left.
fn command_case(case: &RunCase, command: u32, dump: &Dump) -> CallCase {
    CallCase {
        args: arguments(3, &[command, case.address, case.registration.length], &[0x5555_5555]),
        memory: dump.memory.content().to_vec(),
        journal: Vec::new(),
        inventory: Vec::new(),
        edition: 0,
        registration: dump.registration,
        reading: ReadingRecord::NONE,
    }
}
