//! Compares document 01, written out plainly, with the library: every answer and every byte, over random cases.

mod buffers;
mod case;
mod compare;
mod coverage;
mod crash;
mod dump;
mod fixed;
mod generate;
mod intakes;
mod library;
mod locations;
mod month;
mod options;
mod random;
mod replay;
mod session;
/// Of it, what a command without files needs.
#[allow(dead_code)]
mod shared;
mod shrink;
mod subject;
mod tables;
mod tallies;
mod text;

use case::Case;
use compare::Sides;
use coverage::Coverage;
use draugsten_compare::paper;
use options::Options;
use shared::command::{Command, DONE, NOT_GOOD};
use std::panic::{self, AssertUnwindSafe};
use std::process::ExitCode;
use std::time::{Duration, Instant};

/// The exit status if a difference was found.
const DIFFERENT: u8 = NOT_GOOD;

pub const COMPARE: Command = Command { name: "compare", help: include_str!("../usage.txt") };

fn main() -> ExitCode {
    COMPARE.run(options::judge, |options| Ok(run(options)))
}

fn run(options: &Options) -> u8 {
    let sides = Sides { paper: &subject::Paper, tested: subject::under_test() };
    if !options.quiet {
        tell_sides(sides);
    }
    crash::install();
    if options.fixed && options.only.is_none() && !run_fixed(sides, options.quiet) {
        return DIFFERENT;
    }
    // A panic is told as a difference, with its case.
    panic::set_hook(Box::new(|_| {}));
    let different = match options.only {
        Some(number) => run_only(sides, options, number),
        None => run_cases(sides, options),
    };
    if different {
        DIFFERENT
    } else {
        DONE
    }
}

fn tell_sides(sides: Sides) {
    println!("draugsten-compare: document 01 written out ({}) against {}", sides.paper.name(), sides.tested.name());
    println!(
        "compared: every answer, and every byte of the argument buffer, of memory, of the registration, of the reading \
        record and of out; every byte that a dump copies and tells; what a replay comes to, which states of one are \
        refused, and every figure of a month; every byte of a month's table, and every line of a text that is none; every byte, tally and refusal of a journal that is kept or that arrives in bursts, and \
        forecasts; every code that a lookup finds, and every step of a view"
    );
}

/// The readings with written-out values, on both sides.
fn run_fixed(sides: Sides, quiet: bool) -> bool {
    let failures = fixed::run(sides, quiet);
    failures.iter().for_each(|failure| println!("{failure}"));
    failures.is_empty()
}

/// The first difference in a case; a panic counts as one.
fn difference(sides: Sides, case: &Case, coverage: &mut Coverage) -> Option<String> {
    let guarded = AssertUnwindSafe(|| compare::difference(sides, case, &mut *coverage));
    match panic::catch_unwind(guarded) {
        Ok(difference) => difference,
        Err(cause) => Some(format!("a panic: {}\n", panic_text(&*cause))),
    }
}

fn panic_text(cause: &(dyn std::any::Any + Send)) -> String {
    match (cause.downcast_ref::<&str>(), cause.downcast_ref::<String>()) {
        (Some(text), _) => text.to_string(),
        (_, Some(text)) => text.clone(),
        _ => String::from("no message"),
    }
}

/// Makes a case; a panic of the paper's side while it is made is told as a difference too.
fn generate(seed: u64, number: u64) -> Result<Case, String> {
    crash::running(seed, number);
    let made = panic::catch_unwind(|| generate::case(seed, number));
    made.map_err(|cause| format!("a panic while the case was made: {}\n", panic_text(&*cause)))
}

/// Runs all cases; true where one differs.
fn run_cases(sides: Sides, options: &Options) -> bool {
    let Options { cases, seed, quiet, .. } = *options;
    if !quiet {
        println!("{cases} random cases, seed {seed}");
    }
    let mut coverage = Coverage::new();
    let begin = Instant::now();
    let mut told = begin;
    for number in 0..cases {
        if compare_case(sides, seed, number, &mut coverage) {
            return true;
        }
        if !quiet && told.elapsed() >= Duration::from_secs(5) {
            told = Instant::now();
            println!("  {} of {cases} cases, {} s", number + 1, begin.elapsed().as_secs());
        }
    }
    if cases > 0 && !quiet {
        coverage.print();
    }
    if !quiet {
        println!("{:.1} s", begin.elapsed().as_secs_f64());
    }
    println!("compared {cases} cases, seed {seed}: no difference");
    false
}

/// Runs one case; true, with a report, where it differs.
fn compare_case(sides: Sides, seed: u64, number: u64, coverage: &mut Coverage) -> bool {
    let case = match generate(seed, number) {
        Ok(case) => case,
        Err(text) => {
            println!("difference in case {number}, seed {seed}\n{text}");
            return true;
        }
    };
    match difference(sides, &case, coverage) {
        Some(text) => {
            report(sides, seed, number, case, &text);
            true
        }
        None => false,
    }
}

/// Prints the difference, then the same case made small.
fn report(sides: Sides, seed: u64, number: u64, case: Case, text: &str) {
    println!("difference in case {number}, seed {seed}");
    println!("run it alone with: ./draugsten compare --seed {seed} --only {number}");
    println!("{text}");
    let mut unused = Coverage::new();
    let small = shrink::shrink(case, &mut |candidate| difference(sides, candidate, &mut unused).is_some());
    println!("made small: {}", small.text());
    if let Some(text) = difference(sides, &small, &mut unused) {
        println!("{text}");
    }
}

/// Runs one case alone and prints it; true where it differs.
fn run_only(sides: Sides, options: &Options, number: u64) -> bool {
    let Options { seed, quiet, .. } = *options;
    if !quiet {
        println!("case {number} alone, seed {seed}");
    }
    if let (Ok(case), false) = (generate(seed, number), quiet) {
        println!("{}", case.text());
    }
    let different = compare_case(sides, seed, number, &mut Coverage::new());
    if !different {
        println!("compared case {number}, seed {seed}: no difference");
    }
    different
}
