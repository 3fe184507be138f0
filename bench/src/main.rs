//! Measures the proved library beside straightforward Rust, the independent program, and bare ways to go over the same
//! bytes, all in one run.

mod bare;
mod check;
mod dump;
mod independent;
mod inputs;
mod intakes;
mod interface;
mod inventory;
mod journal;
mod library;
mod locations;
mod partition;
mod plain;
mod random;
mod report;
mod rows;
mod tallies;
mod timing;
mod trace;

use inputs::Inputs;
use report::Measured;
use rows::copying::{self, Copying};
use rows::{dumps, get_indices, growth, readers, replays, scans, slowest, update_nodes, update_properties, Row};
use std::panic;
use std::path::PathBuf;
use std::process::ExitCode;
use std::time::Duration;
use timing::Effort;

const USAGE: &str = "usage: draugsten-bench [--quick] [--runs=N] [--write=FOLDER]
  --quick         fewer turns
  --runs=N        measure N times
  --write=FOLDER  write BENCH.md and bench.svg there";

const FULL: Effort = Effort { time: Duration::from_millis(700), least: 9, most: 501 };
const QUICK: Effort = Effort { time: Duration::from_millis(20), least: 3, most: 51 };

/// The exit status where the sides differ.
const DIFFERENT: u8 = 3;

struct Options {
    effort: Effort,
    runs: usize,
    folder: Option<PathBuf>,
}

fn options(words: impl Iterator<Item = String>) -> Option<Options> {
    let mut options = Options { effort: FULL, runs: 1, folder: None };
    for word in words {
        match word.split_once('=') {
            None if word == "--quick" => options.effort = QUICK,
            Some(("--runs", runs)) => options.runs = runs.parse().ok().filter(|&runs| runs > 0)?,
            Some(("--write", folder)) => options.folder = Some(folder.into()),
            _ => return None,
        }
    }
    Some(options)
}

/// Measures all rows, and tells each.
fn rows(inputs: &Inputs, effort: Effort, mut tell: impl FnMut(Row)) {
    for (name, journal, wanted) in &inputs.journals {
        tell(scans::journal(name, journal, *wanted, effort));
    }
    for (name, inventory, asked) in &inputs.inventories {
        tell(scans::inventory(name, inventory, *asked, effort));
    }
    for (name, inventory, asked) in inputs.of_several_types() {
        tell(scans::search(name, inventory, *asked, effort));
    }
    for measure in [update_nodes::one_call, update_nodes::session] {
        for (name, journal, wanted) in &inputs.journals {
            tell(measure(name, journal, *wanted, effort));
        }
    }
    for measure in [update_properties::one_call, update_properties::session] {
        for (name, journal) in &inputs.properties {
            tell(measure(name, journal, effort));
        }
    }
    for (name, inventory, asked) in inputs.all_inventories() {
        tell(get_indices::one_call(name, inventory, *asked, effort));
    }
    for (name, inventory, asked) in &inputs.inventories {
        tell(get_indices::session(name, inventory, *asked, effort));
    }
    for (name, area) in &inputs.node_areas {
        tell(readers::nodes(name, area, effort));
    }
    for (name, area) in &inputs.index_areas {
        tell(readers::indices(name, area, effort));
    }
    for (name, area) in &inputs.property_areas {
        tell(readers::properties(name, area, effort));
    }
}

/// Holds the sides to each other over all that is measured; panics where they differ.
fn check_sides(inputs: &Inputs) {
    check::start();
    check::edits();
    for (_, journal, wanted) in &inputs.journals {
        check::journal_scan(journal);
        check::update_nodes(journal, *wanted);
    }
    for (_, journal) in inputs.properties.iter().chain(&inputs.copied) {
        check::update_properties(journal);
    }
    for (_, inventory, asked) in inputs.all_inventories() {
        check::inventory_scan(inventory, *asked);
        check::search(inventory, *asked);
        check::get_indices(inventory, *asked);
    }
    for (_, area) in &inputs.node_areas {
        check::read_nodes(area, readers::NODES_ROOM);
    }
    for (_, area) in &inputs.index_areas {
        check::read_indices(area, readers::INDICES_ROOM);
    }
    for (_, area) in &inputs.property_areas {
        check::read_properties(area, readers::PROPERTIES_ROOM);
    }
    for (_, _, recorded) in replays::sessions(inputs) {
        check::replay(&recorded);
        check::count(&recorded);
    }
    check::settings();
    check::dumps();
    check::tallies();
    check::intakes();
    check::locations();
    for size in growth::SIZES {
        check::update_nodes(&journal::mixed(size), inputs::SCOPE_1);
    }
}

/// The sessions of long values beside memcpy.
fn copies(inputs: &Inputs, effort: Effort) -> Vec<Copying> {
    inputs.copied.iter().map(|(name, journal)| copying::copying(name, journal, effort)).collect()
}

/// Measures and tells all rows.
fn tell_rows(inputs: &Inputs, effort: Effort) -> Vec<Row> {
    report::print_heading(effort);
    let mut told = Vec::new();
    rows(inputs, effort, |row| {
        report::print_row(&row);
        told.push(row);
    });
    told
}

/// One run.
fn measure(inputs: &Inputs, effort: Effort) -> Measured {
    let rows = tell_rows(inputs, effort);
    let growth = growth::growth(effort);
    report::print_growth(&growth);
    let copying = copies(inputs, effort);
    report::print_copying(&copying);
    let dumps = dumps::dumps(effort);
    report::print_dumps(&dumps);
    let tallies = rows::tallies::tallies(effort);
    report::print_tallies(&tallies);
    let intakes = rows::intakes::intakes(effort);
    report::print_intakes(&intakes);
    let locations = rows::locations::locations(effort);
    report::print_locations(&locations);
    let slowest = slowest::slowest(inputs, effort);
    report::print_slowest(&slowest);
    let replays = replays::replays(inputs, effort);
    report::print_replays(&replays);
    let settings = replays::settings(effort);
    report::print_settings(&settings);
    report::print_counted(&replays, &settings);
    let machine = report::machine();
    Measured {
        machine,
        effort,
        runs: 1,
        rows,
        growth,
        copying,
        dumps,
        tallies,
        intakes,
        locations,
        slowest,
        replays,
        settings,
    }
}

/// So many runs: the last one, with the ranges over all.
fn measure_runs(inputs: &Inputs, options: &Options) -> Measured {
    let mut measured = measure(inputs, options.effort);
    for _ in 1..options.runs {
        let before = std::mem::replace(&mut measured, measure(inputs, options.effort));
        measured.widen(&before);
    }
    report::print_ranges(&measured);
    measured
}

fn main() -> ExitCode {
    let Some(options) = options(std::env::args().skip(1)) else {
        eprintln!("{USAGE}");
        return ExitCode::from(2);
    };
    let made = panic::catch_unwind(|| {
        let inputs = inputs::inputs();
        check_sides(&inputs);
        inputs
    });
    let Ok(inputs) = made else {
        eprintln!("draugsten-bench: the sides differ, so nothing is measured; ./draugsten compare shows where");
        return ExitCode::from(DIFFERENT);
    };
    let measured = measure_runs(&inputs, &options);
    let Some(folder) = options.folder else {
        return ExitCode::SUCCESS;
    };
    if let Err(error) = report::write(&folder, &measured) {
        eprintln!("draugsten-bench: {} cannot be written: {error}", folder.display());
        return ExitCode::FAILURE;
    }
    ExitCode::SUCCESS
}
