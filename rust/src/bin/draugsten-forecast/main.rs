//! Prints from the tallies of a journal what update-nodes would answer.

mod options;
#[path = "../shared/mod.rs"]
mod shared;
mod text;

use draugsten::{forecast, recount};
use options::Options;
use shared::command::{Command, DONE, NOT_GOOD};
use shared::input::{self, Inputs};
use shared::output::write;
use std::process::ExitCode;

pub const FORECAST: Command = Command { name: "forecast", help: include_str!("usage.txt") };

fn main() -> ExitCode {
    FORECAST.run(options::judge, run)
}

fn run(options: &Options) -> Result<u8, String> {
    let Options { journal: path, scope, state } = options;
    let Inputs { journal, flaws, .. } = input::read_inputs(Some(path), None)?;
    if let Some(flaw) = flaws.journal {
        FORECAST.say(flaw);
        return Ok(NOT_GOOD);
    }
    let tallies = recount(&journal).expect("a journal without a flaw is well formed");
    let told = forecast(&tallies, *scope, *state);
    write(&format!("{}{}", text::tallies(&tallies), text::forecast(&tallies, *scope, *state, told)))?;
    Ok(DONE)
}
