//! Shows the records of a journal, an inventory or a trace.

mod buffers;
mod form;
mod items;
mod json;
mod object;
mod options;
mod rest;
#[path = "../shared/mod.rs"]
mod shared;
mod show;
mod text;
mod walk;

use options::Options;
use shared::command::{Command, DONE, NOT_DONE, NOT_GOOD};
use show::{show, Stop};
use std::io::{self, BufWriter, Write};
use std::process::ExitCode;

/// The bytes that are written at a time.
const PART: usize = 262_144;

pub const SHOW: Command = Command { name: "show", help: include_str!("usage.txt") };

fn main() -> ExitCode {
    SHOW.run(options::judge, run)
}

/// Done, if all that was asked for is shown. What comes before a failure is written too.
fn run(options: &Options) -> Result<u8, String> {
    let mut out = BufWriter::with_capacity(PART, io::stdout().lock());
    let shown = show(options, &mut out);
    let written = out.flush().map_err(Stop::of_writing);
    match shown.and_then(|shown| written.map(|()| shown)) {
        Ok(true) => Ok(DONE),
        Ok(false) => Ok(NOT_GOOD),
        Err(Stop::Said(message)) => Err(message),
        Err(Stop::Closed) => Ok(NOT_DONE),
    }
}
