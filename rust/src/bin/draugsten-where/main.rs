//! Prints the location code of an index, from an index area and the fixed list.

mod files;
mod options;
#[path = "../shared/mod.rs"]
mod shared;
mod text;

use draugsten::{lookup, NotLocated};
use options::Options;
use shared::command::{Command, DONE, NOT_GOOD};
use shared::output::write;
use shared::records;
use shared::visible::visible;
use std::process::ExitCode;

pub const WHERE: Command = Command { name: "where", help: include_str!("usage.txt") };

fn main() -> ExitCode {
    WHERE.run(|given| options::judge(given).and_then(options::check), run)
}

fn run(options: &Options) -> Result<u8, String> {
    let Options { index, area: path, fixed } = options;
    let (area, fixed) = (files::read(files::AREA, path)?, files::read(files::FIXED, fixed)?);
    match lookup(&area, &fixed, *index) {
        Ok(code) => return write(&format!("{}\n", visible(code))).map(|()| DONE),
        Err(NotLocated::Refused(refusal)) => {
            let name = records::named(files::AREA, path);
            WHERE.say(format_args!("{name} is {refusal}"));
        }
        Err(NotLocated::NotFound) => WHERE.say(text::not_found(*index, &fixed)),
    }
    Ok(NOT_GOOD)
}
