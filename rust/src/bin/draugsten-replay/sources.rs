//! The files that a replay is given.

use crate::options::Options;
use crate::shared::input::Memory;
use crate::shared::sources::{self, Source};

/// Refuses two files of which the first would take the bytes of the second.
pub fn check(options: Options) -> Result<Options, String> {
    sources::check(&sources(&options)).map(|()| options)
}

/// The files in the order in which they are read.
fn sources(options: &Options) -> Vec<Source> {
    let memory = match &options.memory {
        Memory::File(path) => Some(path),
        Memory::Zeros(_) => None,
    };
    let named = [
        ("--memory", memory),
        ("--journal", options.journal.as_ref()),
        ("--inventory", options.inventory.as_ref()),
        ("the trace", options.trace.as_ref()),
    ];
    let mut sources: Vec<Source> = named.into_iter().filter_map(|(name, path)| Source::file(name, path?)).collect();
    if options.trace.is_none() {
        sources.extend(Source::standard_input("standard input, the trace,"));
    }
    sources
}
