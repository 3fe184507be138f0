//! What is shown of a file.

use crate::buffers::Buffers;
use crate::form::Form;
use crate::items::{File, Item};
use crate::json::Json;
use crate::options::Options;
use crate::rest::Rest;
use crate::shared::input::{self, Stream};
use crate::shared::output;
use crate::shared::trace::Step;
use crate::text::Text;
use crate::walk::{recognise, walk, Ended, Failed};
use crate::SHOW;
use std::io::{self, ErrorKind, Read, Write};

/// Why a file is not shown to its end, though nothing of it is wrong.
pub enum Stop {
    /// What is to be said.
    Said(String),
    /// Whoever reads standard output has seen enough.
    Closed,
}

impl Stop {
    pub fn of_writing(error: io::Error) -> Stop {
        match error.kind() {
            ErrorKind::BrokenPipe => Stop::Closed,
            _ => Stop::Said(output::failed(&error)),
        }
    }
}

/// Whether all that is asked for is there, and shown.
pub fn show(options: &Options, out: &mut dyn Write) -> Result<bool, Stop> {
    let what = options.file.map_or("file", File::name);
    let name = input::name(what, options.path.as_deref());
    let mut stream = Stream::open(what, options.path.as_deref()).map_err(Stop::Said)?;
    SHOW.say_waiting("records", options.path.as_deref());
    let mut rest = Rest::new(stream.file());
    let shown = show_rest(options, &name, &mut rest, out);
    let read = rest.read();
    shown.map_err(|failed| match failed {
        Failed::Reading(error) => Stop::Said(stream.failed(&error, read)),
        Failed::Writing(error) => Stop::of_writing(error),
        Failed::Unknown(why) => {
            Stop::Said(format!("{name} does not say what it is: {why}; give --journal, --inventory or --trace"))
        }
    })
}

fn show_rest(options: &Options, name: &str, rest: &mut Rest<impl Read>, out: &mut dyn Write) -> Result<bool, Failed> {
    let form: &dyn Form = if options.json { &Json } else { &Text };
    let is_empty = rest.bytes().map_err(Failed::Reading)?.is_empty();
    if is_empty && !options.allow_empty && options.call.is_none() {
        return form.no_record(out, name, options.file).map(|()| false).map_err(Failed::Writing);
    }
    let file = options.file.map_or_else(|| recognise(rest), Ok)?;
    match options.call {
        Some(call) => show_call(call, rest, form, out),
        None => show_all(file, rest, form, out),
    }
}

fn show_all(file: File, rest: &mut Rest<impl Read>, form: &dyn Form, out: &mut dyn Write) -> Result<bool, Failed> {
    let ended = walk(rest, file, |place, item| form.item(out, place, item).map(|()| true))?;
    let written = match ended {
        Ended::Whole(counts) => form.end(out, file, counts).map(|()| true),
        Ended::Flaw(flaw) => form.malformed(out, file, &flaw).map(|()| false),
        Ended::Enough => Ok(true),
    };
    written.map_err(Failed::Writing)
}

/// Shows one call of a trace, and goes no further.
fn show_call(call: u64, rest: &mut Rest<impl Read>, form: &dyn Form, out: &mut dyn Write) -> Result<bool, Failed> {
    let ended = walk(rest, File::Trace, |place, item| match item {
        Item::Step(Step::Call { before, after }) if place.call == call => {
            form.call(out, place, &Buffers::new(before, after)).map(|()| false)
        }
        _ => Ok(true),
    })?;
    let written = match ended {
        Ended::Whole(counts) => form.no_call(out, call, counts).map(|()| false),
        Ended::Flaw(flaw) => form.malformed(out, File::Trace, &flaw).map(|()| false),
        Ended::Enough => Ok(true),
    };
    written.map_err(Failed::Writing)
}
