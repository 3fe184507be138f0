//! Replays a recorded session, and tells the first call that went astray.

mod difference;
mod flaw;
mod options;
mod progress;
#[path = "../shared/mod.rs"]
mod shared;
mod sources;
#[cfg(test)]
mod tests;
mod watch;
#[cfg(test)]
mod watching;

use draugsten::trace::RECORD_LIMIT;
use draugsten::{Edition, Replay, Report};
use options::Options;
use progress::Progress;
use shared::command::{Command, DONE, NOT_GOOD};
use shared::flaws::Flaws;
use shared::input::{self, Stream};
use shared::output::write;
use std::io::{self, ErrorKind, Read};
use std::process::ExitCode;
use watch::Watch;

/// What the agreement of calls is about: a trace has no bytes of memory after a call.
const COMPARED: &str = "compared: argument buffers; work areas are not part of a trace";

/// The bytes of a trace that are read at a time.
const BURST: usize = 65_536;

pub const REPLAY: Command = Command { name: "replay", help: include_str!("usage.txt") };

fn main() -> ExitCode {
    REPLAY.run(|given| options::judge(given).and_then(sources::check), run)
}

/// Done, if all calls agreed over a well-formed journal and inventory, and there was one if there has to be; or what could not be done, and what helps.
fn run(options: &Options) -> Result<u8, String> {
    let inputs = input::read_inputs(options.journal.as_deref(), options.inventory.as_deref())?;
    inputs.flaws.all().for_each(|flaw| REPLAY.say(flaw));
    let mut memory = input::read_memory(&options.memory)?;
    let mut trace = Stream::open("trace", options.trace.as_deref())?;
    REPLAY.say_waiting("trace", options.trace.as_deref());
    let mut replay = Replay::new(&mut memory, &inputs.journal, &inputs.inventory, Edition(options.edition));
    let mut watch = Watch::default();
    let report = play(&mut replay, &mut watch, &mut trace)?;
    let open = watch.open(&replay);
    write(&tell(report, &replay, options, &inputs.flaws, &open))?;
    let good = report.is_agreed() && !lacks_calls(report, options) && inputs.flaws == Flaws::default();
    Ok(if good { DONE } else { NOT_GOOD })
}

/// Replays a trace to its end, or to where it stops. What the watch leaves, at most two records, waits for more.
fn play(replay: &mut Replay<'_>, watch: &mut Watch, trace: &mut Stream) -> Result<Report, String> {
    let mut progress = Progress::new(trace.size());
    let (mut buffer, mut held) = (vec![0; 2 * RECORD_LIMIT + BURST], 0);
    loop {
        let size = read(trace, &mut buffer[held..]).map_err(|error| trace.failed(&error, progress.bytes()))?;
        let bytes = &buffer[..held + size];
        let taken = watch.feed(replay, bytes);
        progress.pass(size as u64, replay.records());
        if size == 0 {
            replay.feed(&bytes[taken..]);
        }
        if size == 0 || replay.is_stopped() {
            return Ok(replay.end());
        }
        held = bytes.len() - taken;
        buffer.copy_within(taken..taken + held, 0);
    }
}

fn read(trace: &mut Stream, buffer: &mut [u8]) -> io::Result<usize> {
    loop {
        match trace.file().read(buffer) {
            Err(error) if error.kind() == ErrorKind::Interrupted => {}
            done => return done,
        }
    }
}

/// Whether the trace has no call, and nobody said that it may have none.
fn lacks_calls(report: Report, options: &Options) -> bool {
    report == Report::Agreed { calls: 0 } && !options.allow_empty
}

/// The verdict, and below it what was compared and what is open at the end, or what the call or the record is that it names.
fn tell(report: Report, replay: &Replay<'_>, options: &Options, flaws: &Flaws, open: &[String]) -> String {
    if lacks_calls(report, options) {
        return tell_no_call(replay.records());
    }
    let mut lines = vec![report.to_string()];
    match report {
        Report::Agreed { calls: 0 } => {}
        Report::Agreed { .. } => {
            lines.push(String::from(COMPARED));
            lines.extend_from_slice(open);
        }
        Report::Differs { call, offset } => lines.extend(difference::tell(replay, call, offset, options, flaws)),
        Report::Malformed { record } => lines.push(flaw::tell(replay, record, &options.memory)),
    }
    lines.join("\n") + "\n"
}

/// Of a trace without a call: whether it is empty, or has records that set memory, so many.
fn tell_no_call(records: u64) -> String {
    let what = match records {
        0 => String::from("is empty"),
        1 => String::from("has 1 record, which sets memory"),
        _ => format!("has {records} records, which all set memory"),
    };
    format!("no call\nthe trace {what}: nothing was compared; if that is meant, give --allow-empty\n")
}
