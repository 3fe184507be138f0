//! Replays the sessions of a list, and writes the totals over their calls.

mod account;
mod digest;
mod lines;
mod list;
mod merging;
mod month;
mod options;
mod pool;
mod progress;
mod session;
#[path = "../shared/mod.rs"]
mod shared;
mod table;

use list::List;
use month::{End, Month};
use options::Options;
use pool::{Next, Played, Pool};
use progress::Progress;
use shared::command::{Command, DONE, NOT_DONE, NOT_GOOD};
use shared::flaws::Flaws;
use std::fmt::Display;
use std::process::ExitCode;
use std::thread;

pub const MONTH: Command = Command { name: "month", help: include_str!("usage.txt") };

fn main() -> ExitCode {
    MONTH.run(|given| options::judge(given).and_then(options::check), |options| run(options).map(status))
}

/// The exit status of what a month came to.
fn status(end: End) -> u8 {
    match end {
        End::Added => DONE,
        End::Refused | End::Empty => NOT_GOOD,
        End::Unread => NOT_DONE,
    }
}

fn say(message: impl Display) {
    MONTH.say(message);
}

/// What the month came to; or what could not be done, and what helps. Tables are added first, then the sessions in the
/// list's order, so that it does not depend on the threads which of them is refused.
fn run(options: &Options) -> Result<End, String> {
    let list = List::open(options.list.as_deref())?;
    MONTH.say_waiting("list", options.list.as_deref());
    let mut month = Month::new(options, Progress::new(list.size()));
    for path in &options.tables {
        month.merge(path)?;
    }
    let cores = || thread::available_parallelism().map_or(1, usize::from);
    let pool = Pool::start(list, options.threads.unwrap_or_else(cores))?;
    let (mut bytes, mut malformed) = (0, false);
    loop {
        match pool.next() {
            Next::Played(played) => {
                bytes = played.bytes;
                malformed |= tell_flaws(&mut month, &played);
                month.add(played)?;
            }
            Next::Nothing => {}
            Next::End(end) => {
                end?;
                return month.write().map(|end| if malformed && end == End::Added { End::Refused } else { end });
            }
        }
        month.progress.tell(month.sessions(), bytes, pool.bytes());
    }
}

/// Says what is wrong with the journal and the inventory of a session, and whether something is. Its calls count also then.
fn tell_flaws(month: &mut Month<'_>, played: &Played) -> bool {
    for flaw in played.flaws.all() {
        month.progress.clear();
        say(format_args!("line {} of the list: {flaw}", played.line));
    }
    played.flaws != Flaws::default()
}
