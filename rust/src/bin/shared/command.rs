//! How a command takes its arguments, and how it ends.

use super::arguments::Arguments;
use super::output;
use std::fmt::Display;
use std::io::{self, IsTerminal, Write};
use std::path::Path;
use std::process::ExitCode;

/// The exit statuses, as `./draugsten help` has them.
pub const DONE: u8 = 0;
pub const NOT_DONE: u8 = 1;
const WRONG_USAGE: u8 = 2;
pub const NOT_GOOD: u8 = 3;

/// A command: its name after `./draugsten`, and its help.
pub struct Command {
    pub name: &'static str,
    pub help: &'static str,
}

impl Command {
    /// Runs it with the arguments of the process. Its options are judged before anything is done; what is done ends in an
    /// exit status, or in what could not be done and what helps.
    pub fn run<O>(
        &self,
        judge: impl FnOnce(Arguments) -> Result<O, String>,
        run: impl FnOnce(&O) -> Result<u8, String>,
    ) -> ExitCode {
        let read = Arguments::read(self.help, std::env::args_os().skip(1));
        let done = match read.and_then(|arguments| arguments.map(judge).transpose()) {
            Ok(Some(options)) => run(&options),
            Ok(None) => output::write(self.help).map(|()| DONE),
            Err(message) => {
                self.say(message);
                _ = writeln!(io::stderr(), "./draugsten {} --help prints its arguments", self.name);
                Ok(WRONG_USAGE)
            }
        };
        ExitCode::from(done.unwrap_or_else(|message| {
            self.say(message);
            NOT_DONE
        }))
    }

    /// Standard error is the last place to say something at: if that fails, it stays unsaid.
    pub fn say(&self, message: impl Display) {
        _ = writeln!(io::stderr(), "draugsten-{}: {message}", self.name);
    }

    /// Says that standard input is read, in the place of a file, if it is a terminal: nothing else shows it there.
    pub fn say_waiting(&self, what: &str, file: Option<&Path>) {
        if file.is_none() && io::stdin().is_terminal() {
            self.say(format_args!("waiting for the {what} on standard input; {} names a file", what.to_uppercase()));
        }
    }
}
