//! A line that tells how far something is, on standard error where that is a terminal.

use std::io::{self, IsTerminal, Write};
use std::time::{Duration, Instant};

/// The time from the beginning, and from one line to the next.
pub const PAUSE: Duration = Duration::from_millis(300);

pub struct Line {
    told: Instant,
    on: bool,
    width: usize,
}

impl Line {
    pub fn new() -> Line {
        Line { told: Instant::now(), on: io::stderr().is_terminal(), width: 0 }
    }

    /// Tells it, where the last time is long enough ago.
    pub fn tell(&mut self, text: impl FnOnce() -> String) {
        if self.on && self.told.elapsed() >= PAUSE {
            self.told = Instant::now();
            self.show(&text());
        }
    }

    /// Takes the line away.
    pub fn clear(&mut self) {
        if self.width > 0 {
            self.show("");
            _ = write!(io::stderr(), "\r");
        }
    }

    /// Writes a line over the last one.
    fn show(&mut self, line: &str) {
        _ = write!(io::stderr(), "\r{line:<width$}", width = self.width);
        self.width = line.len();
    }
}

/// The line goes with what it tells of.
impl Drop for Line {
    fn drop(&mut self) {
        self.clear();
    }
}
