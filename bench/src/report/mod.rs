//! What is written of the measurement: the table as it goes, and on request a page and a plot.

mod locations;
mod markdown;
mod plot;
mod table;

pub use locations::print_locations;
pub use table::{
    print_copying, print_counted, print_dumps, print_growth, print_heading, print_intakes, print_ranges, print_replays,
    print_row, print_settings, print_slowest, print_tallies,
};

use crate::library;
use crate::rows::copying::Copying;
use crate::rows::dumps::Dumped;
use crate::rows::growth::Growth;
use crate::rows::intakes::Intakes;
use crate::rows::locations::Located;
use crate::rows::replays::{Fed, Replay, Setting};
use crate::rows::slowest::Slowest;
use crate::rows::tallies::Kept;
use crate::rows::{joined, Range, Row};
use crate::timing::Effort;
use std::path::Path;
use std::{fs, io};

/// All that was measured.
pub struct Measured {
    pub machine: String,
    pub effort: Effort,
    /// The number of runs. The rows are of the last one, their ranges over all.
    pub runs: usize,
    pub rows: Vec<Row>,
    pub growth: Vec<Growth>,
    pub copying: Vec<Copying>,
    pub dumps: Vec<Dumped>,
    pub tallies: Vec<Kept>,
    pub intakes: Intakes,
    pub locations: Vec<Located>,
    pub slowest: Vec<Slowest>,
    pub replays: Vec<Replay>,
    pub settings: Vec<Setting>,
}

impl Measured {
    /// Takes the ranges of the runs before into those of this one.
    pub fn widen(&mut self, before: &Measured) {
        self.runs += before.runs;
        for (row, before) in self.rows.iter_mut().zip(&before.rows) {
            row.ratios = joined(row.ratios, before.ratios);
        }
        for (dumped, before) in self.dumps.iter_mut().zip(&before.dumps) {
            dumped.ratios = joined(dumped.ratios, before.ratios);
        }
        for (kept, before) in self.tallies.iter_mut().zip(&before.tallies) {
            kept.ratios = joined(kept.ratios, before.ratios);
        }
        for (bursts, before) in self.intakes.bursts.iter_mut().zip(&before.intakes.bursts) {
            bursts.ratios = joined(bursts.ratios, before.ratios);
        }
        for (whole, before) in self.intakes.wholes.iter_mut().zip(&before.intakes.wholes) {
            whole.ratios = joined(whole.ratios, before.ratios);
        }
        for (located, before) in self.locations.iter_mut().zip(&before.locations) {
            located.ratios = joined(located.ratios, before.ratios);
        }
        for (slowest, before) in self.slowest.iter_mut().zip(&before.slowest) {
            slowest.times = joined(slowest.times, before.times);
        }
        for (replay, before) in self.replays.iter_mut().zip(&before.replays) {
            replay.fed.widen(&before.fed);
            replay.counted.widen(&before.counted);
        }
        for (setting, before) in self.settings.iter_mut().zip(&before.settings) {
            setting.fed.widen(&before.fed);
            setting.counted.widen(&before.counted);
        }
    }

    /// The range of the ratios of all readings, or of all else.
    fn all_ratios(&self, readings: bool) -> Range {
        let rows = self.rows.iter().filter(|row| row.what.starts_with("reading") == readings);
        rows.map(|row| row.ratios).fold((f64::INFINITY, 0.0), joined)
    }

    /// The ranges in a sentence.
    fn summary(&self) -> String {
        let (others, readings) = (range(self.all_ratios(false), ratio_text), range(self.all_ratios(true), ratio_text));
        let runs = if self.runs == 1 { String::from("In one run") } else { format!("Over {} runs", self.runs) };
        format!("{runs} the ratios to Rust are {others} for scans, searches, calls and sessions, and {readings} for readings.")
    }
}

/// A replay alone, and the same that counts: what it is of, its name, and the times of both.
pub struct Counted<'a> {
    what: &'static str,
    over: String,
    alone: &'a Fed,
    counted: &'a Fed,
}

/// All replays that were measured with their counts, those of sessions first.
fn counted<'a>(replays: &'a [Replay], settings: &'a [Setting]) -> impl Iterator<Item = Counted<'a>> {
    let of_sessions = replays.iter().map(|replay| {
        let Replay { what, over, fed, counted, .. } = replay;
        Counted { what, over: over.clone(), alone: fed, counted }
    });
    let of_settings = settings.iter().map(|setting| {
        let over = format!("{} records", grouped(setting.records as u64));
        Counted { what: "4,096 bytes set", over, alone: &setting.fed, counted: &setting.counted }
    });
    of_sessions.chain(of_settings)
}

/// The processor's name, as the machine tells it.
pub fn machine() -> String {
    let told = fs::read_to_string("/proc/cpuinfo").unwrap_or_default();
    let name = told.lines().find(|line| line.starts_with("model name"));
    let name = name.and_then(|line| line.split_once(':')).map(|(_, name)| name.trim());
    name.unwrap_or("a machine that does not tell its name").to_string()
}

/// What is said where the library is not measured.
pub fn warning() -> Option<&'static str> {
    let text = "STAND-IN: libdraugsten.a is not measured. Its calls and readings are the independent program's.";
    (!library::REAL).then_some(text)
}

/// Writes BENCH.md and bench.svg.
pub fn write(folder: &Path, measured: &Measured) -> io::Result<()> {
    fs::write(folder.join("BENCH.md"), markdown::page(measured))?;
    fs::write(folder.join("bench.svg"), plot::svg(measured))
}

/// A number with its digits in groups of three.
pub fn grouped(number: u64) -> String {
    let digits = number.to_string();
    let mut text = String::new();
    for (place, digit) in digits.chars().enumerate() {
        if place > 0 && (digits.len() - place).is_multiple_of(3) {
            text.push(',');
        }
        text.push(digit);
    }
    text
}

/// A time in microseconds, with three digits at the least.
fn micros(time: f64) -> String {
    match time {
        ..1.0 => format!("{time:.3}"),
        ..10.0 => format!("{time:.2}"),
        ..100.0 => format!("{time:.1}"),
        _ => grouped(time.round() as u64),
    }
}

/// Millions of bytes a second, of so many bytes in a time in microseconds.
fn rate(bytes: usize, time: f64) -> String {
    micros(bytes as f64 / time)
}

/// A range, by the text of a number.
fn range((least, most): Range, text: fn(f64) -> String) -> String {
    format!("{} to {}", text(least), text(most))
}

/// A ratio of two times.
fn ratio(time: f64, to: f64) -> String {
    ratio_text(time / to)
}

fn ratio_text(ratio: f64) -> String {
    match ratio {
        ratio @ ..0.001 => format!("1/{}", grouped((1.0 / ratio).round() as u64)),
        ratio @ ..0.1 => format!("{ratio:.3}"),
        ratio @ ..100.0 => format!("{ratio:.2}"),
        ratio => format!("{ratio:.0}"),
    }
}
