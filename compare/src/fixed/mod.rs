//! "Readings on both sides of the lines", and further lines of the paper, as cases with their values written out. They
//! are run on both sides and judged by the written values alone.

mod areas;
mod arguments;
mod dump;
mod indices;
mod intakes;
mod large;
mod locations;
mod months;
mod nodes;
mod properties;
mod property_areas;
mod reading_records;
mod replays;
mod runs;
mod scopes;
mod tables;
mod tallies;
mod totals;

use crate::buffers::put_word;
use crate::case::{CallCase, ReadCase};
use crate::compare::{run_call, run_read_indices, run_read_nodes, run_read_properties, Sides};
use crate::crash;
use crate::library::{ReadingRecord, Registration};
use crate::subject::Subject;
use crate::text;
use intakes::{StandingReading, StreamReading};
use locations::LocationReadings;
use months::{CountsReading, MonthReading};
use reading_records::{edit_failure, start_failure, EDITS};
use replays::{FeedReading, TraceReading};
use runs::RunReading;
use tables::TableReadings;
use tallies::{ForecastReading, KeptReading, RecountReading};
use totals::{MergeReading, ShareReading};

/// A call and all that it has to leave.
pub struct CallReading {
    name: String,
    case: CallCase,
    number: u32,
    args: Vec<u8>,
    memory: Vec<u8>,
    registration: Registration,
    reading: ReadingRecord,
}

pub const NONE: Registration = Registration { phase: 0, length: 0, copy: [0; 512] };

/// An edition, and the record of a reading that began in another one. Calls of other tokens keep it.
pub const EDITION: u32 = 7;
pub const READING: ReadingRecord = ReadingRecord { flag: 1, kind: 9, number: 2, edition: 6 };

impl CallReading {
    /// A call that is expected to leave everything as it was, with number 0.
    fn new(name: &str, case: CallCase) -> CallReading {
        let (args, memory) = (case.args.clone(), case.memory.clone());
        let (registration, reading) = (case.registration, case.reading);
        CallReading { name: String::from(name), case, number: 0, args, memory, registration, reading }
    }

    fn number(mut self, number: u32) -> CallReading {
        self.number = number;
        self
    }

    /// Expects these words from the first output on.
    fn outputs(mut self, outputs: &[i32]) -> CallReading {
        let inputs = u32::from_be_bytes([self.args[4], self.args[5], self.args[6], self.args[7]]) as usize;
        for (place, &output) in outputs.iter().enumerate() {
            put_word(&mut self.args, 12 + 4 * (inputs + place), output as u32);
        }
        self
    }

    /// Expects these bytes in memory.
    fn writes(mut self, at: usize, bytes: &[u8]) -> CallReading {
        self.memory[at..at + bytes.len()].copy_from_slice(bytes);
        self
    }

    fn registration(mut self, registration: Registration) -> CallReading {
        self.registration = registration;
        self
    }

    /// Expects this record of the reading in progress.
    fn reading(mut self, reading: ReadingRecord) -> CallReading {
        self.reading = reading;
        self
    }

    /// What a side does otherwise than written.
    fn failure(&self, subject: &dyn Subject) -> Option<String> {
        let result = run_call(subject, &self.case);
        let wrong = [
            (result.number != self.number, "the number"),
            (result.args.content() != self.args, "the argument buffer"),
            (result.memory.content() != self.memory, "memory"),
            (result.registration != self.registration, "the registration"),
            (result.reading != self.reading, "the reading record"),
        ];
        let wrong: Vec<&str> = wrong.iter().filter(|part| part.0).map(|part| part.1).collect();
        if wrong.is_empty() {
            return None;
        }
        let told = |number: u32, args: &[u8], reading: &ReadingRecord| {
            format!("number {number}, argument buffer {}, reading record {}", text::hex(args), reading.text())
        };
        let given = told(result.number, result.args.content(), &result.reading);
        let written = told(self.number, &self.args, &self.reading);
        let what = format!("wrong: {}\n  given:   {given}\n  written: {written}", wrong.join(", "));
        Some(format!("fixed reading '{}' on {}: {what}", self.name, subject.name()))
    }
}

/// What an area is read as. The reader of node areas is told the scope.
#[derive(Clone, Copy)]
enum Of {
    Nodes { scope: u32 },
    Indices,
}

/// An area and the reading that it has to have.
pub struct AreaReading {
    name: String,
    area: Vec<u8>,
    of: Of,
    state: u32,
    result: Result<Vec<[u64; 3]>, (u32, u64)>,
}

/// A property area and the reading that it has to have: its phandle, its state and five words for each property.
pub struct PropertyReading {
    name: String,
    area: Vec<u8>,
    head: (u32, u32),
    result: Result<Vec<[u32; 5]>, (u32, u64)>,
}

impl PropertyReading {
    fn failure(&self, subject: &dyn Subject) -> Option<String> {
        let words = 5 * self.result.as_ref().map_or(0, |properties| properties.len());
        let rooms = [words + 6, words, words.saturating_sub(1), 0];
        rooms.into_iter().find_map(|room| self.failure_with_room(subject, room))
    }

    fn failure_with_room(&self, subject: &dyn Subject, out: usize) -> Option<String> {
        let result = run_read_properties(subject, &ReadCase { area: self.area.clone(), out });
        let (reading, got) = (result.reading, result.entries::<5>());
        let told = (reading.refusal, reading.phandle_or_zero, reading.state_or_zero, reading.offset, reading.entries);
        let (expected, list) = match &self.result {
            Ok(list) => ((0, self.head.0, self.head.1, 0, list.len() as u64), list.as_slice()),
            Err((refusal, offset)) => ((*refusal, 0, 0, *offset, 0), [].as_slice()),
        };
        if told == expected && got == list[..list.len().min(out / 5)] {
            return None;
        }
        let (name, side) = (&self.name, subject.name());
        Some(format!("fixed reading '{name}' on {side}, out {out}: {reading:?}\n  {got:x?}, written {list:x?}"))
    }
}

impl AreaReading {
    fn failure(&self, subject: &dyn Subject) -> Option<String> {
        let entries = self.result.as_ref().map_or(0, |entries| entries.len());
        let rooms = [3 * entries + 4, 3 * entries, (3 * entries).saturating_sub(1), 0];
        rooms.into_iter().find_map(|room| self.failure_with_room(subject, room))
    }

    fn failure_with_room(&self, subject: &dyn Subject, out: usize) -> Option<String> {
        let case = ReadCase { area: self.area.clone(), out };
        let (reading, got) = match self.of {
            Of::Nodes { scope } => {
                let result = run_read_nodes(subject, scope, &case);
                (result.reading, result.entries::<3>().iter().map(|entry| entry.map(u64::from)).collect())
            }
            Of::Indices => {
                let result = run_read_indices(subject, &case);
                (result.reading, result.entries::<3>())
            }
        };
        let told = (reading.refusal, reading.state_or_zero, reading.offset, reading.entries);
        let (expected, list) = match &self.result {
            Ok(list) => ((0, self.state, 0, list.len() as u64), list.as_slice()),
            Err((refusal, offset)) => ((*refusal, 0, *offset, 0), [].as_slice()),
        };
        if told == expected && got == list[..list.len().min(out / 3)] {
            return None;
        }
        let name = &self.name;
        let side = subject.name();
        Some(format!("fixed reading '{name}' on {side}, out {out}: {reading:?}\n  entries {got:x?}, written {list:x?}"))
    }
}

/// All readings but those of edits and of the record to start with.
struct Readings {
    calls: Vec<CallReading>,
    areas: Vec<AreaReading>,
    property_areas: Vec<PropertyReading>,
    runs: Vec<RunReading>,
    traces: Vec<TraceReading>,
    feeds: Vec<FeedReading>,
    months: Vec<MonthReading>,
    counts: Vec<CountsReading>,
    merges: Vec<MergeReading>,
    shares: Vec<ShareReading>,
    tables: TableReadings,
    kept: Vec<KeptReading>,
    recounts: Vec<RecountReading>,
    forecasts: Vec<ForecastReading>,
    streams: Vec<StreamReading>,
    standings: Vec<StandingReading>,
    locations: LocationReadings,
}

fn readings() -> Readings {
    let calls = [
        arguments::readings(),
        nodes::readings(),
        scopes::readings(),
        indices::readings(),
        dump::readings(),
        properties::readings(),
        reading_records::readings(),
    ];
    Readings {
        calls: calls.into_iter().flatten().collect(),
        areas: areas::readings(),
        property_areas: property_areas::readings(),
        runs: runs::readings(),
        traces: replays::readings(),
        feeds: replays::feeds(),
        months: months::readings(),
        counts: months::counts(),
        merges: totals::merges(),
        shares: totals::shares(),
        tables: tables::readings(),
        kept: tallies::kept(),
        recounts: tallies::recounts(),
        forecasts: tallies::forecasts(),
        streams: intakes::streams(),
        standings: intakes::standings(),
        locations: locations::readings(),
    }
}

impl Readings {
    /// What a side does otherwise than written.
    fn failures(&self, subject: &dyn Subject) -> Vec<String> {
        let of_calls = self.calls.iter().map(|reading| reading.failure(subject));
        let of_areas = self.areas.iter().map(|reading| reading.failure(subject));
        let of_property_areas = self.property_areas.iter().map(|reading| reading.failure(subject));
        let of_edits = EDITS.iter().map(|&(edition, written)| edit_failure(subject, edition, written));
        let of_the_start = std::iter::once_with(|| start_failure(subject));
        let of_runs = self.runs.iter().map(|reading| reading.failure(subject));
        let of_traces = self.traces.iter().map(|reading| reading.failure(subject));
        let of_feeds = self.feeds.iter().map(|reading| reading.failure(subject));
        let first = of_calls.chain(of_areas).chain(of_property_areas).chain(of_runs).chain(of_edits);
        let all = first.chain(of_the_start).chain(of_traces).chain(of_feeds).chain(self.month_failures(subject));
        let all = all.chain(self.tallies_failures(subject)).chain(self.intake_failures(subject));
        let all = all.chain(self.locations.failures(subject));
        // The place is noted before the reading is run.
        let places = (0..).inspect(|&place| crash::running_fixed(place));
        places.zip(all).filter_map(|(_, failure)| failure).collect()
    }

    /// What a side does otherwise than written in the month.
    fn month_failures<'a>(&'a self, subject: &'a dyn Subject) -> impl Iterator<Item = Option<String>> + 'a {
        let of_months = self.months.iter().map(|reading| reading.failure(subject));
        let of_counts = self.counts.iter().map(|reading| reading.failure(subject));
        let of_merges = self.merges.iter().map(|reading| reading.failure(subject));
        let of_shares = self.shares.iter().map(|reading| reading.failure(subject));
        of_months.chain(of_counts).chain(of_merges).chain(of_shares).chain(self.tables.failures(subject))
    }

    /// What a side does otherwise than written with tallies and forecasts.
    fn tallies_failures<'a>(&'a self, subject: &'a dyn Subject) -> impl Iterator<Item = Option<String>> + 'a {
        let of_kept = self.kept.iter().map(|reading| reading.failure(subject));
        let of_recounts = self.recounts.iter().map(|reading| reading.failure(subject));
        let of_forecasts = self.forecasts.iter().map(|reading| reading.failure(subject));
        of_kept.chain(of_recounts).chain(of_forecasts)
    }

    /// What a side does otherwise than written with a journal that arrives in bursts.
    fn intake_failures<'a>(&'a self, subject: &'a dyn Subject) -> impl Iterator<Item = Option<String>> + 'a {
        let of_streams = self.streams.iter().map(|reading| reading.failure(subject));
        of_streams.chain(self.standings.iter().map(|reading| reading.failure(subject)))
    }

    fn text(&self) -> String {
        let (calls, areas, edits) = (self.calls.len(), self.areas.len() + self.property_areas.len(), EDITS.len());
        let runs = format!("{} runs of a dump", self.runs.len());
        let replays = format!("{} traces and {} feeds of a replay", self.traces.len(), self.feeds.len());
        let (months, counts) = (self.months.len(), self.counts.len());
        let months = format!("{months} traces and {counts} replays that are counted");
        let totals = format!("{} merges, {} shares and {}", self.merges.len(), self.shares.len(), self.tables.text());
        let first = format!("{calls} calls, {areas} areas, {runs}, {edits} edits, the record to start with");
        let (kept, recounts) = (self.kept.len(), self.recounts.len());
        let tallies = format!("{kept} operations on a kept journal, {recounts} recounts");
        let (forecasts, streams, standings) = (self.forecasts.len(), self.streams.len(), self.standings.len());
        let intakes = format!("{forecasts} forecasts, {streams} streams and {standings} states of an intake");
        format!("{first}, {replays}, {months}, {totals}, {tallies}, {intakes}, {}", self.locations.text())
    }
}

/// Runs all fixed readings on both sides; gives what was otherwise than written. That some are left out is told also if it is to be
/// quiet.
pub fn run(sides: Sides, quiet: bool) -> Vec<String> {
    let readings = readings();
    let mut failures: Vec<String> =
        [sides.paper, sides.tested].into_iter().flat_map(|subject| readings.failures(subject)).collect();
    let tell = |text: String| {
        if !quiet {
            println!("{text}");
        }
    };
    tell(format!("fixed readings: {} on both sides", readings.text()));
    match large::run(sides) {
        Some((readings, wrong)) => {
            let memory = "a memory of 4 GiB and 8,192 bytes";
            tell(format!("fixed readings in {memory}: {readings} calls, runs and replays on both sides"));
            failures.extend(wrong);
        }
        None => println!("fixed readings in a memory above 4 GiB: left out, there is no room for it"),
    }
    failures
}

#[cfg(test)]
mod tests {
    use super::*;
    use crate::subject::Paper;

    #[test]
    fn the_paper_reads_as_written() {
        assert_eq!(run(Sides { paper: &Paper, tested: &Paper }, true), Vec::<String>::new());
    }
}
