//! The page docs/BENCH.md.

use super::locations;
use super::{counted, grouped, micros, range, rate, ratio, ratio_text, warning, Measured};
use crate::library;
use crate::rows::copying::Copying;
use crate::rows::dumps::Dumped;
use crate::rows::growth::{each, Growth};
use crate::rows::intakes::{Bursts, Intakes, Whole};
use crate::rows::replays::{Fed, Replay, Setting};
use crate::rows::slowest::{Slowest, ALLOWED};
use crate::rows::tallies::Kept;
use crate::rows::Row;
use crate::timing::{Effort, SHORTEST};

pub fn page(measured: &Measured) -> String {
    let mut lines = vec![String::from("# Measured"), String::new()];
    lines.extend(warning().map(|warning| format!("**{warning}**\n")));
    lines
        .push(format!("Processor: {}. Written by `bench/run --write`; times are in microseconds.\n", measured.machine));
    lines.push(String::from("![Times beside those of straightforward Rust](bench.svg)\n"));
    lines.push(format!("{}\n", measured.summary()));
    lines.extend(rows(&measured.rows));
    lines.push(String::from("\n## How it is measured\n"));
    lines.push(method(measured.effort));
    lines.push(String::from("\n## The slowest single call\n"));
    lines.push(format!(
        "Source document 002 allows a call {ALLOWED} microseconds. Each call of a session is measured alone; of their \
        medians the largest is told.\n"
    ));
    lines.extend(slowest(&measured.slowest));
    lines.push(String::from("\n## How a session grows\n"));
    lines.push(String::from("A session of update-nodes over a mixed journal; every call judges the whole journal.\n"));
    lines.extend(growth(&measured.growth));
    lines.push(String::from("\n## Copying values\n"));
    lines.push(String::from(
        "A session of update-properties, beside memcpy of the journal's bytes into one area, an area's worth at a time. \
        Over many values each call also judges the whole journal and follows the session to its state.\n",
    ));
    lines.extend(copying(&measured.copying));
    lines.extend(dump_section(&measured.dumps));
    lines.extend(tallies_section(&measured.tallies));
    lines.extend(intakes_section(&measured.intakes));
    lines.extend(locations::section(&measured.locations));
    lines.extend(replay_section(measured));
    lines.join("\n") + "\n"
}

/// What is measured of a dump's run.
fn dump_section(dumps: &[Dumped]) -> Vec<String> {
    let mut lines = vec![String::from("\n## Running a dump\n")];
    lines.push(String::from(
        "The run of a registered dump (`draugsten_run_dump`) that copies one section, beside memmove of the same bytes in the \
        same memory, from platform memory memcpy. The two take turns.\n",
    ));
    let names = ["over", "bytes", "memmove", library::SIDE.name, "/ memmove", "over the runs"];
    lines.extend(heading(&names, 1));
    lines.extend(dumps.iter().map(|each| {
        line(&[
            each.over.to_string(),
            grouped(each.bytes as u64),
            micros(each.memmove),
            micros(each.proved),
            ratio(each.proved, each.memmove),
            range(each.ratios, ratio_text),
        ])
    }));
    lines
}

/// What is measured of a journal that is kept with its tallies.
fn tallies_section(tallies: &[Kept]) -> Vec<String> {
    let mut lines = vec![String::from("\n## Keeping tallies\n")];
    lines.push(String::from(
        "A journal of records of kinds 1 to 4 that is kept with its tallies, beside another way to the same; the two take \
        turns. An append does not depend on the bytes in use: a hundred at 1,000,000 bytes stand beside the same hundred at \
        1,000. Rust that recounts goes over the whole journal after each append.\n",
    ));
    let names = ["", "beside", "bytes", "its time", library::SIDE.name, "ratio", "over the runs"];
    lines.extend(heading(&names, 2));
    lines.extend(tallies.iter().map(|each| {
        line(&[
            each.what.to_string(),
            each.beside.to_string(),
            grouped(each.bytes as u64),
            micros(each.other),
            micros(each.proved),
            ratio(each.proved, each.other),
            range(each.ratios, ratio_text),
        ])
    }));
    lines
}

/// What is measured of a journal that arrives in bursts.
fn intakes_section(intakes: &Intakes) -> Vec<String> {
    let mut lines = vec![String::from("\n## A journal in bursts\n")];
    lines.push(String::from(
        "A full journal that arrives in bursts of so many bytes (`draugsten_intake_burst`), beside straightforward Rust that \
        puts the bursts together in a vector and takes whole records from its front; the two take turns. In millions of \
        bytes a second; the ratio is that of the times.\n",
    ));
    lines.extend(heading(&["over", "bytes", "burst", "Rust", library::SIDE.name, "/ Rust", "over the runs"], 1));
    lines.extend(intakes.bursts.iter().map(bursts));
    lines.push(String::from(
        "\nThe same journals in one burst, beside the scan of the journal and memcpy of its bytes, in microseconds. *Both* is \
        the sum of the two.\n",
    ));
    let names = ["over", "bytes", "scan", "memcpy", library::SIDE.name, "/ both", "over the runs"];
    lines.extend(heading(&names, 1));
    lines.extend(intakes.wholes.iter().map(whole));
    lines
}

fn bursts(each: &Bursts) -> String {
    line(&[
        each.over.to_string(),
        grouped(each.bytes as u64),
        grouped(each.burst as u64),
        rate(each.bytes, each.rust),
        rate(each.bytes, each.proved),
        ratio(each.proved, each.rust),
        range(each.ratios, ratio_text),
    ])
}

fn whole(each: &Whole) -> String {
    line(&[
        each.over.to_string(),
        grouped(each.bytes as u64),
        micros(each.scan),
        micros(each.memcpy),
        micros(each.proved),
        ratio(each.proved, each.both()),
        range(each.ratios, ratio_text),
    ])
}

/// What is measured of replays.
fn replay_section(measured: &Measured) -> Vec<String> {
    let mut lines = vec![String::from("\n## Replays\n")];
    let runs = if measured.runs == 1 { String::from("one run") } else { format!("{} runs", measured.runs) };
    lines.push(format!(
        "The replay of a recorded session, beside what it cannot do without: the same calls made directly, and the bytes of \
        the trace read once. *Both* is the sum of the two. A trace has the sixteen bytes that the session's area begins \
        with, and the argument buffer of each call before and after it. It is fed in one burst, and in bursts of 65,536 \
        bytes; of short sessions there are also 400 in a row, whose trace takes several. The times are of the last run; the \
        ratios are medians over {runs}, in one burst and in several, and the ranges are over both.\n"
    ));
    lines.extend(replays(&measured.replays));
    lines.push(String::from(
        "\nA trace of records that set 4,096 bytes of memory each, one page after the other, beside memcpy of these bytes \
        to the same places, a page at a time.\n",
    ));
    lines.extend(settings(&measured.settings));
    lines.push(String::from(
        "\nThe replay that counts, and adds its counts to totals at the end (`draugsten_month_feed` and \
        `draugsten_month_add`), beside the replay alone (`draugsten_replay_feed` and `draugsten_replay_end`), over the same \
        traces. The two take turns with the works of the tables above, in the same run.\n",
    ));
    lines.extend(counting(measured));
    lines
}

/// A line of a table.
pub fn line(cells: &[String]) -> String {
    format!("| {} |", cells.join(" | "))
}

/// The heading of a table: the first so many columns are words, the others numbers.
pub fn heading(names: &[&str], words: usize) -> [String; 2] {
    let names: Vec<String> = names.iter().map(|name| name.to_string()).collect();
    let marks = ["---", "---:"];
    let rule: Vec<String> = (0..names.len()).map(|column| marks[usize::from(column >= words)].to_string()).collect();
    [line(&names), line(&rule)]
}

fn rows(rows: &[Row]) -> Vec<String> {
    let proved = library::SIDE.name;
    let names = ["", "over", "bytes", "passes", "streaming", "stepping", "Rust", "independent", proved];
    let ratios = ["/ stepping", "/ Rust", "over the runs", "/ independent"];
    let heading = heading(&[&names[..], &ratios].concat(), 2);
    heading.into_iter().chain(rows.iter().map(row)).collect()
}

fn row(row: &Row) -> String {
    line(&[
        row.what.to_string(),
        row.over.clone(),
        grouped(row.bytes as u64),
        row.passes.to_string(),
        micros(row.streaming),
        micros(row.stepping),
        micros(row.rust),
        micros(row.independent),
        micros(row.proved),
        ratio(row.proved, row.stepping),
        ratio(row.proved, row.rust),
        range(row.ratios, ratio_text),
        ratio(row.proved, row.independent),
    ])
}

fn slowest(calls: &[Slowest]) -> Vec<String> {
    let names = ["", "over", "bytes", "call", library::SIDE.name, "over the runs"];
    let lines = calls.iter().map(|call| {
        line(&[
            call.what.to_string(),
            call.over.clone(),
            grouped(call.bytes as u64),
            format!("{} of {}", call.place, call.calls),
            micros(call.time),
            range(call.times, micros),
        ])
    });
    heading(&names, 2).into_iter().chain(lines).collect()
}

fn growth(sizes: &[Growth]) -> Vec<String> {
    let proved = library::SIDE.name;
    let each_operation = "ns for each operation";
    let names = ["bytes", "operations", "calls", "Rust", each_operation, proved, each_operation, "/ Rust"];
    let lines = sizes.iter().map(|size| {
        line(&[
            grouped(size.bytes as u64),
            grouped(size.operations),
            size.calls.to_string(),
            micros(size.rust),
            format!("{:.1}", each(size, size.rust)),
            micros(size.proved),
            format!("{:.1}", each(size, size.proved)),
            ratio(size.proved, size.rust),
        ])
    });
    heading(&names, 0).into_iter().chain(lines).collect()
}

fn copying(sessions: &[Copying]) -> Vec<String> {
    let names = ["over", "bytes", "memcpy", "Rust", library::SIDE.name, "/ memcpy"];
    let lines = sessions.iter().map(|session| {
        line(&[
            session.over.clone(),
            grouped(session.bytes as u64),
            micros(session.memcpy),
            micros(session.rust),
            micros(session.proved),
            ratio(session.proved, session.memcpy),
        ])
    });
    heading(&names, 1).into_iter().chain(lines).collect()
}

fn replays(replays: &[Replay]) -> Vec<String> {
    let names = ["", "over", "bytes", "calls", "trace", "calling", "reading"];
    let fed = ["one burst", "/ both", "bursts of 65,536", "/ both", "over the runs"];
    let names = [&names[..], &fed].concat();
    let lines = replays.iter().map(|replay| {
        let cells = [
            replay.what.to_string(),
            replay.over.clone(),
            grouped(replay.bytes as u64),
            grouped(replay.calls),
            grouped(replay.trace as u64),
            micros(replay.calling),
            micros(replay.reading),
        ];
        line(&[&cells[..], &fed_cells(&replay.fed)].concat())
    });
    heading(&names, 2).into_iter().chain(lines).collect()
}

fn settings(settings: &[Setting]) -> Vec<String> {
    let fed = ["one burst", "/ memcpy", "bursts of 65,536", "/ memcpy", "over the runs"];
    let names = [&["records", "bytes", "memcpy"][..], &fed].concat();
    let lines = settings.iter().map(|setting| {
        let cells = [grouped(setting.records as u64), grouped(setting.bytes as u64), micros(setting.memcpy)];
        line(&[&cells[..], &fed_cells(&setting.fed)].concat())
    });
    heading(&names, 0).into_iter().chain(lines).collect()
}

fn counting(measured: &Measured) -> Vec<String> {
    let one = ["alone, one burst", "counting", "/ alone"];
    let some = ["alone, bursts of 65,536", "counting", "/ alone", "over the runs"];
    let names = [&["", "over"][..], &one, &some].concat();
    let lines = counted(&measured.replays, &measured.settings).map(|each| {
        let [one, one_counted, some, some_counted, over_the_runs] = fed_cells(each.counted);
        let [alone_one, alone_some] = [each.alone.one_burst, each.alone.bursts].map(micros);
        let cells = [each.what.to_string(), each.over, alone_one, one, one_counted];
        line(&[&cells[..], &[alone_some, some, some_counted, over_the_runs]].concat())
    });
    heading(&names, 2).into_iter().chain(lines).collect()
}

/// Of a replay in one burst and in several: the times, their ratios, and the range of these.
fn fed_cells(fed: &Fed) -> [String; 5] {
    let [one_burst, bursts] = fed.medians().map(ratio_text);
    [micros(fed.one_burst), one_burst, micros(fed.bursts), bursts, range(fed.range(), ratio_text)]
}

/// How it is measured, in a paragraph.
fn method(effort: Effort) -> String {
    let Effort { time, least, most } = effort;
    let (time, shortest) = (time.as_millis(), SHORTEST.as_micros());
    format!(
        "Everything is measured on one thread; of several runs the last is told, and the ranges are over all. The works of a row take turns; each is given about {time} \
        milliseconds, but {least} turns at the least and {most} at the most, and the median is told. A work that takes \
        less than {shortest} microseconds is done several times in a turn. The independent program alone is measured \
        after the others of its row: it fills the caches and the branch predictor with its own. Before they are \
        measured, the three sides are held to each other: over every call of every session, every reading, and \
        refusals, they must answer the same and leave the same bytes. *Streaming* adds up the words of the bytes. \
        *Stepping* goes from record to record by their lengths alone, in a work area from operator to operator, from \
        entry to entry or from property to property. Neither judges anything, and beside a session both go over the bytes once for each of its \
        calls: these are the passes. *Rust* is straightforward safe Rust written for release (`bench/src/plain`), \
        *independent* the rules written out plainly and not for speed (`compare/src/paper`); `cargo build --release` \
        builds both, and `rt lib` the proved archives. The scope is 1 where no other is named; in scope 3 one \
        of the two units in the journal is asked for, and of an inventory's types the last. One call of update-nodes \
        begins at state 0, one of get-indices in the middle of the list, with a reading record that names it, one of \
        update-properties in the middle of the session; every work area has 4,096 bytes. The scan of \
        an inventory does not hand on the entry due, on any side. The search goes from the first entry of the type to \
        the last, over an inventory that was judged before; the independent program has none, and reads and judges \
        the records once more."
    )
}
