//! The table as text.

use super::locations::print_location_ranges;
use super::{counted, grouped, micros, range, rate, ratio, ratio_text, warning, Measured};
use crate::library;
use crate::rows::copying::Copying;
use crate::rows::dumps::Dumped;
use crate::rows::growth::{each, Growth};
use crate::rows::intakes::Intakes;
use crate::rows::replays::{Fed, Replay, Setting, BURST};
use crate::rows::slowest::{Slowest, ALLOWED};
use crate::rows::tallies::Kept;
use crate::rows::Row;
use crate::timing::Effort;

pub fn print_heading(effort: Effort) {
    if let Some(warning) = warning() {
        println!("{warning}");
    }
    println!("microseconds, medians of {} to {} turns", effort.least, effort.most);
    print!("{:<30} {:<24} {:>9} {:>6}", "", "over", "bytes", "passes");
    print!(" {:>10} {:>10} {:>10} {:>11} {:>10}", "streaming", "stepping", "Rust", "independent", library::SIDE.name);
    println!(" {:>9} {:>7} {:>7}", "/stepping", "/Rust", "/indep.");
}

pub fn print_row(row: &Row) {
    print!("{:<30} {:<24} {:>9} {:>6}", row.what, row.over, grouped(row.bytes as u64), row.passes);
    print!(" {:>10} {:>10} {:>10}", micros(row.streaming), micros(row.stepping), micros(row.rust));
    print!(" {:>11} {:>10}", micros(row.independent), micros(row.proved));
    print!(" {:>9} {:>7}", ratio(row.proved, row.stepping), ratio(row.proved, row.rust));
    println!(" {:>7}", ratio(row.proved, row.independent));
}

pub fn print_growth(growth: &[Growth]) {
    println!("\nsession of update-nodes over a mixed journal: microseconds, and nanoseconds for each operation");
    print!("{:>9} {:>10} {:>6} {:>10} {:>8}", "bytes", "operations", "calls", "Rust", "each");
    println!(" {:>10} {:>8} {:>7}", library::SIDE.name, "each", "/Rust");
    for size in growth {
        print!("{:>9} {:>10} {:>6}", grouped(size.bytes as u64), grouped(size.operations), size.calls);
        print!(" {:>10} {:>8.1}", micros(size.rust), each(size, size.rust));
        print!(" {:>10} {:>8.1}", micros(size.proved), each(size, size.proved));
        println!(" {:>7}", ratio(size.proved, size.rust));
    }
}

pub fn print_copying(copying: &[Copying]) {
    println!(
        "\nsession of update-properties beside memcpy of the journal's bytes, an area's worth at a time: microseconds"
    );
    print!("{:<24} {:>9} {:>10} {:>10} {:>10}", "over", "bytes", "memcpy", "Rust", library::SIDE.name);
    println!(" {:>8}", "/memcpy");
    for each in copying {
        print!("{:<24} {:>9} {:>10}", each.over, grouped(each.bytes as u64), micros(each.memcpy));
        println!(" {:>10} {:>10} {:>8}", micros(each.rust), micros(each.proved), ratio(each.proved, each.memcpy));
    }
}

pub fn print_dumps(dumps: &[Dumped]) {
    println!("\nrun of a dump that copies one section, beside memmove of its bytes: microseconds");
    println!("{:<27} {:>10} {:>10} {:>10} {:>9}", "over", "bytes", "memmove", library::SIDE.name, "/memmove");
    for each in dumps {
        print!("{:<27} {:>10} {:>10}", each.over, grouped(each.bytes as u64), micros(each.memmove));
        println!(" {:>10} {:>9}", micros(each.proved), ratio(each.proved, each.memmove));
    }
}

pub fn print_tallies(tallies: &[Kept]) {
    println!("\na journal that is kept with its tallies, beside another way: microseconds");
    print!("{:<42} {:<24} {:>9}", "", "beside", "bytes");
    println!(" {:>10} {:>10} {:>7}", "its time", library::SIDE.name, "ratio");
    for each in tallies {
        print!("{:<42} {:<24} {:>9}", each.what, each.beside, grouped(each.bytes as u64));
        println!(" {:>10} {:>10} {:>7}", micros(each.other), micros(each.proved), ratio(each.proved, each.other));
    }
}

pub fn print_intakes(intakes: &Intakes) {
    println!("\na journal that arrives in bursts, beside Rust that keeps a vector: millions of bytes a second");
    println!("{:<20} {:>9} {:>9} {:>9} {:>9} {:>7}", "over", "bytes", "burst", "Rust", library::SIDE.name, "/Rust");
    for each in &intakes.bursts {
        let (bytes, burst) = (grouped(each.bytes as u64), grouped(each.burst as u64));
        print!("{:<20} {bytes:>9} {burst:>9} {:>9}", each.over, rate(each.bytes, each.rust));
        println!(" {:>9} {:>7}", rate(each.bytes, each.proved), ratio(each.proved, each.rust));
    }
    println!("\na whole journal in one burst, beside its scan and memcpy of its bytes: microseconds");
    println!("{:<20} {:>9} {:>9} {:>9} {:>9} {:>7}", "over", "bytes", "scan", "memcpy", library::SIDE.name, "/both");
    for each in &intakes.wholes {
        print!("{:<20} {:>9} {:>9}", each.over, grouped(each.bytes as u64), micros(each.scan));
        println!(" {:>9} {:>9} {:>7}", micros(each.memcpy), micros(each.proved), ratio(each.proved, each.both()));
    }
}

pub fn print_slowest(slowest: &[Slowest]) {
    println!("\nthe slowest single call of a session, microseconds; source document 002 allows {ALLOWED}");
    println!("{:<18} {:<24} {:>9} {:>14} {:>8}", "", "over", "bytes", "call", library::SIDE.name);
    for call in slowest {
        let place = format!("{} of {}", call.place, call.calls);
        print!("{:<18} {:<24} {:>9}", call.what, call.over, grouped(call.bytes as u64));
        println!(" {place:>14} {:>8}{}", micros(call.time), if call.time > ALLOWED { "  above" } else { "" });
    }
}

pub fn print_replays(replays: &[Replay]) {
    println!("\nreplay of recorded sessions beside the same calls made directly and the trace read once: microseconds");
    print!("{:<18} {:<26} {:>9} {:>6} {:>8}", "", "over", "bytes", "calls", "trace");
    println!(" {:>10} {:>8}{}", "calling", "reading", fed_heading("/both"));
    for replay in replays {
        let (bytes, trace) = (grouped(replay.bytes as u64), grouped(replay.trace as u64));
        print!("{:<18} {:<26} {bytes:>9} {:>6} {trace:>8}", replay.what, replay.over, replay.calls);
        println!(" {:>10} {:>8}{}", micros(replay.calling), micros(replay.reading), fed(&replay.fed));
    }
}

pub fn print_settings(settings: &[Setting]) {
    println!("\nreplay of records that set 4,096 bytes each, beside memcpy of these bytes: microseconds");
    println!("{:>7} {:>10} {:>9}{}", "records", "bytes", "memcpy", fed_heading("/memcpy"));
    for setting in settings {
        let (records, bytes) = (grouped(setting.records as u64), grouped(setting.bytes as u64));
        println!("{records:>7} {bytes:>10} {:>9}{}", micros(setting.memcpy), fed(&setting.fed));
    }
}

/// The replays that count, beside the replays alone.
pub fn print_counted(replays: &[Replay], settings: &[Setting]) {
    println!(
        "\nreplay that counts, beside the replay alone: microseconds, in one burst and in bursts of {}",
        grouped(BURST as u64)
    );
    let columns = format!(" {:>10} {:>10} {:>7}", "alone", "counting", "/alone");
    println!("{:<18} {:<26}{columns}{columns}", "", "over");
    for each in counted(replays, settings) {
        let [one_burst, bursts] = each.counted.medians().map(ratio_text);
        print!("{:<18} {:<26}", each.what, each.over);
        print!(" {:>10} {:>10} {one_burst:>7}", micros(each.alone.one_burst), micros(each.counted.one_burst));
        println!(" {:>10} {:>10} {bursts:>7}", micros(each.alone.bursts), micros(each.counted.bursts));
    }
}

/// The columns of a replay in one burst and in several.
fn fed_heading(ratio: &str) -> String {
    format!(" {:>10} {ratio:>8} {:>10} {ratio:>8}", "one burst", format!("of {}", grouped(BURST as u64)))
}

fn fed(fed: &Fed) -> String {
    let [one_burst, bursts] = fed.medians().map(ratio_text);
    format!(" {:>10} {one_burst:>8} {:>10} {bursts:>8}", micros(fed.one_burst), micros(fed.bursts))
}

/// The ranges over several runs, and of one run the summary alone.
pub fn print_ranges(measured: &Measured) {
    println!();
    if measured.runs > 1 {
        println!("over {} runs: ratios to Rust, and times of the slowest single call", measured.runs);
        for row in &measured.rows {
            let bytes = grouped(row.bytes as u64);
            println!("{:<30} {:<24} {bytes:>9} {:>16}", row.what, row.over, range(row.ratios, ratio_text));
        }
        for call in &measured.slowest {
            let bytes = grouped(call.bytes as u64);
            println!("{:<30} {:<24} {bytes:>9} {:>16}", call.what, call.over, range(call.times, micros));
        }
        println!("\nover {} runs: the runs of dumps, ratios to memmove", measured.runs);
        for each in &measured.dumps {
            println!("{:<27} {:>16}", each.over, range(each.ratios, ratio_text));
        }
        println!("\nover {} runs: a journal that is kept, ratios", measured.runs);
        for each in &measured.tallies {
            println!("{:<42} {:<24} {:>16}", each.what, each.beside, range(each.ratios, ratio_text));
        }
        print_intake_ranges(measured);
        print_location_ranges(&measured.locations, measured.runs);
        print_replay_ranges(measured);
    }
    println!("{}", measured.summary());
}

/// The ratios of the intakes over several runs.
fn print_intake_ranges(measured: &Measured) {
    println!("\nover {} runs: a journal that arrives in bursts, ratios to Rust", measured.runs);
    for each in &measured.intakes.bursts {
        println!("{:<20} {:>9} {:>16}", each.over, grouped(each.burst as u64), range(each.ratios, ratio_text));
    }
    println!("\nover {} runs: in one burst, ratios to scan and memcpy together", measured.runs);
    for each in &measured.intakes.wholes {
        println!("{:<20} {:>16}", each.over, range(each.ratios, ratio_text));
    }
}

/// The ratios of the replays over several runs.
fn print_replay_ranges(measured: &Measured) {
    println!("\nover {} runs: the replays' ratios, medians in one burst and in several, and range", measured.runs);
    let replays = measured.replays.iter().map(|replay| (replay.what, replay.over.clone(), &replay.fed));
    let settings = measured.settings.iter();
    let settings = settings.map(|setting| ("records of 4,096 bytes", grouped(setting.records as u64), &setting.fed));
    for (what, over, fed) in replays.chain(settings) {
        let [one_burst, bursts] = fed.medians().map(ratio_text);
        println!("{what:<24} {over:<26} {one_burst:>6} {bursts:>6} {:>16}", range(fed.range(), ratio_text));
    }
    print_counted_ranges(measured);
}

/// The ratios of the replays that count over several runs.
fn print_counted_ranges(measured: &Measured) {
    println!(
        "\nover {} runs: counting to the replay alone, medians in one burst and in several, and range",
        measured.runs
    );
    for each in counted(&measured.replays, &measured.settings) {
        let [one_burst, bursts] = each.counted.medians().map(ratio_text);
        let (what, over, range) = (each.what, each.over, range(each.counted.range(), ratio_text));
        println!("{what:<24} {over:<26} {one_burst:>6} {bursts:>6} {range:>16}");
    }
}
