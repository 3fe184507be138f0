//! The lookups of location codes, as text and on the page.

use super::markdown::{heading, line};
use super::{grouped, micros, range, ratio, ratio_text};
use crate::library;
use crate::rows::locations::{Located, ALLOWED};

pub fn print_locations(locations: &[Located]) {
    println!("\nlookup of a location code, beside Rust: microseconds; {ALLOWED} of Rust is asked for");
    print!("{:<32} {:<18} {:>9}", "", "over", "bytes");
    println!(" {:>10} {:>10} {:>7}", "Rust", library::SIDE.name, "/Rust");
    for each in locations {
        print!("{:<32} {:<18} {:>9}", each.what, each.over, grouped(each.bytes as u64));
        print!(" {:>10} {:>10} {:>7}", micros(each.rust), micros(each.proved), ratio(each.proved, each.rust));
        println!("{}", if each.proved / each.rust > ALLOWED { "  above" } else { "" });
    }
}

/// The ratios over several runs.
pub fn print_location_ranges(locations: &[Located], runs: usize) {
    println!("\nover {runs} runs: lookups of location codes, ratios to Rust");
    for each in locations {
        println!("{:<32} {:<18} {:>16}", each.what, each.over, range(each.ratios, ratio_text));
    }
}

/// What is measured of lookups.
pub fn section(locations: &[Located]) -> Vec<String> {
    let mut lines = vec![String::from("\n## Looking up a location\n")];
    lines.push(format!(
        "The lookup of a location code (`draugsten_lookup`), beside straightforward safe Rust: of the index that an area of \
        4,096 bytes lists last, and of the last entry of a fixed list of 65,536 bytes, with an area of no entries. The two \
        take turns. At most {ALLOWED} of Rust is asked for.\n"
    ));
    let names = ["", "over", "bytes", "Rust", library::SIDE.name, "/ Rust", "over the runs"];
    lines.extend(heading(&names, 2));
    lines.extend(locations.iter().map(|each| {
        line(&[
            each.what.to_string(),
            each.over.clone(),
            grouped(each.bytes as u64),
            micros(each.rust),
            micros(each.proved),
            ratio(each.proved, each.rust),
            range(each.ratios, ratio_text),
        ])
    }));
    lines
}
