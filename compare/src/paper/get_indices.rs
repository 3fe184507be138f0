//! "get-indices"

use super::reading_record::{self, ReadingRecord};
use super::records::{self, Entry};
use super::words::{as_word, put_word};
use super::{refused, Refusal};

/// "Inputs: indicator (0) or sensor (1), type, address, size, Starting Number."
pub struct Inputs {
    pub flag: u64,
    pub kind: u64,
    pub address: u64,
    pub size: u64,
    pub start: u64,
}

/// "Outputs: status, Next Starting Number."
pub struct Outputs {
    pub status: u32,
    pub next: u32,
}

/// The outputs of the call, or the rule that refuses it. What becomes of the record follows from either.
pub fn get_indices(
    memory: &mut [u8],
    inventory: &[u8],
    inputs: &Inputs,
    edition: u64,
    record: &ReadingRecord,
) -> Result<Outputs, Refusal> {
    if let Some(rule) = broken_before_inventory(memory.len() as u64, inputs) {
        return refused(-3, rule);
    }
    reading_record::judge(inputs, edition, record)?;
    let entries = match records::inventory(inventory) {
        Ok(entries) => entries,
        Err(rule) => return refused(-1, rule),
    };
    let asked: Vec<&Entry> =
        entries.iter().filter(|entry| entry.flag == inputs.flag && entry.kind == inputs.kind).collect();
    if asked.is_empty() {
        return refused(-3, "no entry of this flag and type");
    }
    if inputs.start < 1 || inputs.start > asked.len() as u64 {
        return refused(-3, "Starting Number");
    }
    let due = &asked[inputs.start as usize - 1..];
    let run = longest_run(due, inputs.size);
    if run.is_empty() {
        return refused(-3, "the entry due does not fit");
    }
    let area = &mut memory[inputs.address as usize..(inputs.address + inputs.size) as usize];
    write_area(area, run);
    Ok(outputs(inputs.start, run.len() as u64, asked.len() as u64))
}

/// "Order: flag; type not 9001, 9002, 9003 for indicators nor 9003 for sensors; size at least 4 and address + size at
/// most 2^32 and inside memory; all -3."
fn broken_before_inventory(memory: u64, inputs: &Inputs) -> Option<&'static str> {
    if let Some(rule) = broken_list(inputs.flag, inputs.kind) {
        return Some(rule);
    }
    if inputs.size < 4 {
        return Some("size under 4");
    }
    if inputs.address + inputs.size > 1 << 32 {
        return Some("address + size above 2^32");
    }
    if inputs.address + inputs.size > memory {
        return Some("area not inside memory");
    }
    None
}

/// "flag; type not 9001, 9002, 9003 for indicators nor 9003 for sensors"
pub fn broken_list(flag: u64, kind: u64) -> Option<&'static str> {
    if flag > 1 {
        return Some("flag");
    }
    let forbidden: &[u64] = if flag == 0 { &[9001, 9002, 9003] } else { &[9003] };
    if forbidden.contains(&kind) {
        return Some("type");
    }
    None
}

/// "A code of c bytes takes 8 + 4 x (c / 4 + 1) bytes, rounding the quotient down."
pub fn entry_bytes(code: &[u8]) -> u64 {
    8 + code_bytes(code)
}

/// "the code, NUL-filled to the next multiple of 4 with at least one NUL. The length counts the NULs."
fn code_bytes(code: &[u8]) -> u64 {
    4 * (code.len() as u64 / 4 + 1)
}

/// "The longest fitting run": every length is tried, from the longest down. The count takes four bytes, and an entry
/// twelve at the least.
pub fn longest_run<'a, 'b>(due: &'b [&'a Entry<'a>], size: u64) -> &'b [&'a Entry<'a>] {
    let longest = due.len().min((size / 12) as usize);
    let fits = |length: &usize| 4 + due[..*length].iter().map(|entry| entry_bytes(entry.code)).sum::<u64>() <= size;
    let length = (0..=longest).rev().find(fits);
    &due[..length.unwrap_or(0)]
}

/// "The area holds the count, then for each entry the index, the length and the code"; "later bytes stay unchanged".
fn write_area(area: &mut [u8], run: &[&Entry]) {
    put_word(area, 0, as_word(run.len() as u64));
    let mut at = 4;
    for entry in run {
        let field = code_bytes(entry.code) as usize;
        put_word(area, at, entry.index);
        put_word(area, at + 4, as_word(field as u64));
        area[at + 8..at + 8 + field].fill(0);
        area[at + 8..at + 8 + entry.code.len()].copy_from_slice(entry.code);
        at += 8 + field;
    }
}

/// "Status 1 with the next number, or 0 with 1."
fn outputs(start: u64, handed_out: u64, all: u64) -> Outputs {
    let next = start + handed_out;
    if next <= all {
        Outputs { status: 1, next: as_word(next) }
    } else {
        Outputs { status: 0, next: 1 }
    }
}
