//! The records of journals and inventories: what one says, or which is malformed, at which byte and why.

use draugsten::{CODE_LIMIT, NAME_LIMIT, VALUE_LIMIT};
use std::fmt;
use std::ops::RangeInclusive;

/// A journal and an inventory have at most so many bytes.
pub const RECORDS_LIMIT: u64 = 1_048_576;

/// The first record of a file that is malformed.
#[derive(Clone, PartialEq, Eq, Debug)]
pub struct Flaw {
    /// Its number, from 1 on.
    pub record: u64,
    /// The byte that it starts at, from 0 on.
    pub offset: u64,
    /// Why it is malformed.
    pub what: String,
}

impl fmt::Display for Flaw {
    fn fmt(&self, f: &mut fmt::Formatter<'_>) -> fmt::Result {
        write!(f, "record {}, at byte {}: {}", self.record, self.offset, self.what)
    }
}

/// A kind of record: its number, and the lengths that it may have. A length counts the kind and the body.
#[derive(Debug)]
pub struct Kind {
    pub number: u16,
    lengths: RangeInclusive<usize>,
}

pub const fn kind(number: u16, least: usize, most: usize) -> Kind {
    Kind { number, lengths: least..=most }
}

/// What a file of records is: its name, the kinds of its records, and the most bytes that it may have.
#[derive(Debug)]
pub struct Sort {
    pub name: &'static str,
    pub kinds: &'static [Kind],
    pub limit: u64,
}

/// Kinds 5 and 6 have a phandle, and a name with its NUL.
const NAMED_LEAST: usize = 2 + 4 + 1 + 1;
const NAMED_MOST: usize = 2 + 4 + NAME_LIMIT + 1;

pub static JOURNAL: Sort = Sort {
    name: "a journal",
    kinds: &[
        kind(1, 8, 8),
        kind(2, 8, 8),
        kind(3, 12, 12),
        kind(4, 16, 16),
        kind(5, NAMED_LEAST, NAMED_MOST + VALUE_LIMIT),
        kind(6, NAMED_LEAST, NAMED_MOST),
    ],
    limit: RECORDS_LIMIT,
};

pub static INVENTORY: Sort =
    Sort { name: "an inventory", kinds: &[kind(16, 12 + 1, 12 + CODE_LIMIT)], limit: RECORDS_LIMIT };

/// A record without its length.
#[derive(Clone, Copy, PartialEq, Eq, Debug)]
pub struct Record<'a> {
    pub kind: u16,
    pub body: &'a [u8],
}

impl Record<'_> {
    /// Its bytes in the file: length, kind and body.
    pub fn size(&self) -> usize {
        4 + self.body.len()
    }
}

/// The record that stands first in bytes which are the rest of a file from this offset on; or why it is malformed. Its
/// length and its kind are judged, and not its body.
pub fn first<'a>(sort: &Sort, rest: &'a [u8], offset: u64) -> Result<Record<'a>, String> {
    let passes = |size: usize| offset + size.min(rest.len()) as u64 > sort.limit;
    let past = || format!("it passes byte {}, and {} has no more bytes", sort.limit, sort.name);
    if passes(4) {
        return Err(past());
    }
    let (length, kind) = head(rest)?;
    judge_length(sort, length, kind)?;
    let size = 2 + length;
    match rest.get(4..size) {
        _ if passes(size) => Err(past()),
        Some(body) => Ok(Record { kind, body }),
        None => Err(format!("cut off by the end, after {} of {size} bytes", rest.len())),
    }
}

/// The length and the kind of a record that counts its kind.
fn head(rest: &[u8]) -> Result<(usize, u16), String> {
    let number = |at: usize| rest.get(at..at + 2).map(|pair| u16::from_le_bytes([pair[0], pair[1]]));
    match (number(0), number(2)) {
        (None, _) => Err(String::from("cut off by the end, inside its length")),
        (Some(length @ 0..2), _) => Err(format!("length {length}, which does not count its kind")),
        (Some(_), None) => Err(String::from("cut off by the end, inside its kind")),
        (Some(length), Some(kind)) => Ok((usize::from(length), kind)),
    }
}

fn judge_length(sort: &Sort, length: usize, kind: u16) -> Result<(), String> {
    let Some(found) = sort.kinds.iter().find(|found| found.number == kind) else {
        return Err(format!("kind {kind}; {} has {}", sort.name, kinds(sort)));
    };
    match found.lengths.contains(&length) {
        true => Ok(()),
        false => Err(format!("length {length} for kind {kind}, which has {}", range(&found.lengths))),
    }
}

/// The kinds of a file of records, in words. Their numbers follow one another.
fn kinds(sort: &Sort) -> String {
    match sort.kinds {
        [only] => format!("kind {}", only.number),
        [first, .., last] => format!("kinds {} to {}", first.number, last.number),
        [] => String::from("no kinds"),
    }
}

fn range<T: PartialEq + fmt::Display>(range: &RangeInclusive<T>) -> String {
    match range.start() == range.end() {
        true => range.start().to_string(),
        false => format!("{} to {}", range.start(), range.end()),
    }
}

/// What a record of a journal says.
#[derive(Clone, Copy, PartialEq, Eq, Debug)]
pub enum Change<'a> {
    Delete { node_type: u16, phandle: u32 },
    Update { node_type: u16, phandle: u32 },
    Add { node_type: u16, parent: u32, drc_index: u32 },
    UpdateInUnit { node_type: u16, unit: u64, phandle: u32 },
    NewValue { phandle: u32, name: &'a [u8], value: &'a [u8] },
    DeletedProperty { phandle: u32, name: &'a [u8] },
}

/// What a record says that `first` found in a journal; or why it is malformed.
pub fn change<'a>(record: &Record<'a>) -> Result<Change<'a>, String> {
    let Record { kind, body } = *record;
    if kind >= 5 {
        return property_change(kind, body);
    }
    let (node_type, first) = (node_type(kind, body)?, word(body, 2));
    Ok(match kind {
        1 => Change::Delete { node_type, phandle: first },
        2 => Change::Update { node_type, phandle: first },
        3 => Change::Add { node_type, parent: first, drc_index: word(body, 6) },
        _ => {
            let unit = u64::from(first) | u64::from(word(body, 6)) << 32;
            Change::UpdateInUnit { node_type, unit, phandle: word(body, 10) }
        }
    })
}

fn property_change(kind: u16, body: &[u8]) -> Result<Change<'_>, String> {
    match property(body)? {
        (phandle, name, value) if kind == 5 => Ok(Change::NewValue { phandle, name, value }),
        (phandle, name, []) => Ok(Change::DeletedProperty { phandle, name }),
        (.., more) => Err(format!("{} bytes after the NUL of its name, and kind 6 has none", more.len())),
    }
}

/// The node type of kinds 1 to 4.
fn node_type(kind: u16, body: &[u8]) -> Result<u16, String> {
    let node_type = half(body, 0);
    let good = if kind == 4 { 15..=16 } else { 1..=14 };
    match good.contains(&node_type) {
        true => Ok(node_type),
        false => Err(format!("node type {node_type} for kind {kind}, which has {}", range(&good))),
    }
}

/// The phandle, the name and the value of a property.
fn property(body: &[u8]) -> Result<(u32, &[u8], &[u8]), String> {
    let rest = &body[4..];
    let Some(length) = rest.iter().position(|&byte| byte == 0) else {
        return Err(String::from("its name has no NUL"));
    };
    let (name, value) = (&rest[..length], &rest[length + 1..]);
    if name.is_empty() || name.len() > NAME_LIMIT {
        return Err(format!("a name of {} bytes; a name has 1 to {NAME_LIMIT}", name.len()));
    }
    match value.len() > VALUE_LIMIT {
        true => Err(format!("a value of {} bytes; a value has at most {VALUE_LIMIT}", value.len())),
        false => Ok((word(body, 0), name, value)),
    }
}

/// What a record of an inventory says.
#[derive(Clone, Copy, PartialEq, Eq, Debug)]
pub struct Listed<'a> {
    /// 0 for an indicator, 1 for a sensor.
    pub flag: u16,
    pub type_number: u32,
    pub index: u32,
    pub code: &'a [u8],
}

/// What a record says that `first` found in an inventory; or why it is malformed.
pub fn listed<'a>(record: &Record<'a>) -> Result<Listed<'a>, String> {
    let body = record.body;
    let (flag, code) = (half(body, 0), &body[10..]);
    if flag > 1 {
        return Err(format!("flag {flag}, which is neither 0 for an indicator nor 1 for a sensor"));
    }
    match code.iter().position(|&byte| byte == 0) {
        Some(place) => Err(format!("a NUL in its location code, after {place} of {} bytes", code.len())),
        None => Ok(Listed { flag, type_number: word(body, 2), index: word(body, 6), code }),
    }
}

fn half(body: &[u8], at: usize) -> u16 {
    u16::from_le_bytes([body[at], body[at + 1]])
}

/// The number of four bytes at a place.
pub fn word(body: &[u8], at: usize) -> u32 {
    u32::from(half(body, at)) | u32::from(half(body, at + 2)) << 16
}

/// Whether a journal is well formed, as the calls judge it; or its first record that is malformed. A journal of more than
/// 1,048,576 bytes may be given as its first 1,048,577.
pub fn judge_journal(bytes: &[u8]) -> Result<(), Flaw> {
    judge(&JOURNAL, bytes, |record| change(record).map(|_| ()))
}

/// The same of an inventory.
pub fn judge_inventory(bytes: &[u8]) -> Result<(), Flaw> {
    judge(&INVENTORY, bytes, |record| listed(record).map(|_| ()))
}

fn judge(sort: &Sort, bytes: &[u8], body: impl Fn(&Record) -> Result<(), String>) -> Result<(), Flaw> {
    let (mut offset, mut number) = (0, 1);
    while offset < bytes.len() {
        let record = first(sort, &bytes[offset..], offset as u64);
        match record.and_then(|record| body(&record).map(|()| record.size())) {
            Ok(size) => offset += size,
            Err(what) => return Err(Flaw { record: number, offset: offset as u64, what }),
        }
        number += 1;
    }
    Ok(())
}
