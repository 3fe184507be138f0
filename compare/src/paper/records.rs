//! "Journal and inventory"

use super::words::{as_word, little};
use std::ops::RangeInclusive;

/// "Journal, at most 1,048,576 bytes", "Inventory, same limit".
const MOST_BYTES: usize = 1_048_576;

/// "A record is a two-byte length, a two-byte kind and a body; the length counts kind and body."
struct Record<'a> {
    /// The offset of its length field in the buffer.
    at: u64,
    length: u64,
    kind: u64,
    body: &'a [u8],
}

/// "An operation is an opcode (1 delete, 2 update, 3 add) with its operands: the phandle, or for an addition the
/// parent phandle and the drc-index." `second` is 0 where there is one operand.
#[derive(Clone, Copy, PartialEq, Eq, Debug)]
pub struct Operation {
    pub opcode: u32,
    pub first: u32,
    pub second: u32,
}

/// One journal record of kinds 1 to 4: the node type, the unit address where it has one, and the operation.
pub struct Change {
    pub node_type: u64,
    pub unit: Option<u64>,
    pub operation: Operation,
}

/// M-103: one journal record of kind 5 or 6, with its offset in the journal. A deleted property has no value.
#[derive(Clone, Copy, PartialEq, Eq, Debug)]
pub struct Property<'a> {
    pub at: u64,
    pub phandle: u64,
    pub name: &'a [u8],
    pub value: Option<&'a [u8]>,
}

/// One journal record of any kind.
enum Told<'a> {
    Node(Change),
    Property(Property<'a>),
}

/// One inventory record.
pub struct Entry<'a> {
    pub flag: u64,
    pub kind: u64,
    pub index: u32,
    pub code: &'a [u8],
}

/// The rule that makes a buffer malformed.
type Malformed = &'static str;

/// "Records fill the buffer exactly." "an oversized buffer is malformed"
fn records(buffer: &[u8]) -> Result<Vec<Record<'_>>, Malformed> {
    if buffer.len() > MOST_BYTES {
        return Err("malformed: oversized");
    }
    let mut found = Vec::new();
    let mut rest = buffer;
    while !rest.is_empty() {
        if rest.len() < 4 {
            return Err("malformed: records do not fill the buffer");
        }
        let length = little(&rest[0..2]);
        let end = 2 + length as usize;
        if length < 2 {
            return Err("malformed: length");
        }
        if end > rest.len() {
            return Err("malformed: records do not fill the buffer");
        }
        let at = (buffer.len() - rest.len()) as u64;
        found.push(Record { at, length, kind: little(&rest[2..4]), body: &rest[4..end] });
        rest = &rest[end..];
    }
    Ok(found)
}

/// "kinds 1 (delete) and 2 (update) hold a two-byte node type and a phandle, length 8; kind 3 (add) holds node type,
/// parent phandle and drc-index, length 12." M-100: "Journal kind 4 holds type, an eight-byte unit address and a
/// phandle, length 16". M-103: kind 5 has a phandle, a name of 1 to 31 bytes, its NUL and up to 32,768 bytes, kind 6
/// the same without a value.
fn told<'a>(record: &Record<'a>) -> Result<Told<'a>, Malformed> {
    match (record.kind, record.length) {
        (1 | 2, 8) | (3, 12) | (4, 16) => change(record).map(Told::Node),
        (5, 8..=32_806) | (6, 8..=38) => property(record).map(Told::Property),
        (1..=6, _) => Err("malformed: length"),
        _ => Err("malformed: kind"),
    }
}

/// A record of kinds 1 to 4 with the length of its kind.
fn change(record: &Record) -> Result<Change, Malformed> {
    let node_type = little(&record.body[0..2]);
    if !node_types(record.kind).contains(&node_type) {
        return Err("malformed: node type");
    }
    let word = |at: usize| as_word(little(&record.body[at..at + 4]));
    let (unit, operation) = match record.kind {
        // M-100: "it is an update"
        4 => (Some(little(&record.body[2..10])), Operation { opcode: 2, first: word(10), second: 0 }),
        3 => (None, Operation { opcode: 3, first: word(2), second: word(6) }),
        kind => (None, Operation { opcode: as_word(kind), first: word(2), second: 0 }),
    };
    Ok(Change { node_type, unit, operation })
}

/// Node types are 1 to 14, and in kind 4 they are 15 and 16. M-100: "for these types alone" and "these types in kinds 1
/// to 3 are malformed".
fn node_types(kind: u64) -> RangeInclusive<u64> {
    if kind == 4 {
        15..=16
    } else {
        1..=14
    }
}

/// M-103: "names have 1 to 31 non-zero bytes, values 0 to 32,768".
pub const LONGEST_NAME: usize = 31;
const LONGEST_VALUE: usize = 32_768;

/// M-103: "Journal kind 5 holds a phandle, a name with one NUL and a new value to the record's end, kind 6 a phandle
/// and a deleted property's name with one NUL". The name ends at the first NUL.
fn property<'a>(record: &Record<'a>) -> Result<Property<'a>, Malformed> {
    let phandle = little(&record.body[0..4]);
    let text = &record.body[4..];
    let nul = match text.iter().position(|&byte| byte == 0) {
        Some(nul @ 1..=LONGEST_NAME) => nul,
        _ => return Err("malformed: name"),
    };
    let (name, behind) = (&text[..nul], &text[nul + 1..]);
    if record.kind == 6 && !behind.is_empty() {
        return Err("malformed: bytes behind a deleted property's name");
    }
    if behind.len() > LONGEST_VALUE {
        return Err("malformed: value");
    }
    let value = if record.kind == 5 { Some(behind) } else { None };
    Ok(Property { at: record.at, phandle, name, value })
}

/// M-113: "codes up to 1,023 bytes".
const LONGEST_CODE: u64 = 1_023;

/// "kind 16 holds two bytes (0 indicator, 1 sensor), a four-byte type, a four-byte index and a location code of 1 to
/// 79 non-zero bytes; length 12 plus the code." M-113: "Raise the limit in the inventory".
fn entry<'a>(record: &Record<'a>) -> Result<Entry<'a>, Malformed> {
    if record.kind != 16 {
        return Err("malformed: kind");
    }
    if !(12 + 1..=12 + LONGEST_CODE).contains(&record.length) {
        return Err("malformed: length");
    }
    let flag = little(&record.body[0..2]);
    let kind = little(&record.body[2..6]);
    let index = as_word(little(&record.body[6..10]));
    let code = &record.body[10..];
    if flag > 1 {
        return Err("malformed: flag");
    }
    if code.contains(&0) {
        return Err("malformed: NUL in a code");
    }
    Ok(Entry { flag, kind, index, code })
}

/// The journal's records in order, or the rule that makes it malformed.
fn all_kinds(buffer: &[u8]) -> Result<Vec<Told<'_>>, Malformed> {
    records(buffer)?.iter().map(told).collect()
}

/// The number of a journal's records, or the rule that makes it malformed.
pub fn journal_records(buffer: &[u8]) -> Result<usize, Malformed> {
    all_kinds(buffer).map(|records| records.len())
}

/// The journal's changes of nodes in order, or the rule that makes it malformed. M-103: "Node updates pass over kinds 5
/// and 6."
pub fn journal(buffer: &[u8]) -> Result<Vec<Change>, Malformed> {
    let node = |told| match told {
        Told::Node(change) => Some(change),
        Told::Property(_) => None,
    };
    Ok(all_kinds(buffer)?.into_iter().filter_map(node).collect())
}

/// The journal's changes of properties in order, or the rule that makes it malformed.
pub fn properties(buffer: &[u8]) -> Result<Vec<Property<'_>>, Malformed> {
    let property = |told| match told {
        Told::Node(_) => None,
        Told::Property(property) => Some(property),
    };
    Ok(all_kinds(buffer)?.into_iter().filter_map(property).collect())
}

/// The inventory's records in order, or the rule that makes it malformed.
pub fn inventory(buffer: &[u8]) -> Result<Vec<Entry<'_>>, Malformed> {
    records(buffer)?.iter().map(entry).collect()
}
