//! The rules and lines of get-indices.

use super::{first_bad_record, Line};
use crate::case::CallCase;
use crate::compare::CallResult;
use crate::paper::{get_indices, records};

pub const RULES: [&str; 19] = [
    "answered",
    "flag",
    "type",
    "size under 4",
    "address + size above 2^32",
    "area not inside memory",
    "flag unlike the record's",
    "type unlike the record's",
    "number unlike the record's",
    "edition unlike the record's",
    "malformed: oversized",
    "malformed: records do not fill the buffer",
    "malformed: kind",
    "malformed: length",
    "malformed: flag",
    "malformed: NUL in a code",
    "no entry of this flag and type",
    "Starting Number",
    "the entry due does not fit",
];

pub struct Facts {
    memory: u64,
    flag: u64,
    kind: u64,
    end: u64,
    size: u64,
    start: u64,
    rule: &'static str,
    status: i32,
    inventory_bytes: usize,
    inventory_good: bool,
    /// The first record that is malformed: its kind and length, its flag.
    bad_record: Option<(u64, u64)>,
    bad_flag: Option<u64>,
    /// The number of entries of this flag and type, where the inventory was judged good.
    entries: Option<u64>,
    /// The sizes of the entries from the one due on.
    sizes: Vec<u64>,
    /// The codes' lengths of the entries from the one due on.
    codes: Vec<usize>,
}

pub fn facts(case: &CallCase, result: &CallResult, inputs: &[u64]) -> Facts {
    let inventory = records::inventory(&case.inventory);
    let bad = first_bad_record(&case.inventory, |record| records::inventory(record).is_err());
    let mut facts = Facts {
        memory: case.memory.len() as u64,
        flag: inputs[0],
        kind: inputs[1],
        end: inputs[2] + inputs[3],
        size: inputs[3],
        start: inputs[4],
        rule: result.rule,
        status: result.status().unwrap_or(0),
        inventory_bytes: case.inventory.len(),
        inventory_good: inventory.is_ok(),
        bad_record: bad.map(|record| (super::little(&record[2..4]), super::little(&record[..2]))),
        bad_flag: bad.and_then(|record| record.get(4..6)).map(super::little),
        entries: None,
        sizes: Vec::new(),
        codes: Vec::new(),
    };
    if RULES[1..=15].contains(&result.rule) {
        return facts;
    }
    let all = inventory.unwrap_or_default();
    let asked: Vec<_> = all.iter().filter(|e| e.flag == facts.flag && e.kind == facts.kind).collect();
    facts.entries = Some(asked.len() as u64);
    let due = (facts.start as usize).saturating_sub(1).min(asked.len());
    facts.sizes = asked[due..].iter().map(|entry| get_indices::entry_bytes(entry.code)).collect();
    facts.codes = asked[due..].iter().map(|entry| entry.code.len()).collect();
    facts
}

/// The numbers of entries whose run ends exactly `more` bytes past the area (0: it fills the area).
fn run_ends(facts: &Facts, more: u64) -> Option<usize> {
    let mut end = 4;
    for (place, size) in facts.sizes.iter().enumerate() {
        end += size;
        if end == facts.size + more {
            return Some(place + 1);
        }
    }
    None
}

fn judged(facts: &Facts) -> bool {
    facts.entries.is_some_and(|entries| entries > 0)
}

fn answered_code(facts: &Facts, length: usize) -> bool {
    facts.rule.is_empty() && facts.codes[0] == length
}

/// The call was refused by the inventory.
fn malformed(facts: &Facts) -> bool {
    RULES[10..=15].contains(&facts.rule)
}

fn bad_length(facts: &Facts, length: u64) -> bool {
    facts.rule == RULES[13] && facts.bad_record == Some((16, length))
}

fn bad_long_code(facts: &Facts) -> bool {
    facts.rule == RULES[15] && facts.bad_record.is_some_and(|record| record.1 > 12 + 255)
}

fn bad_kind(facts: &Facts, kind: u64) -> bool {
    facts.rule == RULES[12] && facts.bad_record.is_some_and(|record| record.0 == kind)
}

fn bad_flag(facts: &Facts, flag: u64) -> bool {
    facts.rule == RULES[14] && facts.bad_flag == Some(flag)
}

pub const LINES: &[Line<Facts>] = &[
    ("indicator, type 9000 answered", |f| f.flag == 0 && f.kind == 9000 && f.rule.is_empty()),
    ("indicator, type 9001", |f| f.flag == 0 && f.kind == 9001),
    ("indicator, type 9002", |f| f.flag == 0 && f.kind == 9002),
    ("indicator, type 9003", |f| f.flag == 0 && f.kind == 9003),
    ("indicator, type 9004 answered", |f| f.flag == 0 && f.kind == 9004 && f.rule.is_empty()),
    ("sensor, type 9001 answered", |f| f.flag == 1 && f.kind == 9001 && f.rule.is_empty()),
    ("sensor, type 9002 answered", |f| f.flag == 1 && f.kind == 9002 && f.rule.is_empty()),
    ("sensor, type 9003", |f| f.flag == 1 && f.kind == 9003),
    ("sensor, type 9004 answered", |f| f.flag == 1 && f.kind == 9004 && f.rule.is_empty()),
    ("flag 2", |f| f.flag == 2),
    ("flag with bit 31", |f| f.flag >= 0x8000_0000),
    ("size 0", |f| f.size == 0),
    ("size 3", |f| f.size == 3),
    ("size 4, does not fit", |f| f.size == 4 && f.rule == RULES[18]),
    ("size 15, does not fit", |f| f.size == 15 && f.rule == RULES[18]),
    ("size 16 answered", |f| f.size == 16 && f.rule.is_empty()),
    ("size 1,035, does not fit", |f| f.size == 1035 && f.rule == RULES[18]),
    ("size 1,036 answered, code of 1,023 bytes", |f| f.size == 1036 && answered_code(f, 1023)),
    ("size 1,037 answered, code of 1,023 bytes", |f| f.size == 1037 && answered_code(f, 1023)),
    ("address + size where memory ends, answered", |f| f.end == f.memory && f.rule.is_empty()),
    ("address + size one past memory", |f| f.end == f.memory + 1),
    ("address + size = 2^32", |f| f.end == 1 << 32),
    ("address + size = 2^32 + 1", |f| f.end == (1 << 32) + 1),
    ("address + size wraps to inside memory", |f| f.end > 1 << 32 && f.end - (1 << 32) <= f.memory),
    ("inventory malformed, size 3", |f| !f.inventory_good && f.rule == RULES[3] && f.size == 3),
    ("inventory malformed, size 4", |f| malformed(f) && f.size == 4),
    ("inventory malformed, Starting Number 0", |f| malformed(f) && f.start == 0),
    ("inventory malformed, type refused", |f| !f.inventory_good && f.rule == "type"),
    ("inventory refused, code of no bytes", |f| bad_length(f, 12)),
    ("inventory refused, code of 1,024 bytes", |f| bad_length(f, 1036)),
    ("inventory refused, length 11", |f| bad_length(f, 11)),
    ("inventory refused, kind 1", |f| bad_kind(f, 1)),
    ("inventory refused, kind 17", |f| bad_kind(f, 17)),
    ("inventory refused, flag 2", |f| bad_flag(f, 2)),
    ("inventory refused, flag 0x100", |f| bad_flag(f, 0x100)),
    ("inventory refused, NUL in a code of over 255 bytes", bad_long_code),
    ("inventory empty", |f| f.inventory_bytes == 0),
    ("inventory of 1,048,576 bytes, good", |f| f.inventory_bytes == 1_048_576 && f.inventory_good),
    ("inventory of 1,048,577 bytes", |f| f.inventory_bytes == 1_048_577),
    ("Starting Number 0", |f| judged(f) && f.start == 0),
    ("Starting Number 1", |f| judged(f) && f.start == 1),
    ("Starting Number n, answered", |f| f.rule.is_empty() && f.entries == Some(f.start)),
    ("Starting Number n + 1", |f| judged(f) && f.entries.is_some_and(|n| n + 1 == f.start)),
    ("Starting Number 0x80000000", |f| judged(f) && f.start == 0x8000_0000),
    ("Starting Number 0x80000001", |f| judged(f) && f.start == 0x8000_0001),
    ("Starting Number 0xffffffff", |f| judged(f) && f.start == 0xffff_ffff),
    ("the area holds the entry due exactly", |f| run_ends(f, 0) == Some(1) && f.rule.is_empty()),
    ("the area is one byte short of the entry due", |f| run_ends(f, 1) == Some(1) && f.rule == RULES[18]),
    ("a run of two or more fills the area", |f| run_ends(f, 0) >= Some(2) && f.rule.is_empty()),
    ("the area is one byte short of the next entry", |f| run_ends(f, 1) >= Some(2) && f.status == 1),
    ("status 1", |f| f.status == 1),
    ("status 0", |f| f.status == 0),
    ("code of 1 byte", |f| answered_code(f, 1)),
    ("code of 3 bytes", |f| answered_code(f, 3)),
    ("code of 4 bytes", |f| answered_code(f, 4)),
    ("code of 79 bytes", |f| answered_code(f, 79)),
    ("code of 80 bytes", |f| answered_code(f, 80)),
    ("code of 255 bytes", |f| answered_code(f, 255)),
    ("code of 256 bytes", |f| answered_code(f, 256)),
    ("code of 1,020 bytes", |f| answered_code(f, 1020)),
    ("code of 1,022 bytes", |f| answered_code(f, 1022)),
    ("code of 1,023 bytes", |f| answered_code(f, 1023)),
];
