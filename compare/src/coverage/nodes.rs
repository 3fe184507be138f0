//! The rules and lines of update-nodes.

use super::{first_bad_record, Line};
use crate::case::CallCase;
use crate::compare::CallResult;
use crate::paper::{readers, records, scope, update_nodes};

pub const RULES: [&str; 15] = [
    "answered",
    "address no multiple of 4,096",
    "area not inside memory",
    "scope",
    "malformed: oversized",
    "malformed: records do not fill the buffer",
    "malformed: kind",
    "malformed: length",
    "malformed: node type",
    "bytes 4 to 15 not zero",
    "bytes 12 to 15 not zero",
    "state",
    "malformed: name",
    "malformed: bytes behind a deleted property's name",
    "malformed: value",
];

pub struct Facts {
    memory: u64,
    address: u64,
    scope: u64,
    rule: &'static str,
    journal_bytes: usize,
    journal_good: bool,
    /// The area's bytes 4 to 15.
    behind_state: Vec<u8>,
    state: u64,
    /// The units of a small journal's records, where it is good.
    units: Vec<u64>,
    /// A small journal, good, has records of kinds 5 and 6.
    properties: bool,
    /// The first record that is malformed: its kind and length, its node type.
    bad_record: Option<(u64, u64)>,
    bad_node_type: Option<u64>,
    /// The length of the reportable list, where the state was judged.
    list: Option<u64>,
    /// The words that were handed out, and whether operations remain.
    handed_out: Option<(u64, bool)>,
    /// The number of operations of each opcode that were handed out.
    opcodes: [u64; 3],
}

pub fn facts(case: &CallCase, result: &CallResult, inputs: &[u64]) -> Facts {
    let (address, scope) = (inputs[0], inputs[1]);
    let at = address as usize;
    let area = case.memory.get(at..at + 4096).unwrap_or(&[]);
    let bad = first_bad_record(&case.journal, |record| records::journal(record).is_err());
    let mut facts = Facts {
        memory: case.memory.len() as u64,
        address,
        scope,
        rule: result.rule,
        journal_bytes: case.journal.len(),
        journal_good: records::journal(&case.journal).is_ok(),
        behind_state: area.iter().skip(4).take(12).copied().collect(),
        state: area.get(..4).map_or(0, super::big),
        units: units(&case.journal),
        properties: has_properties(&case.journal),
        bad_record: bad.map(|record| (super::little(&record[2..4]), super::little(&record[..2]))),
        bad_node_type: bad.and_then(|record| record.get(4..6)).map(super::little),
        list: None,
        handed_out: None,
        opcodes: [0; 3],
    };
    if matches!(result.rule, "" | "state") {
        facts.list = list_length(case, scope, area);
    }
    if result.rule.is_empty() {
        note_run(&mut facts, &result.memory.content()[at..at + 4096], result.status() == Some(1));
    }
    facts
}

fn list_length(case: &CallCase, scope: u64, area: &[u8]) -> Option<u64> {
    let changes = records::journal(&case.journal).ok()?;
    let unit = update_nodes::unit_asked_for(scope, area);
    Some(scope::reportable_list(&changes, &scope::row(scope)?, unit).len() as u64)
}

fn units(journal: &[u8]) -> Vec<u64> {
    let changes = if journal.len() <= 4096 { records::journal(journal).unwrap_or_default() } else { Vec::new() };
    changes.iter().filter_map(|change| change.unit).collect()
}

fn has_properties(journal: &[u8]) -> bool {
    journal.len() <= 4096 && records::properties(journal).is_ok_and(|properties| !properties.is_empty())
}

fn note_run(facts: &mut Facts, area: &[u8], remain: bool) {
    let Ok(nodes) = readers::read_nodes(area, facts.scope) else {
        return;
    };
    facts.handed_out = Some((update_nodes::cost(&nodes.operations), remain));
    for operation in &nodes.operations {
        facts.opcodes[operation.opcode as usize - 1] += 1;
    }
}

fn aligned_end(facts: &Facts) -> Option<u64> {
    facts.address.is_multiple_of(4096).then_some(facts.address + 4096)
}

/// The call was refused by the journal.
fn malformed(facts: &Facts) -> bool {
    facts.rule.starts_with("malformed")
}

/// The first malformed record: its kind and its length.
fn bad(facts: &Facts, kind: u64, length: u64) -> bool {
    malformed(facts) && facts.bad_record == Some((kind, length))
}

fn bad_node_type(facts: &Facts, node_type: u64) -> bool {
    facts.rule == RULES[8] && facts.bad_node_type == Some(node_type)
}

/// The first malformed record is of this kind, and its node type is what is wrong with it.
fn bad_type_in(facts: &Facts, kind: u64, node_type: u64) -> bool {
    bad_node_type(facts, node_type) && facts.bad_record.is_some_and(|record| record.0 == kind)
}

fn answered(facts: &Facts, scope: u64) -> bool {
    facts.rule.is_empty() && facts.scope == scope
}

/// Of the area's bytes 4 to 15 this one alone is not zero.
fn alone_not_zero(facts: &Facts, byte: usize) -> bool {
    let not_zero = facts.behind_state.iter().enumerate().filter(|place| *place.1 != 0);
    not_zero.map(|place| 4 + place.0).eq([byte])
}

/// The unit that an answered call of scope 3 asks for.
fn unit(facts: &Facts) -> Option<u64> {
    answered(facts, 3).then(|| super::big(&facts.behind_state[..8]))
}

/// An answered call of scope 3 over a journal with its unit and with one that differs from it so.
fn beside_unit(facts: &Facts, differs: fn(u64, u64) -> bool) -> bool {
    unit(facts).is_some_and(|unit| facts.units.contains(&unit) && facts.units.iter().any(|&other| differs(unit, other)))
}

/// An answered call of another scope passes over records of kind 4.
fn passes_over_units(facts: &Facts) -> bool {
    facts.rule.is_empty() && facts.scope != 3 && !facts.units.is_empty()
}

pub const LINES: &[Line<Facts>] = &[
    ("the area ends where memory ends", |f| aligned_end(f) == Some(f.memory)),
    ("the area ends one byte past memory", |f| aligned_end(f) == Some(f.memory + 1)),
    ("the area ends at 2^32", |f| aligned_end(f) == Some(1 << 32)),
    ("no memory", |f| f.memory == 0),
    ("scope 0", |f| f.scope == 0),
    ("scope 1", |f| f.scope == 1),
    ("scope 2", |f| f.scope == 2),
    ("scope 3", |f| f.scope == 3),
    ("scope 4", |f| f.scope == 4),
    ("scope 0x7fffffff", |f| f.scope == 0x7fff_ffff),
    ("scope 0x80000000", |f| f.scope == 0x8000_0000),
    ("scope 0xffffffff", |f| f.scope == 0xffff_ffff),
    ("address refused over a malformed journal", |f| f.rule == RULES[1] && !f.journal_good),
    ("scope refused over a malformed journal", |f| f.rule == "scope" && !f.journal_good),
    ("journal refused, bytes 4 to 15 not zero", |f| malformed(f) && f.behind_state.iter().any(|&byte| byte != 0)),
    ("journal refused in scope 3, byte 12 not zero", |f| malformed(f) && f.scope == 3 && f.behind_state[8] != 0),
    ("scope 1 refused, byte 4 alone not zero", |f| f.rule == RULES[9] && f.scope == 1 && alone_not_zero(f, 4)),
    ("scope 1 refused, byte 11 alone not zero", |f| f.rule == RULES[9] && f.scope == 1 && alone_not_zero(f, 11)),
    ("scope 1 refused, byte 12 alone not zero", |f| f.rule == RULES[9] && f.scope == 1 && alone_not_zero(f, 12)),
    ("scope 1 refused, byte 15 alone not zero", |f| f.rule == RULES[9] && f.scope == 1 && alone_not_zero(f, 15)),
    ("scope 0x80000003 refused, byte 4 not zero", |f| {
        f.rule == RULES[9] && f.scope == 0x8000_0003 && f.behind_state[0] != 0
    }),
    ("scope 3 answered, byte 4 alone not zero", |f| answered(f, 3) && alone_not_zero(f, 4)),
    ("scope 3 answered, byte 11 alone not zero", |f| answered(f, 3) && alone_not_zero(f, 11)),
    ("scope 3 refused, byte 12 alone not zero", |f| f.rule == RULES[10] && alone_not_zero(f, 12)),
    ("scope 3 refused, byte 15 alone not zero", |f| f.rule == RULES[10] && alone_not_zero(f, 15)),
    ("journal refused, state 0xffffffff", |f| malformed(f) && f.state == 0xffff_ffff),
    ("journal refused, kind 0", |f| bad(f, 0, 8)),
    ("journal refused, kind 4 of length 8", |f| bad(f, 4, 8)),
    ("journal refused, kind 4 of length 12", |f| bad(f, 4, 12)),
    ("journal refused, kind 4 of length 15", |f| bad(f, 4, 15)),
    ("journal refused, kind 4 of length 17", |f| bad(f, 4, 17)),
    ("journal refused, kind 7 of length 16", |f| bad(f, 7, 16)),
    ("journal refused, kind 5 of length 7", |f| bad(f, 5, 7)),
    ("journal refused, kind 6 of length 39", |f| bad(f, 6, 39)),
    ("journal refused, kind 5 by its name", |f| f.rule == RULES[12] && f.bad_record.is_some_and(|r| r.0 == 5)),
    ("journal refused, kind 6 by its name", |f| f.rule == RULES[12] && f.bad_record.is_some_and(|r| r.0 == 6)),
    ("journal refused, node type 14 in kind 4", |f| bad_type_in(f, 4, 14)),
    ("journal refused, node type 17 in kind 4", |f| bad_type_in(f, 4, 17)),
    ("journal refused, node type 0 in kind 4", |f| bad_type_in(f, 4, 0)),
    ("journal refused, node type 0x10f in kind 4", |f| bad_type_in(f, 4, 0x10f)),
    ("journal refused, node type 15 in kind 1", |f| bad_type_in(f, 1, 15)),
    ("journal refused, node type 15 in kind 2", |f| bad_type_in(f, 2, 15)),
    ("journal refused, node type 15 in kind 3", |f| bad_type_in(f, 3, 15)),
    ("journal refused, node type 16 in kind 1", |f| bad_type_in(f, 1, 16)),
    ("journal refused, node type 16 in kind 2", |f| bad_type_in(f, 2, 16)),
    ("journal refused, node type 16 in kind 3", |f| bad_type_in(f, 3, 16)),
    ("journal refused, node type 17 in kind 2", |f| bad_type_in(f, 2, 17)),
    ("journal refused, delete of length 7", |f| bad(f, 1, 7)),
    ("journal refused, delete of length 9", |f| bad(f, 1, 9)),
    ("journal refused, update of length 12", |f| bad(f, 2, 12)),
    ("journal refused, addition of length 8", |f| bad(f, 3, 8)),
    ("journal refused, addition of length 16", |f| bad(f, 3, 16)),
    ("journal refused, node type 0", |f| bad_node_type(f, 0)),
    ("journal refused, node type 0x101", |f| bad_node_type(f, 0x101)),
    ("journal empty", |f| f.journal_bytes == 0),
    ("journal of 1,048,576 bytes, good", |f| f.journal_bytes == 1_048_576 && f.journal_good),
    ("journal above 1,048,576 bytes", |f| f.journal_bytes > 1_048_576),
    ("kind 4 passed over in scope 1", |f| passes_over_units(f) && f.scope == 1),
    ("kind 4 passed over in scope 2", |f| passes_over_units(f) && f.scope == 2),
    ("kind 4 passed over in a negative scope", |f| passes_over_units(f) && f.scope >= 0x8000_0000),
    ("kinds 5 and 6 passed over in scope 1", |f| answered(f, 1) && f.properties),
    ("kinds 5 and 6 passed over in scope 2", |f| answered(f, 2) && f.properties),
    ("kinds 5 and 6 passed over in scope 3", |f| answered(f, 3) && f.properties),
    ("kinds 5 and 6 passed over in a negative scope", |f| f.rule.is_empty() && f.scope >= 0x8000_0000 && f.properties),
    ("unit 0, with records", |f| unit(f) == Some(0) && f.units.contains(&0)),
    ("unit 0, without a record", |f| unit(f) == Some(0) && !f.units.is_empty() && !f.units.contains(&0)),
    ("a unit without a record beside others", |f| {
        unit(f).is_some_and(|u| !f.units.is_empty() && !f.units.contains(&u))
    }),
    ("a unit of the high word alone", |f| unit(f).is_some_and(|u| f.units.contains(&u) && u as u32 == 0 && u > 0)),
    ("a unit of the low word alone", |f| unit(f).is_some_and(|u| f.units.contains(&u) && u >> 32 == 0 && u > 0)),
    ("beside a unit with another high word alone", |f| beside_unit(f, |u, o| u as u32 == o as u32 && u != o)),
    ("beside a unit with another low word alone", |f| beside_unit(f, |u, o| u >> 32 == o >> 32 && u != o)),
    ("beside a unit with another high byte alone", |f| beside_unit(f, |u, o| u << 8 == o << 8 && u != o)),
    ("beside a unit with another low byte alone", |f| beside_unit(f, |u, o| u >> 8 == o >> 8 && u != o)),
    ("beside a unit with its bytes turned round", |f| beside_unit(f, |u, o| u.swap_bytes() == o && u != o)),
    ("beside a unit with its words exchanged", |f| beside_unit(f, |u, o| u.rotate_left(32) == o && u != o)),
    ("beside unit 0", |f| beside_unit(f, |u, o| o == 0 && u != 0)),
    ("a unit's state equal to its list's length, below the number of units' records", |f| {
        f.rule == RULES[11] && f.scope == 3 && f.list == Some(f.state) && f.state < f.units.len() as u64
    }),
    ("a unit's 1,018 updates, nothing remains", |f| f.scope == 3 && f.handed_out == Some((1019, false))),
    ("a unit's 1,018 updates, more remain", |f| f.scope == 3 && f.handed_out == Some((1019, true))),
    ("a unit's 1,017 updates, nothing remains", |f| f.scope == 3 && f.handed_out == Some((1018, false))),
    ("a unit, state above 0, nothing remains", |f| {
        unit(f).is_some() && f.state > 0 && f.handed_out.is_some_and(|r| !r.1)
    }),
    ("list empty, state 0", |f| f.list == Some(0) && f.state == 0),
    ("list empty, state above 0", |f| f.list == Some(0) && f.state > 0),
    ("state one below the list's length, above 0", |f| f.state > 0 && f.list == Some(f.state + 1)),
    ("state equal to the list's length, above 0", |f| f.state > 0 && f.list == Some(f.state)),
    ("state one above the list's length", |f| f.state > 0 && f.list == Some(f.state - 1)),
    ("state with bit 31", |f| f.list.is_some() && f.state >= 0x8000_0000),
    ("nothing handed out", |f| f.handed_out == Some((0, false))),
    ("1,018 words, nothing remains", |f| f.handed_out == Some((1018, false))),
    ("1,019 words, nothing remains", |f| f.handed_out == Some((1019, false))),
    ("1,019 words, operations remain", |f| f.handed_out == Some((1019, true))),
    ("1,018 words, operations remain", |f| f.handed_out == Some((1018, true))),
    ("1,017 words, operations remain", |f| f.handed_out == Some((1017, true))),
    ("1,018 deletes alone", |f| f.opcodes == [1018, 0, 0]),
    ("1,018 updates alone", |f| f.opcodes == [0, 1018, 0]),
    ("509 additions alone", |f| f.opcodes == [0, 0, 509]),
    ("all three opcodes in one area", |f| f.opcodes.iter().all(|&times| times > 0)),
    ("state above 0, operations remain", |f| f.state > 0 && f.handed_out.is_some_and(|run| run.1)),
];
