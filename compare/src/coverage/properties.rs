//! The rules and lines of update-properties.

use super::{first_bad_record, Line};
use crate::case::CallCase;
use crate::compare::CallResult;
use crate::paper::records::{self, Property};
use crate::paper::update_properties::{changes_of, handed_out, session, state_of, Due};

pub const RULES: [&str; 15] = [
    "answered",
    "address no multiple of 4,096",
    "area not inside memory",
    "scope",
    "malformed: oversized",
    "malformed: records do not fill the buffer",
    "malformed: kind",
    "malformed: length",
    "malformed: node type",
    "malformed: name",
    "malformed: bytes behind a deleted property's name",
    "malformed: value",
    "no record of this phandle",
    "bytes 8 to 15 not zero",
    "state",
];

pub struct Facts {
    memory: u64,
    address: u64,
    scope: u64,
    rule: &'static str,
    journal_bytes: usize,
    journal_good: bool,
    phandle: u64,
    state: u64,
    /// The area's bytes 8 to 15.
    reserved: Vec<u8>,
    /// The first record of a small journal that is malformed.
    bad_record: Vec<u8>,
    /// The phandles of a small journal's records of kinds 5 and 6, and those of its nodes.
    phandles: Vec<u64>,
    nodes: Vec<u64>,
    /// Of the node's session, where the state was judged.
    node: Option<Node>,
    /// Of an answered call.
    answer: Option<Answer>,
}

/// What the node's session carries, where its records and their values begin, and what other nodes' sessions carry.
struct Node {
    states: Vec<u64>,
    records: Vec<u64>,
    values: Vec<u64>,
    others: Vec<u64>,
}

/// What an answered call handed out.
struct Answer {
    names: Vec<Vec<u8>>,
    descriptors: Vec<u32>,
    values: Vec<Vec<u8>>,
    /// Bytes of the area behind the last property.
    left: usize,
    /// The call began within a value.
    continued: bool,
    /// Of what is due then: bytes of its name, and bytes of its value that are left; nothing where all is done.
    due: Option<(usize, usize)>,
}

pub fn facts(case: &CallCase, result: &CallResult, inputs: &[u64]) -> Facts {
    let (address, scope) = (inputs[0], inputs[1]);
    let area = case.memory.get(address as usize..).and_then(|rest| rest.get(..4096)).unwrap_or(&[]);
    let small = case.journal.len() <= 4096;
    let properties = records::properties(&case.journal);
    let bad = first_bad_record(&case.journal, |record| records::journal(record).is_err());
    let mut facts = Facts {
        memory: case.memory.len() as u64,
        address,
        scope,
        rule: result.rule,
        journal_bytes: case.journal.len(),
        journal_good: properties.is_ok(),
        phandle: area.get(..4).map_or(0, super::big),
        state: area.get(4..8).map_or(0, super::big),
        reserved: area.iter().skip(8).take(8).copied().collect(),
        bad_record: bad.unwrap_or_default().to_vec(),
        phandles: Vec::new(),
        nodes: if small { nodes(&case.journal) } else { Vec::new() },
        node: None,
        answer: None,
    };
    if let Ok(properties) = properties {
        note_properties(&mut facts, &properties, small);
    }
    facts
}

fn nodes(journal: &[u8]) -> Vec<u64> {
    let changes = records::journal(journal).unwrap_or_default();
    changes.iter().map(|change| u64::from(change.operation.first)).collect()
}

fn note_properties(facts: &mut Facts, properties: &[Property], small: bool) {
    if small {
        facts.phandles = properties.iter().map(|property| property.phandle).collect();
    }
    if !matches!(facts.rule, "" | "state") {
        return;
    }
    let changes = changes_of(properties, facts.phandle);
    let session = session(&changes);
    let due = session.iter().find(|&&due| state_of(&changes, due) == facts.state);
    facts.answer = due.filter(|_| facts.rule.is_empty()).map(|&due| answer(&changes, due));
    facts.node = Some(Node {
        states: session.iter().map(|&due| state_of(&changes, due)).collect(),
        records: changes.iter().map(|change| change.at).collect(),
        values: changes.iter().filter(|change| change.value.is_some()).map(value_at).collect(),
        others: if properties.len() <= 40 { other_states(properties, facts.phandle) } else { Vec::new() },
    });
}

fn value_at(change: &Property) -> u64 {
    change.at + 9 + change.name.len() as u64
}

/// What the sessions of the other nodes carry.
fn other_states(properties: &[Property], phandle: u64) -> Vec<u64> {
    let others = properties.iter().filter(|property| property.phandle != phandle);
    let states = others.flat_map(|other| {
        let changes = changes_of(properties, other.phandle);
        session(&changes).into_iter().map(|due| state_of(&changes, due)).collect::<Vec<u64>>()
    });
    states.collect()
}

fn answer(changes: &[Property], due: Due) -> Answer {
    let (pieces, next) = handed_out(changes, due);
    let bytes: usize = pieces.iter().map(|piece| piece.name.len() + 5 + piece.value.len()).sum();
    let rest = |change: &Property| (change.name.len(), change.value.map_or(0, <[u8]>::len) - next.byte);
    Answer {
        names: pieces.iter().map(|piece| piece.name.to_vec()).collect(),
        descriptors: pieces.iter().map(|piece| piece.descriptor).collect(),
        values: pieces.iter().map(|piece| piece.value.to_vec()).collect(),
        left: 4076 - bytes,
        continued: due.byte > 0,
        due: changes.get(next.change).map(rest),
    }
}

impl Answer {
    fn last(&self) -> u32 {
        self.descriptors[self.descriptors.len() - 1]
    }

    fn is_divided(&self) -> bool {
        self.last() > 0x8000_0000
    }

    fn equal_names(&self) -> bool {
        self.names.windows(2).any(|two| two[0] == two[1])
    }

    /// So many bytes are left, and what is due is not begun; `more` bytes above its name, NUL and descriptor.
    fn not_begun(&self, more: usize) -> bool {
        !self.is_divided() && self.due.is_some_and(|(name, value)| self.left == name + 5 + more && value > 0)
    }

    /// A deletion or a property without a value is due, and a byte is missing.
    fn one_byte_short(&self) -> bool {
        !self.is_divided() && self.due.is_some_and(|(name, value)| self.left == name + 4 && value == 0)
    }
}

fn aligned_end(facts: &Facts) -> Option<u64> {
    facts.address.is_multiple_of(4096).then_some(facts.address + 4096)
}

fn malformed(facts: &Facts) -> bool {
    facts.rule.starts_with("malformed")
}

fn kind(record: &[u8]) -> u64 {
    record.get(2..4).map_or(0, super::little)
}

fn length(record: &[u8]) -> u64 {
    record.get(..2).map_or(0, super::little)
}

/// The first malformed record is of this kind and length.
fn bad(facts: &Facts, of_kind: u64, of_length: u64) -> bool {
    malformed(facts) && kind(&facts.bad_record) == of_kind && length(&facts.bad_record) == of_length
}

/// The first malformed record is of this kind, and its name ends so, or not at all.
fn bad_name(facts: &Facts, of_kind: u64, test: fn(Option<usize>) -> bool) -> bool {
    let text = facts.bad_record.get(8..).unwrap_or(&[]);
    facts.rule == RULES[9] && kind(&facts.bad_record) == of_kind && test(text.iter().position(|&byte| byte == 0))
}

/// The byte behind the name of the first malformed record, of a kind 6 that goes on.
fn behind_name(facts: &Facts) -> Option<u8> {
    let text = facts.bad_record.get(8..).filter(|_| facts.rule == RULES[10])?;
    let nul = text.iter().position(|&byte| byte == 0)?;
    text.get(nul + 1).copied()
}

fn alone_not_zero(facts: &Facts, byte: usize) -> bool {
    let not_zero = facts.reserved.iter().enumerate().filter(|place| *place.1 != 0);
    facts.rule == RULES[13] && not_zero.map(|place| 8 + place.0).eq([byte])
}

fn answered(facts: &Facts, test: fn(&Answer) -> bool) -> bool {
    facts.answer.as_ref().is_some_and(test)
}

fn refused_state(facts: &Facts, test: fn(&Node, u64) -> bool) -> bool {
    facts.rule == "state" && facts.node.as_ref().is_some_and(|node| test(node, facts.state))
}

fn answered_state(facts: &Facts, test: fn(&Node, u64) -> bool) -> bool {
    facts.rule.is_empty() && facts.node.as_ref().is_some_and(|node| test(node, facts.state))
}

fn no_record(facts: &Facts) -> bool {
    facts.rule == RULES[12]
}

/// An answered call for a node beside one whose phandle differs from its own so.
fn beside(facts: &Facts, differs: fn(u64, u64) -> bool) -> bool {
    facts.rule.is_empty() && facts.phandles.iter().any(|&other| differs(facts.phandle, other))
}

pub const LINES: &[Line<Facts>] = &[
    ("the area ends where memory ends", |f| aligned_end(f) == Some(f.memory)),
    ("the area ends one byte past memory", |f| aligned_end(f) == Some(f.memory + 1)),
    ("the area ends at 2^32", |f| aligned_end(f) == Some(1 << 32)),
    ("no memory", |f| f.memory == 0),
    ("scope 0", |f| f.scope == 0),
    ("scope 4", |f| f.scope == 4),
    ("scope 0x7fffffff", |f| f.scope == 0x7fff_ffff),
    ("scope 1 answered", |f| f.rule.is_empty() && f.scope == 1),
    ("scope 2 answered", |f| f.rule.is_empty() && f.scope == 2),
    ("scope 3 answered", |f| f.rule.is_empty() && f.scope == 3),
    ("scope 0x80000000 answered", |f| f.rule.is_empty() && f.scope == 0x8000_0000),
    ("scope 0xffffffff answered", |f| f.rule.is_empty() && f.scope == 0xffff_ffff),
    ("address refused over a malformed journal", |f| f.rule == RULES[1] && !f.journal_good),
    ("scope refused over a malformed journal", |f| f.rule == "scope" && !f.journal_good),
    ("journal refused, bytes 8 to 15 not zero", |f| malformed(f) && f.reserved.iter().any(|&byte| byte != 0)),
    ("journal refused, state above 0", |f| malformed(f) && f.state > 0),
    ("journal refused, kind 7", |f| f.rule == RULES[6] && kind(&f.bad_record) == 7),
    ("journal refused, kind 5 of length 7", |f| bad(f, 5, 7)),
    ("journal refused, kind 6 of length 7", |f| bad(f, 6, 7)),
    ("journal refused, kind 6 of length 39", |f| bad(f, 6, 39)),
    ("journal refused, kind 5 without a name", |f| bad_name(f, 5, |nul| nul == Some(0))),
    ("journal refused, kind 6 without a name", |f| bad_name(f, 6, |nul| nul == Some(0))),
    ("journal refused, kind 5, name of 32 bytes", |f| bad_name(f, 5, |nul| nul == Some(32))),
    ("journal refused, kind 5 without NUL", |f| bad_name(f, 5, |nul| nul.is_none())),
    ("journal refused, kind 6 without NUL", |f| bad_name(f, 6, |nul| nul.is_none())),
    ("journal refused, kind 6 of length 39, name of 32 bytes", |f| {
        bad(f, 6, 39) && f.bad_record.last() == Some(&0) && f.bad_record.get(39).is_some_and(|&byte| byte != 0)
    }),
    ("journal refused, kind 6, a NUL more", |f| behind_name(f) == Some(0)),
    ("journal refused, kind 6, a byte more", |f| behind_name(f) > Some(0)),
    ("journal refused, value of 32,769 bytes in a good length", |f| f.rule == RULES[11]),
    ("journal refused, length above 32,806", |f| f.rule == RULES[7] && f.journal_bytes > 32_806),
    ("journal of 1,048,576 bytes, good", |f| f.journal_bytes == 1_048_576 && f.journal_good),
    ("journal above 1,048,576 bytes", |f| f.journal_bytes > 1_048_576),
    ("journal empty", |f| no_record(f) && f.journal_bytes == 0),
    ("no record of the phandle beside others", |f| no_record(f) && !f.phandles.is_empty()),
    ("the phandle in kinds 1 to 4 alone", |f| no_record(f) && f.nodes.contains(&f.phandle)),
    ("the phandle with its bytes turned round alone", |f| {
        no_record(f) && f.phandles.contains(&u64::from((f.phandle as u32).swap_bytes()))
    }),
    ("phandle 0 answered", |f| f.rule.is_empty() && f.phandle == 0),
    ("byte 8 alone not zero", |f| alone_not_zero(f, 8)),
    ("byte 15 alone not zero", |f| alone_not_zero(f, 15)),
    ("beside a node with another low byte", |f| beside(f, |p, o| p >> 8 == o >> 8 && p != o)),
    ("beside a node with another high byte", |f| beside(f, |p, o| p << 40 == o << 40 && p != o)),
    ("beside kinds 1 to 4", |f| f.rule.is_empty() && !f.nodes.is_empty()),
    ("state 0", |f| answered_state(f, |_, state| state == 0)),
    ("state at a record", |f| answered_state(f, |node, state| state > 0 && node.records.contains(&state))),
    ("state in a value", |f| answered_state(f, |node, state| state > 0 && !node.records.contains(&state))),
    ("the last state of several", |f| answered_state(f, |node, state| state > 0 && node.states.last() == Some(&state))),
    ("refused: the first record's offset", |f| refused_state(f, |node, state| node.records.first() == Some(&state))),
    ("refused: another record's offset", |f| refused_state(f, |node, state| node.records[1..].contains(&state))),
    ("refused: a value's first byte", |f| refused_state(f, |node, state| node.values.contains(&state))),
    ("refused: one below a state", |f| refused_state(f, |node, state| node.states.contains(&(state + 1)))),
    ("refused: one above a state", |f| refused_state(f, |node, state| node.states[1..].contains(&(state - 1)))),
    ("refused: another node's state", |f| refused_state(f, |node, state| node.others.contains(&state))),
    ("refused: the journal's length", |f| f.rule == "state" && f.state == f.journal_bytes as u64),
    ("refused: state with bit 31", |f| f.rule == "state" && f.state >= 0x8000_0000),
    ("a value that fits to the last byte", |f| {
        answered(f, |a| a.left == 0 && !a.is_divided() && a.values[a.values.len() - 1].len() > 1)
    }),
    ("one byte more", |f| answered(f, |a| a.is_divided() && a.due.is_some_and(|due| due.1 == 1))),
    ("room for no byte of a value", |f| answered(f, |a| a.not_begun(0))),
    ("room for one byte of a value", |f| answered(f, |a| a.last() == 0xffff_ffff)),
    ("no room for a name, NUL and descriptor", |f| {
        answered(f, |a| !a.is_divided() && a.due.is_some_and(|due| a.left < due.0 + 5))
    }),
    ("a byte short for a property without a value", |f| answered(f, |a| a.one_byte_short())),
    ("a property without a value to the last byte", |f| answered(f, |a| a.left == 0 && a.last() == 0)),
    ("a deletion to the last byte", |f| answered(f, |a| a.left == 0 && a.last() == 0x8000_0000)),
    ("a property without a value", |f| answered(f, |a| a.descriptors.contains(&0))),
    ("a deletion", |f| answered(f, |a| a.descriptors.contains(&0x8000_0000))),
    ("a value of one byte", |f| answered(f, |a| a.descriptors.contains(&1))),
    ("a name of 1 byte", |f| answered(f, |a| a.names.iter().any(|name| name.len() == 1))),
    ("a name of 30 bytes", |f| answered(f, |a| a.names.iter().any(|name| name.len() == 30))),
    ("a name of 31 bytes", |f| answered(f, |a| a.names.iter().any(|name| name.len() == 31))),
    ("equal names in a row", |f| answered(f, Answer::equal_names)),
    ("a NUL in a value", |f| answered(f, |a| a.values.iter().any(|value| value.contains(&0)))),
    ("a value begun", |f| answered(f, |a| a.is_divided() && !a.continued)),
    ("a value continued and not ended", |f| answered(f, |a| a.is_divided() && a.continued && a.names.len() == 1)),
    ("a value ended, and others behind it", |f| answered(f, |a| a.continued && a.names.len() > 1)),
    ("a value ended alone, nothing remains", |f| answered(f, |a| a.continued && a.names.len() == 1 && a.due.is_none())),
    ("a value ended with one byte", |f| answered(f, |a| a.continued && a.descriptors[0] == 1)),
    ("a value of 32,768 bytes begun", |f| {
        answered(f, |a| {
            !a.continued && a.is_divided() && a.due.is_some_and(|d| d.1 + a.values.concat().len() >= 32_768)
        })
    }),
    ("one property alone", |f| answered(f, |a| a.names.len() == 1 && a.due.is_none())),
    ("a hundred properties or more", |f| answered(f, |a| a.names.len() >= 100)),
];
