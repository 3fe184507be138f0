//! The rules and lines of configure-kernel-dump.

use super::Line;
use crate::case::CallCase;
use crate::compare::CallResult;
use crate::paper::kernel_dump::{header, path_nul, Header};

pub const RULES: [&str; 25] = [
    "answered",
    "command",
    "dump active",
    "already registered",
    "command 2 when not registered",
    "command 3 when not active",
    "length not 40 to 512",
    "structure not inside memory",
    "version",
    "number of sections",
    "status flags",
    "first section under 40",
    "sections not within the length",
    "request flags",
    "section type",
    "error flags",
    "actual",
    "no disk, first block",
    "no disk, blocks",
    "no disk, path offset",
    "no disk, request flag 0",
    "path under 40",
    "path without NUL",
    "path empty",
    "path shares bytes with the sections",
];

pub struct Facts {
    memory: u64,
    command: u64,
    phase: u32,
    end: u64,
    length: u64,
    answered: bool,
    rule: &'static str,
    /// Bytes of the given copy past its length that are not zero.
    unclean: bool,
    copy_length: u32,
    structure: Option<Structure>,
}

/// The structure of a command 1 that came as far.
struct Structure {
    header: Header,
    nul: Option<u64>,
    /// The types of the sections, where these are within the length.
    types: Vec<u64>,
    requests: Vec<u64>,
}

pub fn facts(case: &CallCase, result: &CallResult, inputs: &[u64]) -> Facts {
    let (command, address, length) = (inputs[0], inputs[1], inputs[2]);
    let copy_end = (case.registration.length as usize).min(512);
    let judged = result.rule.is_empty() && command == 1 || RULES[8..].contains(&result.rule);
    Facts {
        memory: case.memory.len() as u64,
        command,
        phase: case.registration.phase,
        end: address + length,
        length,
        answered: result.rule.is_empty(),
        rule: result.rule,
        unclean: case.registration.copy[copy_end..].iter().any(|&byte| byte != 0),
        copy_length: case.registration.length,
        structure: judged.then(|| structure(&case.memory[address as usize..(address + length) as usize])),
    }
}

fn structure(bytes: &[u8]) -> Structure {
    let header = header(bytes);
    let nul = path_nul(&header, bytes);
    let (first, end) = (header.first_section as usize, header.sections_end() as usize);
    let sections = bytes.get(first..end).unwrap_or(&[]);
    Structure {
        types: sections.chunks(40).map(|section| super::big(&section[4..6])).collect(),
        requests: sections.chunks(40).map(|section| super::big(&section[..4])).collect(),
        header,
        nul,
    }
}

fn given(facts: &Facts, phase: u32, command: u64) -> bool {
    facts.phase == phase && facts.command == command
}

/// Command 1 over no registration: the structure is looked at.
fn registering(facts: &Facts) -> bool {
    given(facts, 0, 1)
}

fn with(facts: &Facts, holds: impl Fn(&Structure) -> bool) -> bool {
    facts.structure.as_ref().is_some_and(holds)
}

/// A good structure of which this holds.
fn good(facts: &Facts, holds: impl Fn(&Structure) -> bool) -> bool {
    facts.answered && with(facts, holds)
}

/// A structure refused by this rule of which this holds.
fn bad(facts: &Facts, rule: &str, holds: impl Fn(&Structure) -> bool) -> bool {
    facts.rule == rule && with(facts, holds)
}

fn has_type(facts: &Facts, kind: u64) -> bool {
    facts.rule == "section type" && with(facts, |s| s.types.contains(&kind))
}

fn disk(structure: &Structure) -> bool {
    structure.header.block_size != 0
}

pub const LINES: &[Line<Facts>] = &[
    ("none, command 0", |f| given(f, 0, 0)),
    ("none, command 1", |f| given(f, 0, 1)),
    ("none, command 2", |f| given(f, 0, 2)),
    ("none, command 3", |f| given(f, 0, 3)),
    ("none, command 4", |f| given(f, 0, 4)),
    ("registered, command 0", |f| given(f, 1, 0)),
    ("registered, command 1", |f| given(f, 1, 1)),
    ("registered, command 2", |f| given(f, 1, 2)),
    ("registered, command 3", |f| given(f, 1, 3)),
    ("registered, command 4", |f| given(f, 1, 4)),
    ("active, command 0", |f| given(f, 2, 0)),
    ("active, command 1", |f| given(f, 2, 1)),
    ("active, command 2", |f| given(f, 2, 2)),
    ("active, command 3", |f| given(f, 2, 3)),
    ("active, command 4", |f| given(f, 2, 4)),
    ("command with bit 31", |f| f.command >= 0x8000_0000),
    ("refused over an unclean copy", |f| !f.answered && f.unclean),
    ("answered over an unclean copy", |f| f.answered && f.unclean),
    ("copy of 512 bytes", |f| f.copy_length == 512),
    ("length 39", |f| registering(f) && f.length == 39),
    ("length 40", |f| registering(f) && f.length == 40),
    ("length 79", |f| registering(f) && f.length == 79),
    ("length 80, good", |f| good(f, |_| f.length == 80)),
    ("length 512, good", |f| good(f, |_| f.length == 512)),
    ("length 513", |f| registering(f) && f.length == 513),
    ("ends where memory ends, good", |f| good(f, |_| f.end == f.memory)),
    ("ends one byte past memory", |f| registering(f) && f.end == f.memory + 1),
    ("address + length above 2^32", |f| registering(f) && f.end > 1 << 32 && f.length <= 512),
    ("sections 0", |f| with(f, |s| s.header.sections == 0)),
    ("one section, good", |f| good(f, |s| s.header.sections == 1)),
    ("ten sections, good", |f| good(f, |s| s.header.sections == 10)),
    ("sections 11", |f| with(f, |s| s.header.sections == 11)),
    ("first section 39", |f| with(f, |s| s.header.first_section == 39)),
    ("first section 40, good", |f| good(f, |s| s.header.first_section == 40)),
    ("sections end where the length ends, good", |f| good(f, |s| s.header.sections_end() == f.length)),
    ("sections end one byte past the length", |f| with(f, |s| s.header.sections_end() == f.length + 1)),
    ("sections end above 2^32", |f| with(f, |s| s.header.sections_end() > 1 << 32)),
    ("no disk, good", |f| good(f, |s| !disk(s))),
    ("disk, good", |f| good(f, disk)),
    ("disk, request flag 0, good", |f| good(f, |s| disk(s) && s.requests.contains(&0))),
    ("request flags 2", |f| bad(f, "request flags", |s| s.requests.contains(&2))),
    ("type 0", |f| has_type(f, 0)),
    ("type 1, good", |f| good(f, |s| s.types.contains(&1))),
    ("type 2, good", |f| good(f, |s| s.types.contains(&2))),
    ("type 3", |f| has_type(f, 3)),
    ("type 0x10", |f| has_type(f, 0x10)),
    ("type 0x11, good", |f| good(f, |s| s.types.contains(&0x11))),
    ("type 0x12, good", |f| good(f, |s| s.types.contains(&0x12))),
    ("type 0x13", |f| has_type(f, 0x13)),
    ("type 0xff", |f| has_type(f, 0xff)),
    ("type 0x100, good", |f| good(f, |s| s.types.contains(&0x100))),
    ("type 0xffff, good", |f| good(f, |s| s.types.contains(&0xffff))),
    ("path 39", |f| bad(f, "path under 40", |s| s.header.path == 39)),
    ("path 40, good", |f| good(f, |s| s.header.path == 40)),
    ("path 40, no disk", |f| bad(f, "no disk, path offset", |s| s.header.path == 40)),
    ("path at the length", |f| bad(f, "path without NUL", |s| s.header.path == f.length)),
    ("path past the length", |f| bad(f, "path without NUL", |s| s.header.path > f.length)),
    ("path runs to the length without NUL", |f| bad(f, "path without NUL", |s| s.header.path < f.length)),
    ("path's NUL in the last byte, good", |f| good(f, |s| disk(s) && s.nul == Some(f.length - 1))),
    ("path's NUL right before the sections, good", |f| {
        good(f, |s| disk(s) && s.nul == Some(s.header.first_section - 1))
    }),
    ("path's NUL on the sections' first byte", |f| {
        bad(f, RULES[24], |s| s.header.path < s.header.first_section && s.nul == Some(s.header.first_section))
    }),
    ("path right behind the sections, good", |f| good(f, |s| disk(s) && s.header.path == s.header.sections_end())),
    ("path on the sections' last byte", |f| bad(f, RULES[24], |s| s.header.path + 1 == s.header.sections_end())),
    ("path inside the sections", |f| {
        bad(f, RULES[24], |s| s.header.path > s.header.first_section && s.nul < Some(s.header.sections_end()))
    }),
];
