//! "Kernel dump registration"

use super::words::{big, word};
use super::{refused, Refusal};

#[derive(Clone, Copy, PartialEq, Eq, Debug)]
pub enum Phase {
    None,
    Registered,
    Active,
}

/// "The registration is none, registered (with a copy of the structure) or active"
#[derive(Clone, Copy, PartialEq, Eq, Debug)]
pub struct Registration {
    pub phase: Phase,
    pub length: u32,
    pub copy: [u8; 512],
}

/// "Inputs: command, address, length."
pub struct Inputs {
    pub command: u64,
    pub address: u64,
    pub length: u64,
}

/// The new registration, or the rule that refuses the command.
pub fn configure_kernel_dump(
    memory: &[u8],
    inputs: &Inputs,
    registration: &Registration,
) -> Result<Registration, Refusal> {
    judge_command(inputs.command, registration.phase)?;
    if inputs.command != 1 {
        return Ok(none());
    }
    if !(40..=512).contains(&inputs.length) {
        return refused(-3, "length not 40 to 512");
    }
    if inputs.address + inputs.length > memory.len() as u64 {
        return refused(-3, "structure not inside memory");
    }
    let structure = &memory[inputs.address as usize..(inputs.address + inputs.length) as usize];
    match broken_rule(structure) {
        Some(rule) => refused(-3, rule),
        None => Ok(registered(structure)),
    }
}

/// "Order: command 1 to 3 (-3); active and command 1 or 2 (-10); registered and command 1 (-9); command 2 when not
/// registered, or 3 when not active (-3)."
fn judge_command(command: u64, phase: Phase) -> Result<(), Refusal> {
    if !(1..=3).contains(&command) {
        return refused(-3, "command");
    }
    if phase == Phase::Active && (command == 1 || command == 2) {
        return refused(-10, "dump active");
    }
    if phase == Phase::Registered && command == 1 {
        return refused(-9, "already registered");
    }
    if command == 2 && phase != Phase::Registered {
        return refused(-3, "command 2 when not registered");
    }
    if command == 3 && phase != Phase::Active {
        return refused(-3, "command 3 when not active");
    }
    Ok(())
}

/// "none holds an empty one, and space past a copy is zero"
fn none() -> Registration {
    Registration { phase: Phase::None, length: 0, copy: [0; 512] }
}

fn registered(structure: &[u8]) -> Registration {
    let mut copy = [0; 512];
    copy[..structure.len()].copy_from_slice(structure);
    Registration { phase: Phase::Registered, length: structure.len() as u32, copy }
}

/// The first 40 bytes of the structure, without the milliseconds, which may be any.
pub struct Header {
    version: u64,
    pub sections: u64,
    status_flags: u64,
    pub first_section: u64,
    pub block_size: u64,
    first_block: u64,
    blocks: u64,
    pub path: u64,
}

/// "Structure: version (4 bytes) 1; sections (2) 1 to 10; status flags (2) zero; offset of first section (4); block
/// size (4); first block (8); blocks (8); path offset (4); milliseconds (4), any."
pub fn header(structure: &[u8]) -> Header {
    Header {
        version: word(structure, 0),
        sections: big(&structure[4..6]),
        status_flags: big(&structure[6..8]),
        first_section: word(structure, 8),
        block_size: word(structure, 12),
        first_block: big(&structure[16..24]),
        blocks: big(&structure[24..32]),
        path: word(structure, 32),
    }
}

impl Header {
    /// The first byte behind the sections.
    pub fn sections_end(&self) -> u64 {
        self.first_section + 40 * self.sections
    }
}

/// The rule that the structure of 40 bytes or more breaks, if it breaks one.
pub fn broken_rule(structure: &[u8]) -> Option<&'static str> {
    let header = header(structure);
    broken_in_header(&header, structure.len() as u64)
        .or_else(|| broken_in_sections(&header, structure))
        .or_else(|| broken_without_disk(&header, structure))
        .or_else(|| broken_path(&header, structure))
}

/// "Sections of 40 bytes follow each other from an offset of at least 40 and end within the length."
fn broken_in_header(header: &Header, length: u64) -> Option<&'static str> {
    if header.version != 1 {
        return Some("version");
    }
    if !(1..=10).contains(&header.sections) {
        return Some("number of sections");
    }
    if header.status_flags != 0 {
        return Some("status flags");
    }
    if header.first_section < 40 {
        return Some("first section under 40");
    }
    if header.sections_end() > length {
        return Some("sections not within the length");
    }
    None
}

/// The sections, which are within the structure.
fn sections<'a>(header: &Header, structure: &'a [u8]) -> impl Iterator<Item = &'a [u8]> {
    structure[header.first_section as usize..header.sections_end() as usize].chunks(40)
}

fn broken_in_sections(header: &Header, structure: &[u8]) -> Option<&'static str> {
    sections(header, structure).find_map(broken_in_section)
}

/// "A section: request flags (4), 0 or 0x00000001; type (2), 1, 2, 0x11, 0x12 or 0x100 and up; error flags (2) zero;
/// source (8), requested (8); actual (8) zero; destination (8)."
fn broken_in_section(section: &[u8]) -> Option<&'static str> {
    if word(section, 0) > 1 {
        return Some("request flags");
    }
    if !matches!(big(&section[4..6]), 1 | 2 | 0x11 | 0x12 | 0x100..) {
        return Some("section type");
    }
    if big(&section[6..8]) != 0 {
        return Some("error flags");
    }
    if big(&section[24..32]) != 0 {
        return Some("actual");
    }
    None
}

/// "Block size 0 means no disk: first block, blocks and path offset are 0 and every section has request flag 1."
fn broken_without_disk(header: &Header, structure: &[u8]) -> Option<&'static str> {
    if header.block_size != 0 {
        return None;
    }
    if header.first_block != 0 {
        return Some("no disk, first block");
    }
    if header.blocks != 0 {
        return Some("no disk, blocks");
    }
    if header.path != 0 {
        return Some("no disk, path offset");
    }
    if sections(header, structure).any(|section| word(section, 0) != 1) {
        return Some("no disk, request flag 0");
    }
    None
}

/// "Otherwise first block and blocks may hold anything, and the path starts at 40 or later, is not empty, ends at the
/// first NUL inside the length, and with its NUL shares no byte with the sections."
fn broken_path(header: &Header, structure: &[u8]) -> Option<&'static str> {
    if header.block_size == 0 {
        return None;
    }
    if header.path < 40 {
        return Some("path under 40");
    }
    let Some(nul) = path_nul(header, structure) else {
        return Some("path without NUL");
    };
    if nul == header.path {
        return Some("path empty");
    }
    let shared = |byte: u64| header.first_section <= byte && byte < header.sections_end();
    if (header.path..=nul).any(shared) {
        return Some("path shares bytes with the sections");
    }
    None
}

/// The place of the first NUL at the path's start or later, inside the length.
pub fn path_nul(header: &Header, structure: &[u8]) -> Option<u64> {
    (header.path..structure.len() as u64).find(|&at| structure[at as usize] == 0)
}
