//! M-112 "One place to ask for a location."

use super::readers::{self, Index, Refused};
use super::words::word;

/// "in the fixed property .. or in an index area"
#[derive(Clone, Copy, PartialEq, Eq, Debug)]
pub enum Holder {
    Area,
    Fixed,
}

/// "The answer is the code itself as it stands in whichever buffer had it, without its NULs."
#[derive(Clone, Copy, PartialEq, Eq, Debug)]
pub struct Code {
    pub holder: Holder,
    pub at: u64,
    pub length: u64,
}

/// "Refusals: 30 to 33 for the area, then not found", with the rule that it is not found by.
#[derive(Clone, Copy, PartialEq, Eq, Debug)]
pub enum Missed {
    Refused(Refused),
    NotFound(&'static str),
}

/// "One lookup over both: an index that the area lists wins, first match; otherwise the fixed list." "0xFFFFFFFF is always
/// not found".
pub fn lookup(area: &[u8], fixed: &[u8], index: u64) -> Result<Code, Missed> {
    let entries = readers::read_indices(area).map_err(Missed::Refused)?;
    if index == 0xffff_ffff {
        return Err(Missed::NotFound("0xFFFFFFFF"));
    }
    let listed = entries.iter().find(|entry| u64::from(entry.index) == index);
    match listed {
        Some(entry) => Ok(Code { holder: Holder::Area, at: entry.code_at, length: entry.code_length }),
        None => fixed_code(fixed, index),
    }
}

/// "An empty code, or one without its NUL in the fixed list, counts as not found."
fn fixed_code(fixed: &[u8], index: u64) -> Result<Code, Missed> {
    let entries = fixed_entries(fixed);
    match entries.get(index as usize) {
        None => Err(Missed::NotFound("no such entry")),
        Some(entry) if entry.length == 0 => Err(Missed::NotFound("an empty code")),
        Some(entry) if !entry.ended => Err(Missed::NotFound("a code without its NUL")),
        Some(entry) => Ok(Code { holder: Holder::Fixed, at: entry.at, length: entry.length }),
    }
}

/// An entry of the fixed list: where it begins, its bytes without the NUL, and whether it has one.
pub struct FixedEntry {
    pub at: u64,
    pub length: u64,
    pub ended: bool,
}

/// "NUL-terminated codes, entry number, from 0, equal to index". Empty ones are entries, and so are the bytes behind the
/// last NUL.
pub fn fixed_entries(fixed: &[u8]) -> Vec<FixedEntry> {
    let mut entries = Vec::new();
    let mut at = 0;
    while at < fixed.len() {
        let nul = fixed[at..].iter().position(|&byte| byte == 0);
        let length = nul.unwrap_or(fixed.len() - at);
        entries.push(FixedEntry { at: at as u64, length: length as u64, ended: nul.is_some() });
        at += length + 1;
    }
    entries
}

/// Where a view stands: "a view that holds the index area and its position". So many entries are still to come from there.
#[derive(Clone, Copy, PartialEq, Eq, Debug)]
pub struct Position {
    pub at: u64,
    pub left: u64,
}

/// What a step gives.
#[derive(Clone, Copy, PartialEq, Eq, Debug)]
pub enum Given {
    Entry(Index),
    End,
    Refused(Refused),
}

/// Behind the count. An area without one has no entries.
pub fn view_start(area: &[u8]) -> Position {
    let left = if area.len() < 4 { 0 } else { word(area, 0) };
    Position { at: 4, left }
}

/// "its steps from the start give the area's entries in order, then the end or the reading's refusal, and that again."
pub fn view_step(area: &[u8], position: &Position) -> (Given, Position) {
    if area.len() < 4 {
        return (Given::Refused(Refused { number: 30, offset: 0 }), *position);
    }
    if position.left == 0 {
        return (Given::End, *position);
    }
    match set_at(area, position.at) {
        Ok((entry, field)) => {
            let behind = Position { at: position.at + 8 + field as u64, left: position.left - 1 };
            (Given::Entry(entry), behind)
        }
        Err(refused) => (Given::Refused(refused), *position),
    }
}

/// The set at any place: "31 under 8 bytes left", also where the place is past the end.
fn set_at(area: &[u8], at: u64) -> Result<(Index, usize), Refused> {
    if at > area.len() as u64 {
        return Err(Refused { number: 31, offset: at });
    }
    readers::read_set(area, at as usize)
}
