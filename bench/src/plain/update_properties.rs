//! ibm,update-properties.

use super::journal::{self, Property};
use super::words::{be32, le16, le32, put_be32};
use super::{MALFORMED, PARAMETER};
use crate::interface::NODE_AREA;

/// Where the properties begin in an area.
const HEAD: usize = 20;
/// The bytes that an area has for them.
const ROOM: usize = NODE_AREA - HEAD;

/// What a call begins with: the node's record at this offset of the journal, and the byte of its value.
#[derive(Clone, Copy)]
struct Due {
    at: usize,
    byte: usize,
}

/// The status, or that of a refusal. The inputs are the address and the scope.
pub fn update_properties(inputs: &[u8], memory: &mut [u8], journal: &[u8]) -> Result<i32, i32> {
    let address = be32(inputs, 0) as usize;
    if !address.is_multiple_of(NODE_AREA) {
        return Err(PARAMETER);
    }
    let area = memory.get_mut(address..address + NODE_AREA).ok_or(PARAMETER)?;
    journal::row(be32(inputs, 4)).ok_or(PARAMETER)?;
    let phandle = be32(area, 0);
    let due = find_due(journal, phandle, be32(area, 4) as usize).ok_or(MALFORMED)?;
    if area[8..16].iter().any(|&byte| byte != 0) {
        return Err(PARAMETER);
    }
    let (count, state) = write_properties(area, journal, phandle, due.ok_or(PARAMETER)?);
    put_be32(area, 4, state as u32);
    put_be32(area, 16, count);
    Ok(i32::from(state > 0))
}

/// Judges every record and follows the node's session; nothing where the journal is malformed. Gives what is due where
/// the session carries the state.
#[inline(never)]
fn find_due(journal: &[u8], phandle: u32, state: usize) -> Option<Option<Due>> {
    if journal.len() > journal::LIMIT {
        return None;
    }
    let mut session = Session { state, left: ROOM, begun: false, due: None };
    let mut at = 0;
    while at < journal.len() {
        let rest = &journal[at..];
        if rest.len() < 10 {
            return None;
        }
        if !matches!(le16(rest, 2), 5 | 6) {
            at += journal::node_size(rest)?;
            continue;
        }
        let property = journal::property(rest)?;
        if le32(rest, 4) == phandle {
            session.hand_out(at, &property);
        }
        at += property.size;
    }
    Some(session.due)
}

/// A session that is followed: the state that is looked for, and the bytes that its area has left.
struct Session {
    state: usize,
    left: usize,
    begun: bool,
    due: Option<Due>,
}

impl Session {
    /// The node's next property. Where it goes on in another area, that is noted if it begins with the state.
    fn hand_out(&mut self, at: usize, property: &Property) {
        if !self.begun {
            self.begun = true;
            self.note(0, at, 0);
        }
        let head = property.name + 5;
        let mut byte = 0;
        while head + property.value() - byte > self.left {
            byte += self.left.saturating_sub(head);
            let state = if byte == 0 { at } else { at + property.value_from + byte };
            self.note(state, at, byte);
            self.left = ROOM;
        }
        self.left -= head + property.value() - byte;
    }

    fn note(&mut self, state: usize, at: usize, byte: usize) {
        if state == self.state {
            self.due = Some(Due { at, byte });
        }
    }
}

/// Walks a good journal from the record due on and writes the node's properties, as many as fit. Gives their number and
/// the new state, 0 where nothing remains.
fn write_properties(area: &mut [u8], journal: &[u8], phandle: u32, due: Due) -> (u32, usize) {
    let Due { mut at, mut byte } = due;
    let (mut place, mut count) = (HEAD, 0);
    while at < journal.len() {
        let size = 2 + usize::from(le16(journal, at));
        let record = &journal[at..at + size];
        if !matches!(le16(record, 2), 5 | 6) || le32(record, 4) != phandle {
            at += size;
            continue;
        }
        let name = name_with_nul(record);
        let value = &record[8 + name.len() + byte..];
        let fits = (NODE_AREA - place).saturating_sub(name.len() + 4);
        let whole = NODE_AREA - place >= name.len() + 4 && value.len() <= fits;
        if !whole && fits == 0 {
            return (count, at);
        }
        count += 1;
        let handed_out = if whole { value } else { &value[..fits] };
        let descriptor = descriptor(le16(record, 2), handed_out.len() as u32, whole);
        place = write_property(&mut area[place..], name, descriptor, handed_out) + place;
        if !whole {
            return (count, at + 8 + name.len() + byte + fits);
        }
        at += size;
        byte = 0;
    }
    (count, 0)
}

/// The name of a good record of kind 5 or 6, with its NUL.
fn name_with_nul(record: &[u8]) -> &[u8] {
    let name = record[8..].iter().position(|&byte| byte == 0).unwrap_or(0);
    &record[8..8 + name + 1]
}

fn descriptor(kind: u16, length: u32, whole: bool) -> u32 {
    match (kind, whole) {
        (6, _) => 0x8000_0000,
        (_, true) => length,
        (_, false) => length.wrapping_neg(),
    }
}

/// Writes one property, and tells how many bytes it takes.
fn write_property(area: &mut [u8], name: &[u8], descriptor: u32, value: &[u8]) -> usize {
    let value_at = name.len() + 4;
    area[..name.len()].copy_from_slice(name);
    put_be32(area, name.len(), descriptor);
    area[value_at..value_at + value.len()].copy_from_slice(value);
    value_at + value.len()
}
