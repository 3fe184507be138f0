//! A journal with its tallies: a record is judged, copied and counted.

use super::journal::{node_size, property, LIMIT, ROWS};
use super::words::le16;
use crate::tallies::{Keeper, Tallies};

/// Numbers of what is refused.
pub const MALFORMED: u32 = 50;
pub const NO_ROOM: u32 = 51;

/// A journal that counts as it goes. The bytes in use stand at the front of the buffer.
pub struct Journal {
    pub buffer: Vec<u8>,
    pub used: usize,
    pub tallies: Tallies,
}

/// The size of the good record that these bytes begin with.
fn record_size(bytes: &[u8]) -> Option<usize> {
    if bytes.len() < 10 {
        return None;
    }
    match le16(bytes, 2) {
        5 | 6 => property(bytes).map(|property| property.size),
        _ => node_size(bytes),
    }
}

/// Counts a good record in every row.
pub fn count(tallies: &mut Tallies, record: &[u8]) {
    let opcode = match le16(record, 2) {
        kind @ 1..=3 => usize::from(kind) - 1,
        4 => 1,
        _ => return,
    };
    let node = usize::from(le16(record, 4));
    for (counts, row) in tallies.rows.iter_mut().zip(&ROWS) {
        counts[opcode] += u64::from(row[node] >> opcode & 1);
    }
}

/// The tallies of a journal, counted in one pass.
#[inline(never)]
pub fn recount(journal: &[u8]) -> Option<Tallies> {
    if journal.len() > LIMIT {
        return None;
    }
    let (mut tallies, mut rest) = (Tallies::ZERO, journal);
    while !rest.is_empty() {
        let size = record_size(rest)?;
        count(&mut tallies, rest);
        rest = &rest[size..];
    }
    Some(tallies)
}

impl Journal {
    /// An empty one in a buffer of so many bytes.
    pub fn new(size: usize) -> Journal {
        Journal { buffer: vec![0; size], used: 0, tallies: Tallies::ZERO }
    }

    pub fn has_room(&self, size: usize) -> bool {
        size <= self.buffer.len() - self.used && self.used + size <= LIMIT
    }

    pub fn put(&mut self, bytes: &[u8]) {
        self.buffer[self.used..self.used + bytes.len()].copy_from_slice(bytes);
        self.used += bytes.len();
    }

    /// Joins a whole journal.
    #[inline(never)]
    pub fn join(&mut self, part: &[u8]) -> u32 {
        let Some(more) = recount(part) else {
            return MALFORMED;
        };
        if !self.has_room(part.len()) {
            return NO_ROOM;
        }
        self.put(part);
        let counts = self.tallies.rows.iter_mut().flatten();
        counts.zip(more.rows.iter().flatten()).for_each(|(count, more)| *count += more);
        0
    }

    /// Appends a record without counting it, and counts the whole journal anew.
    #[inline(never)]
    pub fn append_recounting(&mut self, record: &[u8]) -> u32 {
        if record_size(record) != Some(record.len()) {
            return MALFORMED;
        }
        if !self.has_room(record.len()) {
            return NO_ROOM;
        }
        self.put(record);
        self.tallies = recount(&self.buffer[..self.used]).expect("the bytes in use are a journal");
        0
    }
}

impl Keeper for Journal {
    #[inline(never)]
    fn append(&mut self, record: &[u8]) -> u32 {
        if record_size(record) != Some(record.len()) {
            return MALFORMED;
        }
        if !self.has_room(record.len()) {
            return NO_ROOM;
        }
        count(&mut self.tallies, record);
        self.put(record);
        0
    }

    fn clear(&mut self) {
        self.used = 0;
        self.tallies = Tallies::ZERO;
    }

    fn tallies(&self) -> Tallies {
        self.tallies
    }
}
