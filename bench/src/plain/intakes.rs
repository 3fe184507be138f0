//! A journal that arrives in bursts: they are put together in a vector, and whole records are taken from its front.

use super::journal::property;
use super::tallies::{count, Journal, MALFORMED, NO_ROOM};
use super::words::le16;
use crate::intakes::{Left, Receiver};
use crate::tallies::Keeper;

/// A journal, and the bytes that are not stored yet.
pub struct Received {
    journal: Journal,
    pending: Vec<u8>,
    number: u64,
    fault: u32,
}

/// Whether a good record can have this length and kind.
fn is_front(length: u16, kind: u16) -> bool {
    match kind {
        1 | 2 => length == 8,
        3 => length == 12,
        4 => length == 16,
        5 => (8..=32_806).contains(&length),
        6 => (8..=38).contains(&length),
        _ => false,
    }
}

/// Whether the rest of a complete record is good, whose length and kind are: its node type, or its name and value.
fn is_good(kind: u16, record: &[u8]) -> bool {
    match kind {
        5 | 6 => property(record).is_some(),
        4 => (15..=16).contains(&le16(record, 4)),
        _ => (1..=14).contains(&le16(record, 4)),
    }
}

impl Received {
    /// An empty journal in a buffer of so many bytes.
    pub fn new(size: usize) -> Received {
        Received { journal: Journal::new(size), pending: Vec::new(), number: 1, fault: 0 }
    }
}

impl Receiver for Received {
    fn restart(&mut self) {
        self.journal.clear();
        self.pending.clear();
        (self.number, self.fault) = (1, 0);
    }

    #[inline(never)]
    fn burst(&mut self, bytes: &[u8]) -> u32 {
        if self.fault != 0 {
            return self.fault;
        }
        self.pending.extend_from_slice(bytes);
        let mut at = 0;
        while self.pending.len() - at >= 4 {
            let rest = &self.pending[at..];
            let (length, kind) = (le16(rest, 0), le16(rest, 2));
            if !is_front(length, kind) {
                self.fault = MALFORMED;
                break;
            }
            let size = 2 + usize::from(length);
            if rest.len() < size {
                break;
            }
            let record = &rest[..size];
            if !is_good(kind, record) {
                self.fault = MALFORMED;
                break;
            }
            if !self.journal.has_room(size) {
                self.fault = NO_ROOM;
                break;
            }
            self.journal.put(record);
            count(&mut self.journal.tallies, record);
            self.number += 1;
            at += size;
        }
        self.pending.drain(..at);
        if self.fault != 0 {
            self.pending.clear();
        }
        self.fault
    }

    fn left(&self) -> Left<'_> {
        let Journal { used, tallies, .. } = self.journal;
        Left { used, tallies, number: self.number, fault: self.fault, held: &self.pending }
    }

    fn buffer(&self) -> &[u8] {
        &self.journal.buffer
    }
}
