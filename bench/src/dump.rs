//! The dumps that are run: a structure of one section, and the memories that it goes over.

use crate::interface::Registration;

/// Types of a section that reads partition memory, and of one that reads platform memory.
pub const PARTITION: u16 = 0x11;
pub const PLATFORM: u16 = 1;

/// Where the section stands in its structure, and the structure's length.
const FIRST: usize = 40;
const STRUCTURE: usize = 80;

/// A section that copies all that it asks for.
#[derive(Clone, Copy)]
pub struct Section {
    pub kind: u16,
    pub source: usize,
    pub length: usize,
    pub destination: usize,
}

impl Section {
    /// Partition memory that it lies in, and no more.
    pub fn memory(&self) -> Vec<u8> {
        let source_end = if self.kind == PLATFORM { 0 } else { self.source + self.length };
        bytes(source_end.max(self.destination + self.length), 7)
    }

    /// Platform memory that it lies in, and no more.
    pub fn platform(&self) -> Vec<u8> {
        bytes(if self.kind == PLATFORM { self.source + self.length } else { 0 }, 11)
    }

    /// What it has to do, by memmove or memcpy.
    pub fn move_bytes(&self, memory: &mut [u8], platform: &[u8]) {
        let source = self.source..self.source + self.length;
        match self.kind {
            PLATFORM => memory[self.destination..self.destination + self.length].copy_from_slice(&platform[source]),
            _ => memory.copy_within(source, self.destination),
        }
    }
}

/// Bytes that do not repeat within a page.
fn bytes(length: usize, step: usize) -> Vec<u8> {
    (0..length).map(|at| (step * at + at / 251) as u8).collect()
}

/// The registration of a structure with this section and without a disk.
pub fn registered(section: &Section) -> Registration {
    let mut copy = [0; 512];
    (copy[3], copy[5], copy[11]) = (1, 1, FIRST as u8);
    (copy[FIRST + 3], copy[FIRST + 5]) = (1, section.kind as u8);
    for (at, number) in [(8, section.source), (16, section.length), (32, section.destination)] {
        copy[FIRST + at..FIRST + at + 8].copy_from_slice(&(number as u64).to_be_bytes());
    }
    Registration { phase: 1, length: STRUCTURE, copy }
}
