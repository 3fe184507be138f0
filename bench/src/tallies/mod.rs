//! A journal that is kept with its tallies: what is kept, and the sides that keep it.

mod independent;
#[cfg(not(feature = "stand-in"))]
mod library;

/// The counts of negative scopes, of scopes 1 and 2, and of scope 3; each deletes, updates, additions.
#[repr(C)]
#[derive(Clone, Copy, PartialEq, Eq, Debug)]
pub struct Tallies {
    pub rows: [[u64; 3]; 4],
}

impl Tallies {
    pub const ZERO: Tallies = Tallies { rows: [[0; 3]; 4] };
}

/// The bytes in use, and the tallies of the journal that they are.
#[repr(C)]
#[derive(Clone, Copy, PartialEq, Eq, Debug)]
pub struct Tallied {
    pub used: usize,
    pub tallies: Tallies,
}

impl Tallied {
    pub const EMPTY: Tallied = Tallied { used: 0, tallies: Tallies::ZERO };
}

/// What an operation gives: its number, and what is kept then.
#[repr(C)]
#[derive(Clone, Copy, PartialEq, Eq, Debug)]
pub struct Kept {
    pub number: u32,
    pub journal: Tallied,
}

/// What a count of a whole journal gives: its number, and the tallies.
#[repr(C)]
#[derive(Clone, Copy, PartialEq, Eq, Debug)]
pub struct Recount {
    pub number: u32,
    pub tallies: Tallies,
}

/// An append or a join: a buffer, what is kept beside it, and what is put behind the use.
pub type Operation = fn(&mut [u8], Tallied, &[u8]) -> Kept;

/// One implementation.
pub struct Keeping {
    pub append: Operation,
    pub join: Operation,
    pub recount: fn(&[u8]) -> Recount,
}

/// The independent program.
pub const INDEPENDENT: Keeping = independent::KEEPING;

/// The proved library.
#[cfg(not(feature = "stand-in"))]
pub const PROVED: Keeping = library::KEEPING;
#[cfg(feature = "stand-in")]
pub const PROVED: Keeping = independent::KEEPING;

/// A journal that records are appended to until it is cleared. An append answers its number.
pub trait Keeper {
    fn append(&mut self, record: &[u8]) -> u32;
    fn clear(&mut self);
    fn tallies(&self) -> Tallies;
}

/// A journal that the proved library keeps.
pub struct Journal {
    pub buffer: Vec<u8>,
    pub kept: Tallied,
}

impl Journal {
    /// An empty one in a buffer of so many bytes.
    pub fn new(size: usize) -> Journal {
        Journal { buffer: vec![0; size], kept: Tallied::EMPTY }
    }

    pub fn join(&mut self, part: &[u8]) -> u32 {
        let kept = (PROVED.join)(&mut self.buffer, self.kept, part);
        self.kept = kept.journal;
        kept.number
    }
}

impl Keeper for Journal {
    fn append(&mut self, record: &[u8]) -> u32 {
        let kept = (PROVED.append)(&mut self.buffer, self.kept, record);
        self.kept = kept.journal;
        kept.number
    }

    fn clear(&mut self) {
        self.kept = Tallied::EMPTY;
    }

    fn tallies(&self) -> Tallies {
        self.kept.tallies
    }
}

/// The records of a well-formed journal.
pub fn records(journal: &[u8]) -> Vec<&[u8]> {
    let (mut found, mut rest) = (Vec::new(), journal);
    while let [low, high, ..] = rest {
        let (record, behind) = rest.split_at(2 + usize::from(u16::from_le_bytes([*low, *high])));
        found.push(record);
        rest = behind;
    }
    found
}
