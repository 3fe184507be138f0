//! The library's interface: what its functions take and give.

/// The largest journal and the largest inventory, in bytes.
pub const LIMIT: usize = 1_048_576;

/// The size of a node work area, in bytes.
pub const NODE_AREA: usize = 4096;

/// The answer of a scan for malformed bytes.
pub const MALFORMED: u64 = u64::MAX;

/// The registration of a kernel dump: phase 0 none, 1 registered, 2 active.
#[repr(C)]
#[derive(Clone, Copy, PartialEq, Eq, Debug)]
pub struct Registration {
    pub phase: u32,
    pub length: usize,
    pub copy: [u8; 512],
}

/// The record of a partition's reading of a list: flag, type, the number of the entry due, and the edition.
#[repr(C)]
#[derive(Clone, Copy, PartialEq, Eq, Debug)]
pub struct ReadingRecord {
    pub flag: u32,
    pub kind: u32,
    pub number: u32,
    pub edition: u32,
}

/// What comes of an edit of an inventory: whether it is taken (1 or 0), and the edition afterwards.
#[repr(C)]
#[derive(Clone, Copy, PartialEq, Eq, Debug)]
pub struct Edit {
    pub taken: u32,
    pub edition: u32,
}

/// The number of a call, and the registration and the reading record afterwards.
#[repr(C)]
#[derive(Clone, Copy, PartialEq, Eq, Debug)]
pub struct Answer {
    pub number: u32,
    pub registration: Registration,
    pub reading: ReadingRecord,
}

/// What comes of the run of a dump: its number, its status, and the registration afterwards.
#[repr(C)]
#[derive(Clone, Copy, PartialEq, Eq, Debug)]
pub struct Run {
    pub number: u32,
    pub status: u32,
    pub registration: Registration,
}

/// What a replay comes to: verdict 0 agreed, with the number of calls; 1 differs, with the call and the offset of the byte;
/// 2 malformed, with the record.
#[repr(C)]
#[derive(Clone, Copy, PartialEq, Eq, Debug)]
pub struct Report {
    pub verdict: u32,
    pub offset: u32,
    pub number: u64,
}

/// Totals over traces: the calls of the tokens 1 to 4 by status, and whatever their status; of update-nodes the operations
/// that were handed out, the words that they took, and the words available.
#[repr(C)]
#[derive(Clone, Copy, PartialEq, Eq, Debug)]
pub struct Totals {
    pub calls: [[u64; 7]; 4],
    pub token_calls: [u64; 4],
    pub operations: u64,
    pub used: u64,
    pub available: u64,
}

impl Totals {
    /// Of no trace.
    pub const NONE: Totals = Totals { calls: [[0; 7]; 4], token_calls: [0; 4], operations: 0, used: 0, available: 0 };
}

/// What comes of adding a counted trace to no other: the number, its report, and the totals.
#[repr(C)]
#[derive(Clone, Copy, PartialEq, Eq, Debug)]
pub struct Added {
    pub number: u32,
    pub report: Report,
    pub totals: Totals,
}

/// What is replayed over a journal and an inventory with its edition, in bursts of so many bytes.
#[derive(Clone, Copy)]
#[cfg_attr(feature = "stand-in", allow(dead_code))]
pub struct Replayed<'a> {
    pub journal: &'a [u8],
    pub inventory: &'a [u8],
    pub edition: u32,
    pub trace: &'a [u8],
    pub burst: usize,
}

/// The buffers that a replay writes.
#[cfg_attr(feature = "stand-in", allow(dead_code))]
pub struct ReplayBuffers {
    pub held: Vec<u8>,
    pub args: Vec<u8>,
    pub memory: Vec<u8>,
}

impl ReplayBuffers {
    /// With this memory, and with as much room as a replay needs.
    pub fn new(memory: &[u8]) -> ReplayBuffers {
        ReplayBuffers { held: vec![0; 4104], args: vec![0; 4100], memory: memory.to_vec() }
    }
}

/// The run of a registered dump, over partition memory and platform memory.
pub type RunDump = fn(Registration, &mut [u8], &[u8]) -> Run;

/// A whole replay.
pub type Replay = fn(&mut ReplayBuffers, Replayed) -> Report;

/// A whole replay that counts.
pub type Count = fn(&mut ReplayBuffers, Replayed) -> Added;

/// What a node area tells: a refusal with its offset, or the state and the number of operations.
#[repr(C)]
#[derive(Clone, Copy, PartialEq, Eq, Debug)]
pub struct NodeReading {
    pub refusal: u32,
    pub state: u32,
    pub offset: usize,
    pub entries: usize,
}

/// What an index area tells: a refusal with its offset, or the number of entries.
#[repr(C)]
#[derive(Clone, Copy, PartialEq, Eq, Debug)]
pub struct IndexReading {
    pub refusal: u32,
    pub offset: usize,
    pub entries: usize,
}

/// What a property area tells: a refusal with its offset, or the phandle, the state and the number of properties.
#[repr(C)]
#[derive(Clone, Copy, PartialEq, Eq, Debug)]
pub struct PropertyReading {
    pub refusal: u32,
    pub phandle: u32,
    pub state: u32,
    pub offset: usize,
    pub entries: usize,
}

/// What is asked of a journal: the operations of a scope and, in scope 3, of a unit. In all other scopes the unit is 0.
#[derive(Clone, Copy)]
pub struct Wanted {
    pub scope: u32,
    pub unit: u64,
}

/// The entries of an inventory that are asked for. They are numbered from 1.
#[derive(Clone, Copy)]
pub struct Asked {
    pub flag: u32,
    pub kind: u32,
    pub number: u32,
}

/// An inventory that the proved scan has judged, with the number of the entries asked for. The search asks for both.
#[derive(Clone, Copy)]
pub struct Judged<'a> {
    inventory: &'a [u8],
    asked: Asked,
    count: u64,
}

impl<'a> Judged<'a> {
    /// Judges the inventory; panics where it is malformed.
    pub fn new(inventory: &'a [u8], asked: Asked) -> Judged<'a> {
        let count = (crate::library::SIDE.scan_inventory)(inventory, asked);
        assert_ne!(count, MALFORMED);
        Judged { inventory, asked, count }
    }

    pub fn inventory(&self) -> &'a [u8] {
        self.inventory
    }

    pub fn asked(&self) -> Asked {
        self.asked
    }

    pub fn count(&self) -> u64 {
        self.count
    }
}

/// A call with its argument buffer, memory, journal, inventory with its edition, registration and reading record.
pub type Call = fn(&mut [u8], &mut [u8], &[u8], &[u8], u32, Registration, ReadingRecord) -> Answer;

/// One implementation of the rules. A scan answers how many operations or entries there are.
pub struct Side {
    pub name: &'static str,
    pub scan_journal: fn(&[u8], Wanted) -> u64,
    pub scan_inventory: fn(&[u8], Asked) -> u64,
    /// The index of the last entry asked for, or 0 where there is none.
    pub search: fn(Judged) -> u32,
    /// The registration that a partition starts with.
    pub no_registration: fn() -> Registration,
    /// The reading record that a partition starts with.
    pub no_reading: fn() -> ReadingRecord,
    /// An edit of an inventory of this edition.
    pub edit: fn(u32) -> Edit,
    pub call: Call,
    /// Three words for each operation: opcode, first operand, second operand or 0. The number is the scope.
    pub read_nodes: fn(&[u8], u32, &mut [u32]) -> NodeReading,
    /// Three numbers for each entry: index, place of the code in the area, length of the code without its NULs.
    pub read_indices: fn(&[u8], &mut [u64]) -> IndexReading,
    /// Five words for each property: place and length of its name, its descriptor, place and length of its value.
    pub read_properties: fn(&[u8], &mut [u32]) -> PropertyReading,
}

/// The three sides: straightforward Rust, the independent program, and the proved library.
pub static SIDES: [Side; 3] = [crate::plain::SIDE, crate::independent::SIDE, crate::library::SIDE];
