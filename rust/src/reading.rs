//! Readers of the work areas that update-nodes and get-indices fill.

use crate::ffi;
use crate::text::words;
use std::fmt;

/// No area has more operations.
const OPERATIONS_LIMIT: usize = 1018;

/// The bytes of a location code, without NULs, at the most.
pub const CODE_LIMIT: usize = 1023;

/// The bytes of the longest code with its NULs, as an index area has it.
pub const FIELD_LIMIT: usize = 4 * (CODE_LIMIT / 4 + 1);

/// One operation of a node area.
#[derive(Clone, Copy, PartialEq, Eq, Debug)]
pub enum Operation {
    /// A node was deleted.
    Delete {
        /// The node.
        phandle: u32,
    },
    /// A node's properties were updated.
    Update {
        /// The node.
        phandle: u32,
    },
    /// A node was added.
    Add {
        /// Its parent.
        parent: u32,
        /// Its drc-index.
        drc_index: u32,
    },
}

/// One entry of an index area.
#[derive(Clone, Copy, PartialEq, Eq, Debug)]
pub struct Entry<'a> {
    /// The indicator's or sensor's index.
    pub index: u32,
    /// Its location code, without NULs: a part of the area.
    pub code: &'a [u8],
}

/// A refused reading.
#[derive(Clone, Copy, PartialEq, Eq, Debug)]
pub struct Refusal {
    /// What is wrong.
    pub reason: Reason,
    /// Where in the area, in bytes.
    pub offset: usize,
}

/// What is wrong with an area. `as u32` gives its number: 20 to 27 of node areas, 30 to 33 of index areas, 40 to 43 of
/// property areas.
/// 23 is withdrawn: an operator with no operands is passed over.
#[derive(Clone, Copy, PartialEq, Eq, Debug)]
pub enum Reason {
    /// Not 4,096 bytes.
    AreaSize = 20,
    /// Bytes 4 to 15 not zero; in scope 3, bytes 12 to 15.
    Reserved = 21,
    /// An opcode not 1 to 3.
    Opcode = 22,
    /// Operands past the end.
    OperandsPastEnd = 24,
    /// An odd operand count for additions.
    OddOperands = 25,
    /// An opcode lower than an earlier one.
    Order = 26,
    /// No terminator before the area's end.
    NoTerminator = 27,
    /// Under 4 bytes.
    NoCount = 30,
    /// A set past the end.
    SetPastEnd = 31,
    /// A length that is zero, above [`FIELD_LIMIT`] or no multiple of 4.
    CodeLength = 32,
    /// Not a code, then one to four NULs, then nothing else.
    Code = 33,
    /// A property area of not 4,096 bytes.
    PropertyAreaSize = 40,
    /// Bytes 8 to 15 of a property area not zero.
    PropertyReserved = 41,
    /// Not a name of 1 to 31 bytes with its NUL.
    PropertyName = 42,
    /// A descriptor or a value past the end.
    PropertyPastEnd = 43,
}

impl fmt::Display for Refusal {
    fn fmt(&self, f: &mut fmt::Formatter<'_>) -> fmt::Result {
        write!(f, "refused {} at {}: {}", self.reason as u32, self.offset, words(self.kind(), self.reason as i32))
    }
}

impl Refusal {
    /// In scope 3, and only there, reserved bytes are refused at 12, which is where they begin.
    fn kind(&self) -> &'static str {
        match (self.reason, self.offset) {
            (Reason::Reserved, 12) => "UNIT_REFUSAL",
            _ => "REFUSAL",
        }
    }
}

impl std::error::Error for Refusal {}

/// The operations of a node area, in order. In scope 3 the area names a unit; every other number, also one that is no
/// scope, is an area that names none.
pub fn read_nodes(area: &[u8], scope: i32) -> Result<Vec<Operation>, Refusal> {
    let mut words = [0; 3 * OPERATIONS_LIMIT];
    let reading = ffi::read_nodes(area, scope as u32, &mut words);
    accepted(reading.refusal, reading.offset)?;
    Ok(words.chunks_exact(3).take(reading.entries).map(operation).collect())
}

/// The State Variable of a node area whose operations can be read, in the same scope.
pub fn read_state(area: &[u8], scope: i32) -> Result<u32, Refusal> {
    let reading = ffi::read_nodes(area, scope as u32, &mut []);
    accepted(reading.refusal, reading.offset)?;
    Ok(reading.state)
}

/// The entries of an index area, in order.
pub fn read_indices(area: &[u8]) -> Result<Vec<Entry<'_>>, Refusal> {
    let counted = ffi::read_indices(area, &mut []);
    accepted(counted.refusal, counted.offset)?;
    let mut numbers = vec![0; 3 * counted.entries];
    ffi::read_indices(area, &mut numbers);
    Ok(numbers.chunks_exact(3).map(|numbers| entry(area, numbers)).collect())
}

/// An operation from its three words; the opcode is 1 to 3.
fn operation(words: &[u32]) -> Operation {
    match words[0] {
        1 => Operation::Delete { phandle: words[1] },
        2 => Operation::Update { phandle: words[1] },
        _ => Operation::Add { parent: words[1], drc_index: words[2] },
    }
}

/// An entry from its index, and its code's offset and length.
fn entry<'a>(area: &'a [u8], numbers: &[u64]) -> Entry<'a> {
    let start = numbers[1] as usize;
    let end = start + numbers[2] as usize;
    Entry { index: numbers[0] as u32, code: &area[start..end] }
}

pub(crate) fn accepted(number: u32, offset: usize) -> Result<(), Refusal> {
    let reason = match number {
        0 => return Ok(()),
        20 => Reason::AreaSize,
        21 => Reason::Reserved,
        22 => Reason::Opcode,
        24 => Reason::OperandsPastEnd,
        25 => Reason::OddOperands,
        26 => Reason::Order,
        27 => Reason::NoTerminator,
        30 => Reason::NoCount,
        31 => Reason::SetPastEnd,
        32 => Reason::CodeLength,
        33 => Reason::Code,
        40 => Reason::PropertyAreaSize,
        41 => Reason::PropertyReserved,
        42 => Reason::PropertyName,
        43 => Reason::PropertyPastEnd,
        _ => unreachable!("the library gives no refusal {number}"),
    };
    Err(Refusal { reason, offset })
}
