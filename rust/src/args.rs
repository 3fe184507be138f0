//! Argument buffers: big-endian words, token, number of inputs, number of outputs, the inputs, the outputs.

use crate::text::words;
use crate::FIELD_LIMIT;
use std::fmt;

/// An index area of so many bytes or more holds any entry that is due: the count, an index, a length and a code.
pub const SUFFICIENT_SIZE: u32 = 4 + 4 + 4 + FIELD_LIMIT as u32;

/// What an index list is of.
#[derive(Clone, Copy, PartialEq, Eq, Debug)]
pub enum Flag {
    /// Indicators.
    Indicator = 0,
    /// Sensors.
    Sensor = 1,
}

/// The inputs of get-indices.
#[derive(Clone, Copy, PartialEq, Eq, Debug)]
pub struct IndexRequest {
    /// Indicators or sensors.
    pub flag: Flag,
    /// Their type.
    pub type_number: u32,
    /// Where the work area starts in memory.
    pub address: u32,
    /// The work area's bytes. [`SUFFICIENT_SIZE`] hold any entry that is due.
    pub size: u32,
    /// The first entry asked for, counted from 1. 1 begins a reading; any other has to be the one that the reading record
    /// names.
    pub starting_number: u32,
}

/// What configure-kernel-dump is to do.
#[derive(Clone, Copy, PartialEq, Eq, Debug)]
pub enum Command {
    /// Copies the structure in memory, where it is good.
    Register = 1,
    /// Forgets a registered structure.
    Unregister = 2,
    /// Forgets the structure of an active dump.
    Complete = 3,
}

impl Command {
    /// The one of this number; none, if it is no command.
    pub fn of(number: u32) -> Option<Command> {
        [Command::Register, Command::Unregister, Command::Complete].into_iter().find(|&one| one as u32 == number)
    }

    /// What it asks for.
    pub fn words(self) -> &'static str {
        words("COMMAND", self as i32)
    }
}

impl fmt::Display for Command {
    fn fmt(&self, f: &mut fmt::Formatter<'_>) -> fmt::Result {
        f.pad(self.words())
    }
}

/// The argument buffer of update-nodes. The work area is the 4,096 bytes of memory at `address`. In scope 3 its bytes 4
/// to 11 hold the unit address, big-endian.
pub fn update_nodes(address: u32, scope: i32) -> [u8; 24] {
    buffer(1, &[address, scope as u32])
}

/// The argument buffer of get-indices.
pub fn get_indices(request: &IndexRequest) -> [u8; 40] {
    let IndexRequest { flag, type_number, address, size, starting_number } = *request;
    buffer(2, &[flag as u32, type_number, address, size, starting_number])
}

/// The argument buffer of configure-kernel-dump. Only a registration looks at `address` and `length`.
pub fn configure_kernel_dump(command: Command, address: u32, length: u32) -> [u8; 28] {
    buffer(3, &[command as u32, address, length])
}

/// The argument buffer of update-properties. The work area is the 4,096 bytes of memory at `address`; its first bytes hold
/// the node's phandle, big-endian, and twelve zero bytes, or the sixteen bytes that the last answered call left.
pub fn update_properties(address: u32, scope: i32) -> [u8; 24] {
    buffer(4, &[address, scope as u32])
}

/// The Next Starting Number that an answered get-indices left.
pub fn next_starting_number(args: &[u8; 40]) -> u32 {
    word(args, 36)
}

/// A buffer of SIZE bytes; what the inputs leave are outputs.
fn buffer<const SIZE: usize>(token: u32, inputs: &[u32]) -> [u8; SIZE] {
    let outputs = SIZE / 4 - 3 - inputs.len();
    let head = [token, inputs.len() as u32, outputs as u32];
    let mut bytes = [0; SIZE];
    for (place, word) in bytes.chunks_exact_mut(4).zip(head.iter().chain(inputs)) {
        place.copy_from_slice(&word.to_be_bytes());
    }
    bytes
}

/// The word at a byte offset.
pub(crate) fn word(bytes: &[u8], at: usize) -> u32 {
    u32::from_be_bytes([bytes[at], bytes[at + 1], bytes[at + 2], bytes[at + 3]])
}
