//! The records of a trace, which is a recorded session: little-endian length, which counts what follows, kind and body.

/// The bytes of a record's body, at the most.
pub const BODY_LIMIT: usize = 4100;

/// The bytes of a whole record, at the most.
pub const RECORD_LIMIT: usize = 4 + BODY_LIMIT;

/// The records of a trace, at the most.
pub const RECORDS_LIMIT: u32 = u32::MAX;

/// What a record holds. `as u16` gives its kind.
#[derive(Clone, Copy, PartialEq, Eq, Debug)]
pub enum Kind {
    /// An argument buffer before the call. Its `After` follows at once.
    Before = 32,
    /// The same buffer after the call.
    After = 33,
    /// An address, four bytes, and the bytes that memory gets there, one or more.
    Memory = 34,
}

/// Puts a record after the bytes of a trace. Its body, of at most `BODY_LIMIT` bytes, comes in two parts.
pub(crate) fn put(trace: &mut Vec<u8>, kind: Kind, front: &[u8], rest: &[u8]) {
    let length = 2 + front.len() + rest.len();
    trace.extend((length as u16).to_le_bytes());
    trace.extend((kind as u16).to_le_bytes());
    trace.extend(front);
    trace.extend(rest);
}
