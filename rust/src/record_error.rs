//! Why something is not recorded.

use crate::calling::{Answer, Fault};
use crate::trace::{BODY_LIMIT, RECORDS_LIMIT};
use std::fmt;
use std::io;

/// Why something is not recorded. But for `Unwritten`, nothing was done.
#[derive(Debug)]
pub enum RecordError {
    /// The argument buffer has more bytes than a record holds.
    TooLong {
        /// Its bytes.
        length: usize,
    },
    /// The bytes to set do not lie inside memory, or not where an address of four bytes reaches.
    OutsideMemory {
        /// Where they begin.
        address: u32,
        /// How many there are.
        length: usize,
    },
    /// The trace would have more records than a trace may.
    Full,
    /// Records of an earlier use still cannot be written. Only a [`Recorder`](crate::Recorder) gives it: it makes no call
    /// until they are.
    Behind(io::Error),
    /// It was done, and its records cannot be written. They wait.
    Unwritten {
        /// What the call answered, if it was one that a [`Recorder`](crate::Recorder) made.
        answer: Option<Result<Answer, Fault>>,
        /// Why they cannot.
        error: io::Error,
    },
}

impl fmt::Display for RecordError {
    fn fmt(&self, f: &mut fmt::Formatter<'_>) -> fmt::Result {
        match self {
            RecordError::TooLong { length } => {
                write!(f, "not done: an argument buffer of {length} bytes; a record holds {BODY_LIMIT}")
            }
            RecordError::OutsideMemory { address, length } => {
                write!(f, "not done: {length} bytes at address {address:#010x}, which do not lie inside memory")
            }
            RecordError::Full => write!(f, "not done: the trace has no room after record {RECORDS_LIMIT}"),
            RecordError::Behind(error) => {
                write!(f, "not done: the trace is not whole, earlier records cannot be written: {error}")
            }
            RecordError::Unwritten { error, .. } => {
                write!(f, "done, but the trace is not whole, its records cannot be written: {error}")
            }
        }
    }
}

impl std::error::Error for RecordError {
    fn source(&self) -> Option<&(dyn std::error::Error + 'static)> {
        match self {
            RecordError::Behind(error) | RecordError::Unwritten { error, .. } => Some(error),
            _ => None,
        }
    }
}
