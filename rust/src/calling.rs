//! One RTAS call through the argument buffer.

use crate::args::word;
use crate::ffi;
use crate::reading_record::{Edition, ReadingRecord};
use crate::registration::Registration;
use crate::text::words;
use std::fmt;

/// What an answered call says.
#[derive(Clone, Copy, PartialEq, Eq, Debug)]
pub enum Answer {
    /// Status 0: nothing remains.
    Done = 0,
    /// Status 1: more remains.
    CallAgain = 1,
}

impl fmt::Display for Answer {
    fn fmt(&self, f: &mut fmt::Formatter<'_>) -> fmt::Result {
        f.pad(words("STATUS", *self as i32))
    }
}

/// Why a call is refused, or the run of a dump: by a status below 0, or by a number above 0, which leaves no status.
#[derive(Clone, Copy, PartialEq, Eq, Debug)]
pub enum Fault {
    /// Number 10: the argument buffer has under 12 bytes, or fewer than it declares.
    Short = 10,
    /// Number 11: no outputs.
    NoOutputs = 11,
    /// Number 12: inputs or outputs above 16.
    TooMany = 12,
    /// Number 13: no registration. `Registration::restore` gives it; no call and no run does, since every `Registration` is
    /// one.
    NoRegistration = 13,
    /// Status -1: the journal or inventory is malformed.
    Malformed = -1,
    /// Status -3: an input, the token, the counts or the work area; of a run, that no good structure is registered.
    Parameter = -3,
    /// Status -4: the inventory's edition is not the reading's. The partition begins again with Starting Number 1.
    Changed = -4,
    /// Status -9: a structure is registered already.
    AlreadyRegistered = -9,
    /// Status -10: a dump is active.
    DumpActive = -10,
}

impl Fault {
    /// What the number or the status means.
    pub fn words(self) -> &'static str {
        words(if self.is_number() { "NUMBER" } else { "STATUS" }, self as i32)
    }

    fn is_number(self) -> bool {
        self as i32 > 0
    }
}

impl fmt::Display for Fault {
    fn fmt(&self, f: &mut fmt::Formatter<'_>) -> fmt::Result {
        let sort = if self.is_number() { "number" } else { "status" };
        write!(f, "refused by {sort} {}: {}", *self as i32, self.words())
    }
}

impl std::error::Error for Fault {}

/// Runs the call that the argument buffer asks for. `args` gets the status, by an answered get-indices also the Next
/// Starting Number; an answered update-nodes, get-indices or update-properties writes its work area in `memory`; an
/// answered configure-kernel-dump changes the registration. A get-indices with status 1 makes the reading record name its
/// flag, type and edition and the Next Starting Number; one with status 0 or -4 makes it `ReadingRecord::none()`. Nothing
/// else changes. `edition` is the inventory's.
pub fn call(
    args: &mut [u8],
    memory: &mut [u8],
    journal: &[u8],
    inventory: &[u8],
    edition: Edition,
    registration: &mut Registration,
    reading: &mut ReadingRecord,
) -> Result<Answer, Fault> {
    let answer = ffi::call(args, memory, journal, inventory, edition.0, registration.flat(), reading.flat());
    registration.replace(answer.registration);
    *reading = ReadingRecord::of(answer.reading);
    match answer.number {
        0 => answer_of(status(args)),
        10 => Err(Fault::Short),
        11 => Err(Fault::NoOutputs),
        12 => Err(Fault::TooMany),
        13 => Err(Fault::NoRegistration),
        number => unreachable!("the library gives no number {number}"),
    }
}

/// The first output of a buffer that has one.
fn status(args: &[u8]) -> i32 {
    let inputs = word(args, 4) as usize;
    word(args, 12 + 4 * inputs) as i32
}

fn answer_of(status: i32) -> Result<Answer, Fault> {
    match status {
        0 => Ok(Answer::Done),
        1 => Ok(Answer::CallAgain),
        -1 => Err(Fault::Malformed),
        -3 => Err(Fault::Parameter),
        -4 => Err(Fault::Changed),
        -9 => Err(Fault::AlreadyRegistered),
        -10 => Err(Fault::DumpActive),
        _ => unreachable!("the library gives no status {status}"),
    }
}
