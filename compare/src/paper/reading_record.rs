//! M-105, "The list changed while being read."

use super::get_indices::{Inputs, Outputs};
use super::{refused, Refusal};

/// "Each partition has a record of the reading in progress, changed in place: flag, type, next Starting Number and the
/// inventory's 32-bit edition number"
#[derive(Clone, Copy, PartialEq, Eq, Debug)]
pub struct ReadingRecord {
    pub flag: u64,
    pub kind: u64,
    pub number: u64,
    pub edition: u64,
}

/// "no reading in progress": a partition starts with it, and what is cleared is this again. Its number is 1, since
/// "every number but 1 differs", and the rest is zero.
pub const NO_READING: ReadingRecord = ReadingRecord { flag: 0, kind: 0, number: 1, edition: 0 };

/// "Refusals: -4 when the edition differs; -3 when flag, type or number differ from the record; both before the
/// inventory check, -3 first."
pub fn judge(inputs: &Inputs, edition: u64, record: &ReadingRecord) -> Result<(), Refusal> {
    // "Starting Number 1 always begins afresh."
    if inputs.start == 1 {
        return Ok(());
    }
    if inputs.flag != record.flag {
        return refused(-3, "flag unlike the record's");
    }
    if inputs.kind != record.kind {
        return refused(-3, "type unlike the record's");
    }
    if inputs.start != record.number {
        return refused(-3, "number unlike the record's");
    }
    if edition != record.edition {
        return refused(-4, "edition unlike the record's");
    }
    Ok(())
}

/// "an unfinished reading names the first entry not yet handed out"; "-4 clears it, as does status 0".
pub fn after_answer(inputs: &Inputs, edition: u64, outputs: &Outputs) -> ReadingRecord {
    if outputs.status == 0 {
        return NO_READING;
    }
    ReadingRecord { flag: inputs.flag, kind: inputs.kind, number: u64::from(outputs.next), edition }
}

/// "A refused call keeps the record, but -4 clears it"
pub fn after_refusal(refusal: &Refusal, record: ReadingRecord) -> ReadingRecord {
    if refusal.status == -4 {
        return NO_READING;
    }
    record
}

/// The edition after an edit, if the edit is taken: it "rises by one with each edit (none is taken at the top)".
pub fn edit(edition: u64) -> Option<u64> {
    if edition == 0xffff_ffff {
        return None;
    }
    Some(edition + 1)
}
