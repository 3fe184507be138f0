//! The steps of a trace: what one says, or which record is malformed, at which byte and why. Whether the bytes of a kind 34
//! lie inside memory is not judged: that takes the memory.

use super::judge::{first, kind, word, Flaw, Record, Sort};
use draugsten::trace::{Kind, BODY_LIMIT, RECORDS_LIMIT};

const BEFORE: u16 = Kind::Before as u16;
const AFTER: u16 = Kind::After as u16;
const MEMORY: u16 = Kind::Memory as u16;

/// A record that sets memory has an address and at least one byte.
pub static TRACE: Sort = Sort {
    name: "a trace",
    kinds: &[kind(BEFORE, 2, 2 + BODY_LIMIT), kind(AFTER, 2, 2 + BODY_LIMIT), kind(MEMORY, 2 + 4 + 1, 2 + BODY_LIMIT)],
    limit: u64::MAX,
};

/// What one record of a trace says, or two that are a call.
#[derive(Clone, Copy, PartialEq, Eq, Debug)]
pub enum Step<'a> {
    /// Memory gets bytes at an address.
    Memory { address: u32, bytes: &'a [u8] },
    /// A call: its argument buffer before and after it.
    Call { before: &'a [u8], after: &'a [u8] },
}

/// The step that stands first in bytes which are the rest of a trace from this record and this offset on.
pub fn first_step(rest: &[u8], record: u64, offset: u64) -> Result<Step<'_>, Flaw> {
    let flaw = |what| Flaw { record, offset, what };
    let found = take(rest, record).map_err(flaw)?;
    match found.kind {
        BEFORE => {
            let after = take_after(&rest[found.size()..], record + 1).map_err(flaw)?;
            Ok(Step::Call { before: found.body, after })
        }
        AFTER => Err(flaw(format!("a {AFTER} without a {BEFORE} right before it"))),
        _ => Ok(Step::Memory { address: word(found.body, 0), bytes: &found.body[4..] }),
    }
}

/// The body of the 33 that has to stand first after a 32; or what is wrong with the 32 if there is none.
pub fn take_after(rest: &[u8], record: u64) -> Result<&[u8], String> {
    if rest.is_empty() {
        return Err(format!("a {BEFORE}, and the trace ends without its {AFTER}"));
    }
    let what = match take(rest, record) {
        Ok(Record { kind: AFTER, body }) => return Ok(body),
        Ok(Record { kind, .. }) => format!("kind {kind}"),
        Err(what) => what,
    };
    Err(format!("a {BEFORE}, and record {record} is not its {AFTER}: {what}"))
}

fn take(rest: &[u8], record: u64) -> Result<Record<'_>, String> {
    match record > u64::from(RECORDS_LIMIT) {
        true => Err(format!("one more than a trace may have, {RECORDS_LIMIT}")),
        false => first(&TRACE, rest, 0),
    }
}
