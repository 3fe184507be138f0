//! What is wrong with a malformed record.

use crate::shared::input::Memory;
use crate::shared::names::shown;
use crate::shared::trace::{first_step, take_after, Step};
use draugsten::Replay;

/// One line on the record that the verdict names. A 32 that is named has been taken, and what follows it is wrong.
pub fn tell(replay: &Replay<'_>, record: u64, memory: &Memory) -> String {
    let (bytes, next) = (replay.last_record(), replay.records() + 1);
    let what = match record == replay.records() {
        true => take_after(bytes, next).err().unwrap_or_default(),
        false => tell_alone(bytes, record, replay.memory().len(), memory),
    };
    format!("record {record}: {what}")
}

/// Of a record that follows no 32. One that is good by itself is one of memory.
fn tell_alone(bytes: &[u8], record: u64, size: usize, memory: &Memory) -> String {
    match first_step(bytes, record, 0) {
        Err(flaw) => flaw.what,
        Ok(Step::Memory { address, bytes }) => tell_setting(address, bytes.len(), size, memory),
        Ok(Step::Call { .. }) => unreachable!("a call is two records"),
    }
}

/// Memory is too small, of so many bytes: how large it has to be for this record.
fn tell_setting(address: u32, length: usize, size: usize, memory: &Memory) -> String {
    let needed = u64::from(address) + length as u64;
    let help = match memory {
        Memory::Zeros(_) => format!("give --memory-size {needed} or more"),
        Memory::File(path) => format!("give in the place of {} a file of {needed} bytes or more", shown(path)),
    };
    format!("kind 34 for bytes {address} to {} of memory, which has {size}; {help}", needed - 1)
}
