//! What a support engineer has to know of a call that differs.

use crate::options::Options;
use crate::shared::calls::{self, counted, Field};
use crate::shared::flaws::Flaws;
use crate::shared::input;
use draugsten::{Difference, Edition, Fault, Replay};

/// The lines below the verdict: which call it is, what it was asked, and the word that differs on both sides.
pub fn tell(replay: &Replay<'_>, call: u32, offset: u32, options: &Options, flaws: &Flaws) -> Vec<String> {
    let Some(buffers) = replay.difference() else { return vec![] };
    let record = replay.records();
    let mut lines =
        vec![format!("call {call} is records {} and {record} of the trace; {}", record - 1, agreed(call - 1))];
    lines.extend(tell_call(buffers.before));
    lines.extend(tell_word(&buffers, offset as usize));
    lines.extend(tell_missing(buffers.before, replay, options));
    lines.extend(tell_malformed(&buffers, flaws));
    lines
}

fn agreed(calls: u32) -> String {
    match calls {
        0 => String::from("it is the first call"),
        1 => String::from("the call before it agreed"),
        _ => format!("the {calls} calls before it agreed"),
    }
}

/// The call by its name, and its inputs by theirs.
fn tell_call(before: &[u8]) -> Vec<String> {
    let head = match calls::head(before) {
        Ok(head) => head,
        Err(number) => {
            let size = counted(before.len(), "byte");
            return vec![format!("its buffer has {size}: {number}; our call leaves it as it was")];
        }
    };
    let mut lines = vec![head.text()];
    for number in 3..3 + head.inputs {
        let value = calls::word(before, 4 * number).unwrap_or_default();
        lines.push(format!("  {}", tell_input(&head.field(number), value)));
    }
    lines
}

fn tell_input(field: &Field, value: u32) -> String {
    let place = field.place.map(|place| place.to_string()).unwrap_or_default();
    match field.meaning(value) {
        Some(meaning) => format!("{place}: {meaning}"),
        None => format!("{place}: {value:08x}"),
    }
}

/// The word at the offset, on both sides.
fn tell_word(buffers: &Difference<'_>, offset: usize) -> Vec<String> {
    let number = offset / 4;
    let field = match calls::head(buffers.before) {
        Ok(head) => head.field(number),
        Err(_) => calls::head_field(number),
    };
    let (recorded, ours) = (buffers.recorded, buffers.ours);
    let mut lines = vec![format!("byte {offset} is in bytes {} to {}: {}", 4 * number, 4 * number + 3, field)];
    if recorded.len() != ours.len() {
        let (left, right) = (counted(recorded.len(), "byte"), counted(ours.len(), "byte"));
        lines.push(format!("  the recorded buffer has {left}, ours {right}"));
    }
    lines.push(format!("  recorded: {}", tell_side(recorded, 4 * number, &field)));
    lines.push(format!("  ours:     {}", tell_side(ours, 4 * number, &field)));
    lines
}

/// A word of a buffer in digits, and its meaning; or where the buffer ends before.
fn tell_side(buffer: &[u8], at: usize, field: &Field) -> String {
    let part = &buffer[at.min(buffer.len())..buffer.len().min(at + 4)];
    let digits: String = part.iter().map(|byte| format!("{byte:02x}")).collect();
    match calls::word(buffer, at) {
        Some(word) => field.meaning(word).map_or(digits.clone(), |meaning| format!("{digits} {meaning}")),
        None if part.is_empty() => String::from("ends before it"),
        None => format!("{digits}, and ends there"),
    }
}

/// What the call looked at and was not given.
fn tell_missing(before: &[u8], replay: &Replay<'_>, options: &Options) -> Option<String> {
    let (what, path) = match calls::head(before).ok()?.token {
        1 | 4 => ("journal", &options.journal),
        2 => ("inventory", &options.inventory),
        _ => return None,
    };
    let missing = path.is_none() && looks_at_records(before, replay, Edition(options.edition));
    missing.then(|| format!("no --{what} was given: our call had an empty {what}"))
}

/// If our call gave -1, which file it found malformed.
fn tell_malformed(buffers: &Difference<'_>, flaws: &Flaws) -> Option<String> {
    let head = calls::head(buffers.before).ok()?;
    let status = calls::word(buffers.ours, 4 * (3 + head.inputs))? as i32;
    let flaw = if head.token == 2 { &flaws.inventory } else { &flaws.journal };
    flaw.as_ref().filter(|_| status == Fault::Malformed as i32).map(|flaw| format!("our call gave -1: {flaw}"))
}

/// Whether the call gets as far as its journal or its inventory: whether it finds a malformed one. What it checks before
/// are its inputs, the size of memory, and the reading record, which is still that of the call: over an empty inventory no
/// get-indices is answered.
fn looks_at_records(before: &[u8], replay: &Replay<'_>, edition: Edition) -> bool {
    const MALFORMED: &[u8] = &[0];
    let Some(mut memory) = input::zeros(replay.memory().len() as u64) else { return false };
    let (mut args, mut registration, mut reading) = (before.to_vec(), replay.registration(), replay.reading());
    let answer =
        draugsten::call(&mut args, &mut memory, MALFORMED, MALFORMED, edition, &mut registration, &mut reading);
    answer == Err(Fault::Malformed)
}
