//! "update-nodes"

use super::records::{self, Operation};
use super::scope;
use super::words::{as_word, big, put_word, word};
use super::{refused, Refusal};

/// "the work area is the 4,096 bytes of partition memory that start at the given address"
pub const AREA: u64 = 4096;

/// "the longest run of operations, from the state on, that fits 1,019 words"
pub const MOST_WORDS: u64 = 1019;

/// "Checks in order: address a multiple of 4,096 and the area inside memory (-3); scope (-3)". Gives the scope's row.
pub fn judge_inputs(memory: u64, address: u64, scope: u64) -> Result<scope::Row, Refusal> {
    if !address.is_multiple_of(AREA) {
        return refused(-3, "address no multiple of 4,096");
    }
    if address + AREA > memory {
        return refused(-3, "area not inside memory");
    }
    match scope::row(scope) {
        Some(row) => Ok(row),
        None => refused(-3, "scope"),
    }
}

/// The status of the call, or the rule that refuses it. Behind the inputs: "journal (-1); bytes 4 to 15 of the area
/// zero (-3); state (-3)." M-100: "in scope 3 only bytes 12 to 15 are tested for zero".
pub fn update_nodes(memory: &mut [u8], journal: &[u8], address: u64, scope: u64) -> Result<u32, Refusal> {
    let row = judge_inputs(memory.len() as u64, address, scope)?;
    let changes = match records::journal(journal) {
        Ok(changes) => changes,
        Err(rule) => return refused(-1, rule),
    };
    let area = &mut memory[address as usize..(address + AREA) as usize];
    if scope != 3 && area[4..16].iter().any(|&byte| byte != 0) {
        return refused(-3, "bytes 4 to 15 not zero");
    }
    if scope == 3 && area[12..16].iter().any(|&byte| byte != 0) {
        return refused(-3, "bytes 12 to 15 not zero");
    }
    let unit = unit_asked_for(scope, area);
    let list = scope::reportable_list(&changes, &row, unit);
    let state = word(area, 0);
    if !state_is_good(state, list.len() as u64) {
        return refused(-3, "state");
    }
    Ok(answer(area, &list, state as usize, unit))
}

/// M-100: in scope 3 the area carries "state 0, unit address (eight bytes, big-endian) and four zero bytes".
pub fn unit_asked_for(scope: u64, area: &[u8]) -> Option<u64> {
    if scope == 3 {
        Some(big(&area[4..12]))
    } else {
        None
    }
}

/// "The state is 0, or above 0 and below the length of the reportable list."
fn state_is_good(state: u64, length: u64) -> bool {
    state == 0 || state < length
}

/// "A run costs one operator word for each opcode present, one word for each delete or update, two for each addition."
pub fn cost(run: &[Operation]) -> u64 {
    let operators = (1..=3).filter(|&opcode| run.iter().any(|operation| operation.opcode == opcode)).count() as u64;
    operators + run.iter().map(operand_words).sum::<u64>()
}

/// "one word for each delete or update, two for each addition"
fn operand_words(operation: &Operation) -> u64 {
    if operation.opcode == 3 {
        2
    } else {
        1
    }
}

/// "the longest run of operations, from the state on, that fits": every length is tried, from the longest down.
/// An operation costs a word at the least, so no run is longer than the words.
pub fn longest_run(rest: &[Operation]) -> &[Operation] {
    let longest = rest.len().min(MOST_WORDS as usize);
    let length = (0..=longest).rev().find(|&length| cost(&rest[..length]) <= MOST_WORDS);
    &rest[..length.unwrap_or(0)]
}

/// "The answer: new state (0 when nothing remains), twelve zero bytes, one operator and its operands for each opcode
/// present, then 0x00000000." "Status 1 when operations remain, otherwise 0." M-100: "000 zeroes twelve bytes on
/// return, yet a continuation must name its unit, so we return the address there".
fn answer(area: &mut [u8], list: &[Operation], state: usize, unit: Option<u64>) -> u32 {
    let run = longest_run(&list[state..]);
    let handed_out = state + run.len();
    let remain = handed_out < list.len();
    let new_state = if remain { handed_out as u64 } else { 0 };
    put_word(area, 0, as_word(new_state));
    area[4..12].copy_from_slice(&unit.unwrap_or(0).to_be_bytes());
    area[12..16].fill(0);
    let mut at = 16;
    for word in run_words(run) {
        put_word(area, at, word);
        at += 4;
    }
    put_word(area, at, 0);
    u32::from(remain)
}

/// "An operator is the opcode in the high byte and the number of operand words in the low three bytes; an addition
/// counts two."
fn run_words(run: &[Operation]) -> Vec<u32> {
    let mut words = Vec::new();
    for opcode in 1..=3u32 {
        let present: Vec<&Operation> = run.iter().filter(|operation| operation.opcode == opcode).collect();
        if present.is_empty() {
            continue;
        }
        let operands: u64 = present.iter().map(|operation| operand_words(operation)).sum();
        words.push((opcode << 24) | as_word(operands));
        present.iter().for_each(|operation| push_operands(&mut words, operation));
    }
    words
}

fn push_operands(words: &mut Vec<u32>, operation: &Operation) {
    words.push(operation.first);
    if operation.opcode == 3 {
        words.push(operation.second);
    }
}
