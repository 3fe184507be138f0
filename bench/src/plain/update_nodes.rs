//! ibm,update-nodes.

use super::journal::{self, Row};
use super::words::{be32, be64, le16, le32, le64, put_be32};
use super::{MALFORMED, PARAMETER};
use crate::interface::NODE_AREA;

/// The words that a run may cost.
const WORDS: usize = 1019;
/// The operand words of a delete, an update and an addition.
const OPERANDS: [usize; 3] = [1, 1, 2];

/// Of the reportable operations of one opcode those that a run holds: `take` of them after the first `skip`.
#[derive(Clone, Copy)]
struct Part {
    skip: usize,
    take: usize,
}

/// The status, or that of a refusal. The inputs are the address and the scope.
pub fn update_nodes(inputs: &[u8], memory: &mut [u8], journal: &[u8]) -> Result<i32, i32> {
    let address = be32(inputs, 0) as usize;
    if !address.is_multiple_of(NODE_AREA) {
        return Err(PARAMETER);
    }
    let area = memory.get_mut(address..address + NODE_AREA).ok_or(PARAMETER)?;
    let scope = be32(inputs, 4);
    let row = journal::row(scope).ok_or(PARAMETER)?;
    let unit = be64(area, 4);
    let counts = journal::counts(journal, row, unit).ok_or(MALFORMED)?;
    let length: usize = counts.iter().sum();
    let state = be32(area, 0) as usize;
    let reserved_at = if scope == 3 { 12 } else { 4 };
    if area[reserved_at..16].iter().any(|&byte| byte != 0) || state > 0 && state >= length {
        return Err(PARAMETER);
    }
    let run = longest_run(counts, state);
    let places = write_operators(area, &run);
    write_operands(area, places, journal, (row, unit), run);
    let reported = state + run.iter().map(|part| part.take).sum::<usize>();
    let remain = reported < length;
    put_be32(area, 0, if remain { reported as u32 } else { 0 });
    Ok(i32::from(remain))
}

/// The longest run from the state on that fits.
fn longest_run(counts: [usize; 3], state: usize) -> [Part; 3] {
    let mut run = [Part { skip: 0, take: 0 }; 3];
    let mut reported = state;
    let mut words = WORDS;
    for ((part, count), operands) in run.iter_mut().zip(counts).zip(OPERANDS) {
        part.skip = reported.min(count);
        reported -= part.skip;
        let left = count - part.skip;
        part.take = left.min(words.saturating_sub(1) / operands);
        if part.take < left {
            break;
        }
        if part.take > 0 {
            words -= 1 + part.take * operands;
        }
    }
    run
}

/// Writes the operators and the terminator, and tells where the operands of each opcode go.
fn write_operators(area: &mut [u8], run: &[Part; 3]) -> [usize; 3] {
    let mut places = [0; 3];
    let mut at = 16;
    for (opcode, part) in run.iter().enumerate().filter(|(_, part)| part.take > 0) {
        let words = part.take * OPERANDS[opcode];
        put_be32(area, at, (opcode as u32 + 1) << 24 | words as u32);
        places[opcode] = at + 4;
        at += 4 + 4 * words;
    }
    put_be32(area, at, 0);
    places
}

/// Walks a good journal from its first record on and writes the operands of the run: what the row reports, of kind 4
/// the records of the unit.
fn write_operands(
    area: &mut [u8],
    mut places: [usize; 3],
    journal: &[u8],
    (row, unit): (&Row, u64),
    mut run: [Part; 3],
) {
    let mut left: usize = run.iter().map(|part| part.take).sum();
    let mut rest = journal;
    while left > 0 {
        let (record, behind) = rest.split_at(2 + usize::from(le16(rest, 0)));
        rest = behind;
        if le16(record, 2) > 4 {
            continue;
        }
        let of_unit = le16(record, 2) == 4;
        let (opcode, operands) = if of_unit { (1, 14) } else { (usize::from(le16(record, 2)) - 1, 6) };
        let part = &mut run[opcode];
        if row[usize::from(le16(record, 4))] >> opcode & 1 == 0 || of_unit && le64(record, 6) != unit {
            continue;
        }
        if part.skip > 0 {
            part.skip -= 1;
        } else if part.take > 0 {
            part.take -= 1;
            left -= 1;
            put_be32(area, places[opcode], le32(record, operands));
            if opcode == 2 {
                put_be32(area, places[opcode] + 4, le32(record, 10));
            }
            places[opcode] += 4 * OPERANDS[opcode];
        }
    }
}
