//! Reading a node work area.

use super::words::be32;
use crate::interface::{NodeReading, NODE_AREA};

/// A refusal and its offset.
type Refused = (u32, usize);

/// The operations go to `out`, as many as it has room for.
pub fn read_nodes(area: &[u8], scope: u32, out: &mut [u32]) -> NodeReading {
    match entries(area, scope) {
        Ok(entries) => {
            write_operations(area, out);
            NodeReading { refusal: 0, state: be32(area, 0), offset: 0, entries }
        }
        Err((refusal, offset)) => NodeReading { refusal, state: 0, offset, entries: 0 },
    }
}

/// The opcode and the number of operand words of an operator.
fn split(operator: u32) -> (u32, usize) {
    (operator >> 24, (operator & 0xff_ffff) as usize)
}

/// Judges the area and counts its operations.
fn entries(area: &[u8], scope: u32) -> Result<usize, Refused> {
    if area.len() != NODE_AREA {
        return Err((20, 0));
    }
    let reserved_at = if scope == 3 { 12 } else { 4 };
    if area[reserved_at..16].iter().any(|&byte| byte != 0) {
        return Err((21, reserved_at));
    }
    let (mut at, mut last, mut entries) = (16, 0, 0);
    while at < NODE_AREA {
        let operator = be32(area, at);
        if operator == 0 {
            return Ok(entries);
        }
        let (opcode, words) = split(operator);
        at += 4;
        if words == 0 {
            continue;
        }
        judge(opcode, words, last, at - 4)?;
        entries += if opcode == 3 { words / 2 } else { words };
        at += 4 * words;
        last = opcode;
    }
    Err((27, NODE_AREA))
}

/// Judges one operator.
fn judge(opcode: u32, words: usize, last: u32, at: usize) -> Result<(), Refused> {
    let refusal = if !(1..=3).contains(&opcode) {
        22
    } else if opcode == 3 && words % 2 == 1 {
        25
    } else if opcode < last {
        26
    } else if at + 4 + 4 * words > NODE_AREA {
        24
    } else {
        return Ok(());
    };
    Err((refusal, at))
}

/// Writes the operations of a good area.
fn write_operations(area: &[u8], out: &mut [u32]) {
    let mut places = out.chunks_exact_mut(3);
    let mut at = 16;
    while be32(area, at) != 0 {
        let (opcode, words) = split(be32(area, at));
        let end = at + 4 + 4 * words;
        let size = if opcode == 3 { 8 } else { 4 };
        for (operands, place) in area[at + 4..end].chunks_exact(size).zip(&mut places) {
            place[0] = opcode;
            place[1] = be32(operands, 0);
            place[2] = if opcode == 3 { be32(operands, 4) } else { 0 };
        }
        at = end;
    }
}
