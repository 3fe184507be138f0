//! ibm,get-indices.

use super::inventory;
use super::words::{be32, le16, le32, put_be32};
use super::{CHANGED, MALFORMED, NO_READING, PARAMETER};
use crate::interface::{Asked, ReadingRecord};

/// The status, or that of a refusal. The inputs are flag, type, address, size and Starting Number; the output after the
/// status is the Next Starting Number.
pub fn get_indices(
    inputs: &[u8],
    next: &mut [u8],
    memory: &mut [u8],
    inventory: &[u8],
    edition: u32,
    reading: &mut ReadingRecord,
) -> Result<i32, i32> {
    let asked = Asked { flag: be32(inputs, 0), kind: be32(inputs, 4), number: be32(inputs, 16) };
    if asked.flag > 1 || is_forbidden(asked) {
        return Err(PARAMETER);
    }
    let area = area(memory, be32(inputs, 8), be32(inputs, 12)).ok_or(PARAMETER)?;
    go_on(asked, edition, reading)?;
    let (count, due) = inventory::counted(inventory, asked).ok_or(MALFORMED)?;
    let number = asked.number as usize;
    if number < 1 || number > count {
        return Err(PARAMETER);
    }
    let handed_out = write_run(area, &inventory[due..], asked);
    if handed_out == 0 {
        return Err(PARAMETER);
    }
    let following = number + handed_out;
    let remain = following <= count;
    let named = ReadingRecord { flag: asked.flag, kind: asked.kind, number: following as u32, edition };
    *reading = if remain { named } else { NO_READING };
    put_be32(next, 0, reading.number);
    Ok(i32::from(remain))
}

/// Starting Number 1 begins afresh; any other goes on with the reading that the record names. Another edition ends it.
fn go_on(asked: Asked, edition: u32, reading: &mut ReadingRecord) -> Result<(), i32> {
    if asked.number == 1 {
        return Ok(());
    }
    if (asked.flag, asked.kind, asked.number) != (reading.flag, reading.kind, reading.number) {
        return Err(PARAMETER);
    }
    if edition != reading.edition {
        *reading = NO_READING;
        return Err(CHANGED);
    }
    Ok(())
}

/// The types that have no list.
fn is_forbidden(asked: Asked) -> bool {
    match asked.flag {
        0 => matches!(asked.kind, 9001..=9003),
        _ => asked.kind == 9003,
    }
}

/// The work area, of at least 4 bytes, inside memory and below 2^32.
fn area(memory: &mut [u8], address: u32, size: u32) -> Option<&mut [u8]> {
    let end = u64::from(address) + u64::from(size);
    if size < 4 || end > 1 << 32 {
        return None;
    }
    memory.get_mut(address as usize..end as usize)
}

/// Writes the entries asked for, as many as fit, and their count where there is one. Tells how many.
fn write_run(area: &mut [u8], records: &[u8], asked: Asked) -> usize {
    let mut rest = records;
    let mut at = 4;
    let mut written = 0;
    while !rest.is_empty() {
        let (record, behind) = rest.split_at(2 + usize::from(le16(rest, 0)));
        rest = behind;
        if !inventory::is_asked(record, asked) {
            continue;
        }
        let Some(end) = write_entry(area, at, record) else {
            break;
        };
        at = end;
        written += 1;
    }
    if written > 0 {
        put_be32(area, 0, written as u32);
    }
    written
}

/// Writes one entry where it fits, and tells where it ends.
fn write_entry(area: &mut [u8], at: usize, record: &[u8]) -> Option<usize> {
    let code = &record[14..];
    let length = 4 * (code.len() / 4 + 1);
    let entry = area.get_mut(at..at + 8 + length)?;
    put_be32(entry, 0, le32(record, 10));
    put_be32(entry, 4, length as u32);
    let (text, nuls) = entry[8..].split_at_mut(code.len());
    text.copy_from_slice(code);
    nuls.fill(0);
    Some(at + 8 + length)
}
