//! Reading an index work area.

use super::inventory::CODE_LIMIT;
use super::words::be32;
use crate::interface::IndexReading;

/// The bytes of the longest code with its NULs.
const FIELD_LIMIT: usize = 4 * (CODE_LIMIT / 4 + 1);

/// A refusal and its offset.
pub type Refused = (u32, usize);

/// One entry: its index, and the place and length of its code.
pub type Entry = [u64; 3];

/// The entries go to `out`, as many as it has room for.
pub fn read_indices(area: &[u8], out: &mut [u64]) -> IndexReading {
    match entries(area) {
        Ok(entries) => {
            for (place, entry) in out.chunks_exact_mut(3).zip(&entries) {
                place.copy_from_slice(entry);
            }
            IndexReading { refusal: 0, offset: 0, entries: entries.len() }
        }
        Err((refusal, offset)) => IndexReading { refusal, offset, entries: 0 },
    }
}

/// Judges the area and gathers its entries. Nothing is written before all are judged.
fn entries(area: &[u8]) -> Result<Vec<Entry>, Refused> {
    if area.len() < 4 {
        return Err((30, 0));
    }
    let mut entries = Vec::new();
    let mut at = 4;
    for _ in 0..be32(area, 0) {
        let (entry, end) = entry_at(area, at)?;
        entries.push(entry);
        at = end;
    }
    Ok(entries)
}

/// The entry at a place, and its end.
pub fn entry_at(area: &[u8], at: usize) -> Result<(Entry, usize), Refused> {
    let rest = &area[at..];
    if rest.len() < 8 {
        return Err((31, at));
    }
    let length = be32(rest, 4) as usize;
    if length == 0 || length > FIELD_LIMIT || !length.is_multiple_of(4) {
        return Err((32, at));
    }
    let code = rest.get(8..8 + length).ok_or((31, at))?;
    let nul = code.iter().position(|&byte| byte == 0).ok_or((33, at))?;
    if nul == 0 || length - nul > 4 || code[nul..].iter().any(|&byte| byte != 0) {
        return Err((33, at));
    }
    Ok(([u64::from(be32(rest, 0)), at as u64 + 8, nul as u64], at + 8 + length))
}
