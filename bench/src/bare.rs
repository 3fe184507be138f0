//! Bare ways to go over bytes, which judge nothing. Each answers a number that depends on what it read.

/// Taken as a part of two bytes, this compiles to one load; byte by byte it is two, and stepping by it slower.
fn le16(bytes: &[u8], at: usize) -> u16 {
    u16::from_le_bytes(bytes[at..at + 2].try_into().unwrap())
}

fn be32(bytes: &[u8], at: usize) -> usize {
    u32::from_be_bytes(bytes[at..at + 4].try_into().unwrap()) as usize
}

/// Reads every byte: the sum of the whole words.
pub fn streaming(bytes: &[u8]) -> u64 {
    let words = bytes.chunks_exact(8).map(|word| u64::from_le_bytes(word.try_into().unwrap()));
    words.fold(0, u64::wrapping_add)
}

/// Steps from record to record of a journal or an inventory by their lengths alone, and counts them.
pub fn stepping_records(bytes: &[u8]) -> u64 {
    let mut at = 0;
    let mut records = 0;
    while at + 1 < bytes.len() {
        at += 2 + usize::from(le16(bytes, at));
        records += 1;
    }
    records
}

/// Steps from operator to operator of a node area, and counts them.
pub fn stepping_operators(area: &[u8]) -> u64 {
    let mut at = 16;
    let mut operators = 0;
    while be32(area, at) != 0 {
        at += 4 + 4 * (be32(area, at) & 0xff_ffff);
        operators += 1;
    }
    operators
}

/// Steps from property to property of a property area, and adds up their places.
pub fn stepping_properties(area: &[u8]) -> u64 {
    let mut at = 20;
    let mut places = 0;
    for _ in 0..be32(area, 16) {
        places += at as u64;
        while area[at] != 0 {
            at += 1;
        }
        at += 5 + (be32(area, at + 1) as i32).unsigned_abs() as usize;
    }
    places
}

/// Steps from set to set of an index area, and adds up their places.
pub fn stepping_sets(area: &[u8]) -> u64 {
    let mut at = 4;
    let mut places = 0;
    for _ in 0..be32(area, 0) {
        places += at as u64;
        at += 8 + be32(area, at + 4);
    }
    places
}
