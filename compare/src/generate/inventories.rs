//! Inventories.

use crate::buffers::inventory_record;
use crate::random::Random;

/// The most bytes of a code.
pub const LONGEST: usize = 1023;
/// The bytes of the longest code with its NULs.
pub const FIELD: usize = LONGEST + 1;
/// An area of so many bytes always holds the entry due.
pub const AMPLE: usize = 4 + 8 + FIELD;

/// Lengths of short codes, on both sides of a multiple of 4 and of the limit that was.
const SHORT: [usize; 18] = [1, 2, 3, 3, 4, 4, 5, 7, 8, 11, 12, 75, 76, 77, 78, 79, 80, 81];
/// Lengths of long codes: the longest, and those on both sides of a multiple of 256.
const LONG: [usize; 12] = [1020, 1021, 1022, 1022, 1023, 1023, 1023, 254, 255, 256, 511, 512];

/// The length of a code: most are short.
fn length(random: &mut Random) -> usize {
    match random.below(24) {
        0 => random.pick(&LONG),
        1 => random.between(80, LONGEST),
        2..=8 => random.between(1, 79),
        _ => random.pick(&SHORT),
    }
}

pub fn code(random: &mut Random) -> Vec<u8> {
    let mut code = vec![0; length(random)];
    random.fill(&mut code);
    for byte in &mut code {
        *byte = (*byte).max(1);
    }
    if random.one_in(4) {
        code.fill(b'U');
    }
    code
}

/// A type near those that may not be asked for, or any.
pub fn kind(random: &mut Random) -> u32 {
    match random.below(8) {
        0 => random.pick(&[0, 1, 3, 0xffff_ffff, 0x2329_0000]),
        1 => random.word(),
        _ => 9000 + random.below(5) as u32,
    }
}

/// A type that may be asked for with this flag.
pub fn good_kind(random: &mut Random, flag: u32) -> u32 {
    match (flag, random.below(4)) {
        (_, 0) => random.pick(&[0, 1, 3, 9, 0xffff_ffff]),
        (1, 1) => 9001,
        (1, 2) => 9002,
        _ => random.pick(&[9000, 9004]),
    }
}

/// Entries of one flag and type, with others between.
pub struct Stock {
    pub bytes: Vec<u8>,
    /// The codes' lengths of the entries of the flag and type.
    pub codes: Vec<usize>,
}

pub fn stock(random: &mut Random, flag: u32, asked: u32, entries: usize) -> Stock {
    let mut stock = Stock { bytes: Vec::new(), codes: Vec::new() };
    while stock.codes.len() < entries {
        let code = code(random);
        if random.one_in(3) {
            stock.bytes.extend(other_record(random, flag, asked, &code));
            continue;
        }
        stock.bytes.extend(inventory_record(flag as u16, asked, random.word(), &code));
        stock.codes.push(code.len());
    }
    stock
}

/// A record of the other flag or of another type.
fn other_record(random: &mut Random, flag: u32, asked: u32, code: &[u8]) -> Vec<u8> {
    let other_flag = 1 - flag as u16;
    if random.one_in(2) {
        return inventory_record(other_flag, asked, random.word(), code);
    }
    let mut other = kind(random);
    if other == asked {
        other ^= 1;
    }
    inventory_record(flag as u16, other, random.word(), code)
}

/// 1,048,576 bytes of records, or one byte or one record more.
pub fn full_stock(random: &mut Random, flag: u32, asked: u32) -> Stock {
    let limit = 1_048_576 + random.pick(&[0, 0, 0, 1, 14]);
    let longest = random.pick(&[79, LONGEST]);
    let mut stock = Stock { bytes: Vec::with_capacity(limit), codes: Vec::new() };
    while stock.bytes.len() < limit {
        let left = limit - stock.bytes.len();
        // A record takes 14 bytes and its code; what is left is never 1 to 14 bytes.
        let most = (left - 14).min(longest);
        let mut length = random.between(1, most);
        if left - 14 - length > 0 && left - 14 - length < 15 {
            length = if left - 14 <= longest { left - 14 } else { 1 };
        }
        let code: Vec<u8> = vec![random.nonzero_byte(); length];
        let kind = if random.one_in(3) { asked ^ 1 } else { asked };
        stock.bytes.extend(inventory_record(flag as u16, kind, random.word(), &code));
        if kind == asked {
            stock.codes.push(length);
        }
    }
    stock
}
