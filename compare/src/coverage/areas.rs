//! The refusals and lines of the readers.

use super::Line;
use crate::buffers::word_at;
use crate::case::ReadCase;
use crate::library::Reading;

pub const NODE_REFUSALS: &[(u32, &str)] = &[
    (0, "entries"),
    (20, "20 not 4,096 bytes"),
    (21, "21 bytes 4 to 15, or 12 to 15, not zero"),
    (22, "22 opcode not 1 to 3"),
    (24, "24 operands past the end"),
    (25, "25 odd count for opcode 3"),
    (26, "26 opcode lower than an earlier one"),
    (27, "27 no terminator"),
];

pub const INDEX_REFUSALS: &[(u32, &str)] = &[
    (0, "entries"),
    (30, "30 under 4 bytes"),
    (31, "31 under 8 bytes left, or code past the end"),
    (32, "32 length"),
    (33, "33 no code with its NULs"),
];

pub struct Facts {
    /// The scope that the reader is told; 0 for an index or property area.
    scope: u32,
    pub area: Vec<u8>,
    pub out: u64,
    pub reading: Reading,
}

pub fn facts(scope: u32, case: &ReadCase, reading: &Reading) -> Facts {
    Facts { scope, area: case.area.clone(), out: case.out as u64, reading: *reading }
}

impl Facts {
    pub fn length(&self) -> usize {
        self.area.len()
    }

    pub fn refused(&self, number: u32) -> bool {
        self.reading.refusal == number
    }

    /// Of bytes 4 to 15 this one alone is not zero.
    fn alone_not_zero(&self, byte: usize) -> bool {
        let not_zero = (4..16).filter(|&at| self.area.get(at).is_some_and(|&byte| byte != 0));
        not_zero.eq([byte])
    }

    /// Refused by the bytes behind the state, at this offset.
    fn reserved(&self, offset: u64) -> bool {
        self.refused(21) && self.reading.offset == offset
    }

    /// The refused operator: its opcode, its count and the offset that its operands end at.
    fn operator(&self) -> (u32, u32, u64) {
        let operator = word_at(&self.area, self.reading.offset as usize).unwrap_or(0);
        let count = operator & 0xff_ffff;
        (operator >> 24, count, self.reading.offset + 4 + 4 * u64::from(count))
    }

    /// The operators of a node area with their offsets, up to a zero word or the end.
    fn operators(&self) -> Vec<(usize, u32)> {
        let mut operators = Vec::new();
        let mut at = 16;
        while let Some(operator @ 1..) = word_at(&self.area, at) {
            operators.push((at, operator));
            at += 4 + 4 * (operator & 0xff_ffff) as usize;
        }
        operators
    }

    fn empty_at(&self, test: fn(usize, u32) -> bool) -> bool {
        self.operators().iter().any(|&(at, operator)| is_empty(operator) && test(at, operator))
    }

    fn empty_below_earlier(&self) -> bool {
        self.operators().windows(3).any(|three| {
            let [before, empty, behind] = [three[0].1, three[1].1, three[2].1];
            !is_empty(before) && is_empty(empty) && !is_empty(behind) && empty >> 24 < before >> 24
        })
    }

    fn empty_before_terminator(&self) -> bool {
        self.operators().last().is_some_and(|&(_, operator)| is_empty(operator))
    }

    fn empty_in_a_row(&self, number: usize) -> bool {
        self.operators().windows(number).any(|row| row.iter().all(|&(_, operator)| is_empty(operator)))
    }

    /// What is left of an index area from the refused set on, and the set's length, if it has one.
    fn set(&self) -> (usize, Option<u32>) {
        let at = self.reading.offset as usize;
        (self.length() - at, word_at(&self.area, at + 4))
    }

    /// The refused set's code with its NULs.
    fn field(&self) -> &[u8] {
        let at = self.reading.offset as usize + 8;
        let end = at + self.set().1.unwrap_or(0) as usize;
        self.area.get(at..end).unwrap_or(&[])
    }

    fn first_nul(&self) -> Option<usize> {
        self.field().iter().position(|&byte| byte == 0)
    }

    fn only_nuls_behind_code(&self) -> bool {
        self.first_nul().is_some_and(|nul| self.field()[nul..].iter().all(|&byte| byte == 0))
    }

    /// The first set of a read index area: its length and its number of NULs.
    fn first_set(&self) -> Option<(usize, usize)> {
        if self.reading.refusal != 0 || self.reading.entries == 0 {
            return None;
        }
        let length = word_at(&self.area, 8)? as usize;
        let nuls = self.area.get(12..12 + length)?.iter().filter(|&&byte| byte == 0).count();
        Some((length, nuls))
    }

    fn first_set_has_nuls(&self, number: usize) -> bool {
        self.first_set().is_some_and(|set| set.1 == number)
    }

    pub fn entries(&self) -> bool {
        self.reading.refusal == 0 && self.reading.entries > 0
    }

    fn room(&self) -> u64 {
        self.out / 3
    }

    /// The operands of a read node area end at 4,092, so that the last word is the terminator.
    fn operands_to_4092(&self) -> bool {
        self.operators().last().is_some_and(|&(at, operator)| at + 4 + 4 * (operator & 0xff_ffff) as usize == 4092)
    }
}

/// An operator with no operands.
fn is_empty(operator: u32) -> bool {
    operator & 0xff_ffff == 0
}

pub const NODE_LINES: &[Line<Facts>] = &[
    ("no bytes", |f| f.length() == 0),
    ("4,095 bytes", |f| f.length() == 4095),
    ("4,096 bytes", |f| f.length() == 4096),
    ("4,097 bytes", |f| f.length() == 4097),
    ("scope 3, byte 4 alone not zero, read", |f| f.scope == 3 && f.refused(0) && f.alone_not_zero(4)),
    ("scope 3, byte 11 alone not zero, read", |f| f.scope == 3 && f.refused(0) && f.alone_not_zero(11)),
    ("scope 3, byte 12 alone not zero: 21 at 12", |f| f.scope == 3 && f.reserved(12) && f.alone_not_zero(12)),
    ("scope 3, byte 15 alone not zero: 21 at 12", |f| f.scope == 3 && f.reserved(12) && f.alone_not_zero(15)),
    ("scope 1, byte 4 alone not zero: 21 at 4", |f| f.scope == 1 && f.reserved(4) && f.alone_not_zero(4)),
    ("scope 1, byte 11 alone not zero: 21 at 4", |f| f.scope == 1 && f.reserved(4) && f.alone_not_zero(11)),
    ("scope 1, byte 12 alone not zero: 21 at 4", |f| f.scope == 1 && f.reserved(4) && f.alone_not_zero(12)),
    ("scope 1, byte 15 alone not zero: 21 at 4", |f| f.scope == 1 && f.reserved(4) && f.alone_not_zero(15)),
    ("scope 0, entries", |f| f.scope == 0 && f.entries()),
    ("scope 4, entries", |f| f.scope == 4 && f.entries()),
    ("scope 4, a unit: 21 at 4", |f| f.scope == 4 && f.reserved(4)),
    ("scope 0x103, a unit: 21 at 4", |f| f.scope == 0x103 && f.reserved(4)),
    ("scope 0x80000003, a unit: 21 at 4", |f| f.scope == 0x8000_0003 && f.reserved(4)),
    ("terminator at byte 16", |f| f.refused(0) && f.reading.entries == 0),
    ("terminator in the last word", |f| f.entries() && f.operands_to_4092()),
    ("22: opcode 0 with a count", |f| f.refused(22) && f.operator().0 == 0),
    ("22: opcode 4 with a count", |f| f.refused(22) && f.operator().0 == 4 && f.operator().1 > 0),
    ("22: opcode 4, past the end", |f| f.refused(22) && f.operator().0 == 4 && f.operator().2 > 4096),
    ("empty operator: opcode 0x80", |f| f.entries() && f.empty_at(|_, word| word == 0x8000_0000)),
    ("empty operator: opcode 4", |f| f.entries() && f.empty_at(|_, word| word == 0x0400_0000)),
    ("empty operator before all lists", |f| f.entries() && f.empty_at(|at, _| at == 16)),
    ("empty operator of a lower opcode between lists", |f| f.entries() && f.empty_below_earlier()),
    ("empty operator right before the terminator", |f| f.entries() && f.empty_before_terminator()),
    ("empty operators, four in a row", |f| f.entries() && f.empty_in_a_row(4)),
    ("empty operators alone", |f| f.refused(0) && f.reading.entries == 0 && f.empty_at(|_, _| true)),
    ("27: empty operator in the last word", |f| f.refused(27) && f.empty_at(|at, _| at == 4092)),
    ("25: inside the area", |f| f.refused(25) && f.operator().2 <= 4096),
    ("25: past the end", |f| f.refused(25) && f.operator().2 > 4096),
    ("26: inside the area", |f| f.refused(26) && f.operator().2 <= 4096),
    ("26: past the end", |f| f.refused(26) && f.operator().2 > 4096),
    ("24: one word past the end", |f| f.refused(24) && f.operator().2 == 4100),
    ("24: two words past the end", |f| f.refused(24) && f.operator().2 == 4104),
    ("24: count 0xffffff", |f| f.refused(24) && f.operator().1 == 0xff_ffff),
    ("state above 0", |f| f.reading.state_or_zero > 0),
    ("out holds all entries exactly", |f| f.entries() && f.out == 3 * f.reading.entries),
    ("out one number short", |f| f.entries() && f.out + 1 == 3 * f.reading.entries),
    ("out holds nothing", |f| f.entries() && f.room() == 0),
    ("out holds more", |f| f.entries() && f.room() > f.reading.entries),
];

pub const INDEX_LINES: &[Line<Facts>] = &[
    ("3 bytes", |f| f.length() == 3),
    ("4 bytes, count 0", |f| f.length() == 4 && f.refused(0)),
    ("count 0, more bytes", |f| f.length() > 4 && f.refused(0) && f.reading.entries == 0),
    ("31: 7 bytes left", |f| f.refused(31) && f.set().0 == 7),
    ("31: no byte left", |f| f.refused(31) && f.set().0 == 0),
    ("31: 8 bytes left, code past the end", |f| f.refused(31) && f.set().0 == 8),
    ("31: code one byte past the end", |f| f.refused(31) && f.set().1.is_some_and(|l| l as usize == f.set().0 - 7)),
    ("31: length 1,024 past the end", |f| f.refused(31) && f.set().1 == Some(1024)),
    ("31: length 1,024, one byte past the end", |f| f.refused(31) && f.set() == (1031, Some(1024))),
    ("32: length 0", |f| f.refused(32) && f.set().1 == Some(0)),
    ("32: length 1,028 inside", |f| f.refused(32) && f.set().1 == Some(1028) && f.set().0 >= 1036),
    ("32: length 1,028 past the end", |f| f.refused(32) && f.set().1 == Some(1028) && f.set().0 < 1036),
    ("32: length no multiple of 4, under 1,024", |f| {
        f.refused(32) && f.set().1.is_some_and(|l| l % 4 != 0 && l < 1024)
    }),
    ("32: length with bit 31", |f| f.refused(32) && f.set().1 >= Some(0x8000_0000)),
    ("33: length 1,024, no NUL", |f| f.refused(33) && f.set().1 == Some(1024) && f.first_nul().is_none()),
    ("33: empty code", |f| f.refused(33) && f.first_nul() == Some(0)),
    ("33: no NUL", |f| f.refused(33) && f.first_nul().is_none()),
    ("33: a byte behind a NUL", |f| f.refused(33) && f.first_nul() > Some(0) && !f.only_nuls_behind_code()),
    ("33: five NULs or more", |f| f.refused(33) && f.first_nul() > Some(0) && f.only_nuls_behind_code()),
    ("first set of length 4", |f| f.first_set().is_some_and(|set| set.0 == 4)),
    ("first set of length 84", |f| f.first_set().is_some_and(|set| set.0 == 84)),
    ("first set of length 1,024, 1 NUL", |f| f.first_set() == Some((1024, 1))),
    ("first set of length 1,024, 4 NULs", |f| f.first_set() == Some((1024, 4))),
    ("first set with 1 NUL", |f| f.first_set_has_nuls(1)),
    ("first set with 2 NULs", |f| f.first_set_has_nuls(2)),
    ("first set with 3 NULs", |f| f.first_set_has_nuls(3)),
    ("first set with 4 NULs", |f| f.first_set_has_nuls(4)),
    ("count larger than the sets", |f| f.refused(31) && word_at(&f.area, 0) == Some(0xffff_ffff)),
    ("out holds all entries exactly", |f| f.entries() && f.out == 3 * f.reading.entries),
    ("out one number short", |f| f.entries() && f.out + 1 == 3 * f.reading.entries),
    ("out holds nothing", |f| f.entries() && f.room() == 0),
    ("out holds more", |f| f.entries() && f.room() > f.reading.entries),
];
