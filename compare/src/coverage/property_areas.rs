//! The refusals and lines of the reader of property areas.

use super::areas::Facts;
use super::Line;
use crate::buffers::word_at;

pub const REFUSALS: &[(u32, &str)] = &[
    (0, "entries"),
    (40, "40 not 4,096 bytes"),
    (41, "41 bytes 8 to 15 not zero"),
    (42, "42 not a name with its NUL"),
    (43, "43 descriptor or value past the end"),
];

impl Facts {
    /// What is left of the area from the refused property on, and the length of its name, if it ends.
    fn property(&self) -> (usize, Option<usize>) {
        let at = self.reading.offset as usize;
        let rest = self.area.get(at..).unwrap_or(&[]);
        (rest.len(), rest.iter().position(|&byte| byte == 0))
    }

    /// The refused property's descriptor, and the bytes of the area behind it.
    fn descriptor(&self) -> Option<(u32, usize)> {
        let at = self.reading.offset as usize + self.property().1? + 1;
        word_at(&self.area, at).map(|descriptor| (descriptor, self.length() - at - 4))
    }

    /// 42, and the name has so many bytes.
    fn bad_name(&self, bytes: usize) -> bool {
        self.refused(42) && self.property().1 == Some(bytes)
    }

    /// 43 by a value, and its descriptor is this much above the bytes that are left.
    fn past_the_end(&self, test: fn(u32, u32) -> bool) -> bool {
        self.refused(43) && self.descriptor().is_some_and(|(descriptor, left)| test(descriptor, left as u32))
    }

    /// 43 by the descriptor, of which so many bytes are there.
    fn descriptor_cut(&self, bytes: usize) -> bool {
        let (left, name) = self.property();
        self.refused(43) && name.is_some_and(|name| left == name + 1 + bytes)
    }

    /// The properties of a read area: name's length, descriptor and the offset of the value's end.
    fn read_properties(&self) -> Vec<(usize, u32, usize)> {
        let mut properties = Vec::new();
        let mut at = 20;
        while self.refused(0) && (properties.len() as u64) < self.reading.entries {
            let name = self.area[at..].iter().position(|&byte| byte == 0).unwrap_or(0);
            let descriptor = word_at(&self.area, at + name + 1).unwrap_or(0);
            let value = if descriptor == 0x8000_0000 { 0 } else { (descriptor as i32).unsigned_abs() as usize };
            at += name + 5 + value;
            properties.push((name, descriptor, at));
        }
        properties
    }

    fn has_property(&self, test: fn(&(usize, u32, usize)) -> bool) -> bool {
        self.read_properties().iter().any(test)
    }

    fn ends_at_4096(&self, test: fn(u32) -> bool) -> bool {
        self.read_properties().last().is_some_and(|&(_, descriptor, end)| end == 4096 && test(descriptor))
    }

    /// A negative descriptor that is not the last.
    fn part_before_others(&self) -> bool {
        let properties = self.read_properties();
        properties.iter().rev().skip(1).any(|property| property.1 > 0x8000_0000)
    }

    /// Of bytes 8 to 15 this one alone is not zero.
    fn reserved_alone(&self, byte: usize) -> bool {
        let not_zero = (8..16).filter(|&at| self.area.get(at).is_some_and(|&byte| byte != 0));
        self.refused(41) && not_zero.eq([byte])
    }

    fn word_is_not_zero(&self, at: usize) -> bool {
        word_at(&self.area, at).is_some_and(|word| word > 0)
    }
}

pub const LINES: &[Line<Facts>] = &[
    ("no bytes", |f| f.length() == 0),
    ("4,095 bytes", |f| f.length() == 4095),
    ("4,097 bytes", |f| f.length() == 4097),
    ("4,095 bytes, byte 8 not zero", |f| f.refused(40) && f.area.get(8).is_some_and(|&byte| byte > 0)),
    ("byte 8 alone not zero", |f| f.reserved_alone(8)),
    ("byte 15 alone not zero", |f| f.reserved_alone(15)),
    ("byte 7 not zero, read", |f| f.refused(0) && f.area[7] != 0),
    ("byte 16 not zero", |f| f.refused(42) && f.area[16] != 0),
    ("no properties", |f| f.refused(0) && f.reading.entries == 0),
    ("phandle and state above 0", |f| f.refused(0) && f.word_is_not_zero(0) && f.word_is_not_zero(4)),
    ("42: empty name", |f| f.bad_name(0)),
    ("42: name of 32 bytes", |f| f.bad_name(32)),
    ("42: name of 33 bytes or more", |f| f.refused(42) && f.property().1 > Some(32)),
    ("42: the area ends before the NUL, under 32 bytes left", |f| {
        f.refused(42) && f.property().1.is_none() && (1..32).contains(&f.property().0)
    }),
    ("42: at 4,096", |f| f.refused(42) && f.reading.offset == 4096),
    ("42: the second property", |f| f.refused(42) && f.reading.offset > 20),
    ("43: no byte of the descriptor", |f| f.descriptor_cut(0)),
    ("43: three bytes of the descriptor", |f| f.descriptor_cut(3)),
    ("43: value one byte past the end", |f| f.past_the_end(|d, left| d == left + 1)),
    ("43: part of a value one byte past the end", |f| f.past_the_end(|d, left| d == (left + 1).wrapping_neg())),
    ("43: descriptor 0x80000001", |f| f.past_the_end(|d, _| d == 0x8000_0001)),
    ("43: descriptor 0x7fffffff", |f| f.past_the_end(|d, _| d == 0x7fff_ffff)),
    ("value to the last byte", |f| f.ends_at_4096(|d| (1..0x8000_0000).contains(&d))),
    ("part of a value to the last byte", |f| f.ends_at_4096(|d| d > 0x8000_0000)),
    ("descriptor 0 in the last bytes", |f| f.ends_at_4096(|d| d == 0)),
    ("descriptor 0x80000000 in the last bytes", |f| f.ends_at_4096(|d| d == 0x8000_0000)),
    ("descriptor 0", |f| f.has_property(|p| p.1 == 0)),
    ("descriptor 0x80000000", |f| f.has_property(|p| p.1 == 0x8000_0000)),
    ("descriptor 1", |f| f.has_property(|p| p.1 == 1)),
    ("descriptor 0xffffffff", |f| f.has_property(|p| p.1 == 0xffff_ffff)),
    ("part of a value before others", Facts::part_before_others),
    ("name of 1 byte", |f| f.has_property(|p| p.0 == 1)),
    ("name of 31 bytes", |f| f.has_property(|p| p.0 == 31)),
    ("count larger than the properties", |f| f.refused(42) && word_at(&f.area, 16) == Some(0xffff_ffff)),
    ("count above them by one", |f| f.refused(42) && f.reading.offset > 20 && word_at(&f.area, 16) < Some(0x100)),
    ("out holds all properties exactly", |f| f.entries() && f.out == 5 * f.reading.entries),
    ("out one word short", |f| f.entries() && f.out + 1 == 5 * f.reading.entries),
    ("out holds nothing", |f| f.entries() && f.out < 5),
    ("out holds more", |f| f.entries() && f.out >= 5 * f.reading.entries + 5),
];
