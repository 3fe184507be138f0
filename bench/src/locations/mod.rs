//! Lookups of location codes: what is asked and answered, the sides that answer, and the areas and lists that are measured.

mod independent;
#[cfg(not(feature = "stand-in"))]
mod library;

/// What a lookup answers: number 0 with the buffer, 1 the area or 2 the fixed list, and the place of the code in it; 34 not
/// found; 30 to 33 with the offset in the area.
#[repr(C)]
#[derive(Clone, Copy, PartialEq, Eq, Debug)]
pub struct Location {
    pub number: u32,
    pub buffer: u32,
    pub offset: usize,
    pub length: usize,
}

impl Location {
    pub const NOT_FOUND: Location = Location { number: 34, buffer: 0, offset: 0, length: 0 };

    pub fn refused(number: u32, offset: usize) -> Location {
        Location { number, buffer: 0, offset, length: 0 }
    }
}

/// A lookup in an area and a fixed list.
pub type Lookup = fn(&[u8], &[u8], u32) -> Location;

/// The independent program.
pub const INDEPENDENT: Lookup = independent::lookup;

/// The proved library.
#[cfg(not(feature = "stand-in"))]
pub const PROVED: Lookup = library::lookup;
#[cfg(feature = "stand-in")]
pub const PROVED: Lookup = independent::lookup;

/// The bytes of an area, and of a fixed list.
pub const AREA_SIZE: usize = 4096;
pub const FIXED_SIZE: usize = 65_536;

/// The lengths of the codes, in bytes.
pub const CODES: [usize; 3] = [8, 79, 1023];

/// An area of no entries.
pub const NO_ENTRIES: [u8; 4] = [0; 4];

/// The code of an index: so many letters.
fn code(index: usize, length: usize) -> impl Iterator<Item = u8> {
    (0..length).map(move |place| b'A' + ((index + place) % 26) as u8)
}

/// A full area with codes of this length. The indices go from 0 up to the last one, which is told.
pub fn area(length: usize) -> (Vec<u8>, u32) {
    let field = 4 * (length / 4 + 1);
    let sets = (AREA_SIZE - 4) / (8 + field);
    let mut area = (sets as u32).to_be_bytes().to_vec();
    for index in 0..sets {
        area.extend((index as u32).to_be_bytes());
        area.extend((field as u32).to_be_bytes());
        area.extend(code(index, length));
        area.resize(area.len() + field - length, 0);
    }
    area.resize(AREA_SIZE, 0);
    (area, sets as u32 - 1)
}

/// A full list with codes of this length, of which the last is longer, and the number of that one.
pub fn fixed_list(length: usize) -> (Vec<u8>, u32) {
    let entries = FIXED_SIZE / (length + 1);
    let mut list: Vec<u8> = (0..entries).flat_map(|index| code(index, length).chain([0])).collect();
    list.pop();
    list.resize(FIXED_SIZE - 1, b'Z');
    list.push(0);
    (list, entries as u32 - 1)
}
