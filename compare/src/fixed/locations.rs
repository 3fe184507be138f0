//! The readings of lookups and of views (M-112).

use crate::buffers::words;
use crate::library::locations::{Cursor, Location, Step};
use crate::locations::code;
use crate::subject::Subject;

/// What a lookup has to come to.
enum Told {
    /// The code, from this offset of the area on.
    Area(usize, &'static [u8]),
    /// The code, from this offset of the fixed list on.
    Fixed(usize, &'static [u8]),
    NotFound,
    Refused(u32, u64),
}

/// A lookup, and what it has to come to.
struct LookupReading {
    name: &'static str,
    area: Vec<u8>,
    fixed: Vec<u8>,
    index: u32,
    told: Told,
}

/// What a step has to give: index, offset and length of an entry; or 35 or a refusal with its offset.
#[derive(Clone, Copy)]
enum Given {
    Entry(u32, u64, u64),
    End,
    Refused(u32, u64),
}

/// A view from the start: all its steps, of which the last is given three times more.
struct ViewReading {
    name: &'static str,
    area: Vec<u8>,
    steps: Vec<Given>,
}

/// A step from any cursor, and the cursor behind it.
struct StepReading {
    name: &'static str,
    area: Vec<u8>,
    cursor: (u64, u64),
    given: Given,
    behind: (u64, u64),
}

pub struct LocationReadings {
    lookups: Vec<LookupReading>,
    views: Vec<ViewReading>,
    steps: Vec<StepReading>,
}

pub fn readings() -> LocationReadings {
    let lookups = [listed(), in_fixed_list(), refused(), largest_index(), lengths()];
    let lookups = lookups.into_iter().flatten().collect();
    LocationReadings { lookups, views: views(), steps: steps() }
}

impl LocationReadings {
    pub fn text(&self) -> String {
        let (lookups, views, steps) = (self.lookups.len(), self.views.len(), self.steps.len());
        format!("{lookups} lookups, {views} views and {steps} steps from any cursor")
    }

    /// What a side does otherwise than written.
    pub fn failures<'a>(&'a self, subject: &'a dyn Subject) -> impl Iterator<Item = Option<String>> + 'a {
        let of_lookups = self.lookups.iter().map(|reading| reading.failure(subject));
        let of_views = self.views.iter().map(|reading| reading.failure(subject));
        let of_steps = self.steps.iter().map(|reading| reading.failure(subject));
        of_lookups.chain(of_views).chain(of_steps)
    }
}

impl LookupReading {
    fn failure(&self, subject: &dyn Subject) -> Option<String> {
        let Self { name, area, fixed, index, told } = self;
        let found = subject.locating().lookup(area, fixed, *index);
        let (number, buffer, offset, bytes) = match *told {
            Told::Area(at, code) => (0, 1, at as u64, Some(code)),
            Told::Fixed(at, code) => (0, 2, at as u64, Some(code)),
            Told::NotFound => (34, 0, 0, None),
            Told::Refused(number, at) => (number, 0, at, None),
        };
        let written = Location { number, buffer, offset, length: bytes.map_or(0, <[u8]>::len) as u64 };
        if found == written && code(area, fixed, &found) == bytes {
            return None;
        }
        Some(format!("fixed reading '{name}' on {}: {found:?}, written {written:?}", subject.name()))
    }
}

/// A step with the cursor behind it.
fn step(given: Given, (at, left): (u64, u64)) -> Step {
    let (number, index, offset, length) = match given {
        Given::Entry(index, offset, length) => (0, index, offset, length),
        Given::End => (35, 0, 0, 0),
        Given::Refused(number, offset) => (number, 0, offset, 0),
    };
    Step { number, index, offset, length, cursor: Cursor { at, left } }
}

impl ViewReading {
    fn failure(&self, subject: &dyn Subject) -> Option<String> {
        let last = *self.steps.last()?;
        let mut cursor = subject.locating().view_start(&self.area);
        for (number, given) in self.steps.iter().copied().chain([last; 3]).enumerate() {
            let found = subject.locating().view_step(&self.area, cursor);
            let written = Step { cursor: found.cursor, ..step(given, (0, 0)) };
            if found != written || found.number != 0 && found.cursor != cursor {
                let (name, number) = (self.name, number + 1);
                let told = format!("{found:x?}, written {written:x?}");
                return Some(format!("fixed reading '{name}' on {}, step {number}: {told}", subject.name()));
            }
            cursor = found.cursor;
        }
        None
    }
}

impl StepReading {
    fn failure(&self, subject: &dyn Subject) -> Option<String> {
        let cursor = Cursor { at: self.cursor.0, left: self.cursor.1 };
        let found = subject.locating().view_step(&self.area, cursor);
        let written = step(self.given, self.behind);
        let text = || format!("fixed reading '{}' on {}: {found:x?}, written {written:x?}", self.name, subject.name());
        (found != written).then(text)
    }
}

/// Three sets: index 7 with the code abc, index 9 with de, index 7 again with another code. They begin at 4, 16 and 28.
fn area() -> Vec<u8> {
    [words(&[3, 7, 4]), b"abc\0".to_vec(), words(&[9, 4]), b"de\0\0".to_vec(), words(&[7, 8]), b"wxyz\0\0\0\0".to_vec()]
        .concat()
}

/// An area of no sets.
fn none() -> Vec<u8> {
    words(&[0])
}

/// Entries 0 and 2 have a code, 1 is empty, 3 has no NUL.
const FIXED: &[u8] = b"zero\0\0two\0rest";

fn reading(name: &'static str, area: Vec<u8>, fixed: &[u8], index: u32, told: Told) -> LookupReading {
    LookupReading { name, area, fixed: fixed.to_vec(), index, told }
}

/// "an index that the area lists wins, first match; otherwise the fixed list"
fn listed() -> Vec<LookupReading> {
    let eight = b"a\0b\0c\0d\0e\0f\0g\0seven\0i\0nine\0";
    let behind = [area(), vec![0xff; 9]].concat();
    let fewer = [words(&[1]), area()[4..].to_vec()].concat();
    vec![
        reading("an index listed once", area(), FIXED, 9, Told::Area(24, b"de")),
        reading("an index listed twice", area(), FIXED, 7, Told::Area(12, b"abc")),
        reading("an index listed and in the fixed list", area(), eight, 9, Told::Area(24, b"de")),
        reading("an index listed twice and in the fixed list", area(), eight, 7, Told::Area(12, b"abc")),
        reading("an index in the fixed list alone", area(), eight, 8, Told::Fixed(20, b"i")),
        reading("an index in neither", area(), FIXED, 8, Told::NotFound),
        reading("bytes behind the last set", behind, FIXED, 9, Told::Area(24, b"de")),
        reading("a set behind the last one that is counted", fewer, FIXED, 9, Told::NotFound),
    ]
}

/// "entry number, from 0, equal to index"; "An empty code, or one without its NUL in the fixed list, counts as not found."
fn in_fixed_list() -> Vec<LookupReading> {
    vec![
        reading("fixed entry 0", none(), FIXED, 0, Told::Fixed(0, b"zero")),
        reading("an empty fixed entry", none(), FIXED, 1, Told::NotFound),
        reading("a fixed entry behind an empty one", none(), FIXED, 2, Told::Fixed(6, b"two")),
        reading("a fixed entry without its NUL", none(), FIXED, 3, Told::NotFound),
        reading("behind the last fixed entry", none(), FIXED, 4, Told::NotFound),
        reading("the last fixed entry", none(), b"a\0bc\0", 1, Told::Fixed(2, b"bc")),
        reading("behind the last NUL", none(), b"a\0bc\0", 2, Told::NotFound),
        reading("an empty fixed list, index 0", none(), b"", 0, Told::NotFound),
        reading("an empty fixed list, index 1", none(), b"", 1, Told::NotFound),
        reading("a fixed list of one NUL", none(), b"\0", 0, Told::NotFound),
        reading("a fixed list of one byte", none(), b"a", 0, Told::NotFound),
        reading("empty entries alone, and a code", none(), b"\0\0\0a\0", 3, Told::Fixed(3, b"a")),
        reading("index 2^32 - 2", none(), FIXED, u32::MAX - 1, Told::NotFound),
    ]
}

/// "Refusals: 30 to 33 for the area, then not found". 16.1: a refused area refuses every lookup.
fn refused() -> Vec<LookupReading> {
    let cut = || area()[..27].to_vec();
    let with = |at: usize, byte: u8| {
        let mut changed = area();
        changed[at] = byte;
        changed
    };
    vec![
        reading("an index listed before a fault", cut(), FIXED, 7, Told::Refused(31, 16)),
        reading("an index in the fixed list, over a refused area", cut(), FIXED, 0, Told::Refused(31, 16)),
        reading("an index in neither, over a refused area", cut(), FIXED, 8, Told::Refused(31, 16)),
        reading("an index listed before and behind a fault", with(23, 5), FIXED, 7, Told::Refused(32, 16)),
        reading("an index listed before a fault in the last set", with(43, b'x'), FIXED, 7, Told::Refused(33, 28)),
        reading("a count that is one too high", with(3, 4), FIXED, 7, Told::Refused(31, 44)),
        reading("an area of no bytes", Vec::new(), FIXED, 0, Told::Refused(30, 0)),
        reading("an area of 3 bytes", vec![0; 3], FIXED, 0, Told::Refused(30, 0)),
        reading("an area of 4 bytes", vec![0; 4], FIXED, 0, Told::Fixed(0, b"zero")),
    ]
}

/// "0xFFFFFFFF is always not found".
fn largest_index() -> Vec<LookupReading> {
    let listed = [words(&[2, u32::MAX, 4]), b"abc\0".to_vec(), words(&[u32::MAX - 1, 4]), b"d\0\0\0".to_vec()].concat();
    let cut = listed[..27].to_vec();
    vec![
        reading("0xffffffff listed", listed.clone(), FIXED, u32::MAX, Told::NotFound),
        reading("0xfffffffe listed", listed, FIXED, u32::MAX - 1, Told::Area(24, b"d")),
        reading("0xffffffff not listed", none(), FIXED, u32::MAX, Told::NotFound),
        reading("0xffffffff listed in a refused area", cut, FIXED, u32::MAX, Told::Refused(31, 16)),
        reading("0xffffffff over no bytes", Vec::new(), FIXED, u32::MAX, Told::Refused(30, 0)),
    ]
}

/// So many letters, which outlive every reading.
static LETTERS: [u8; 5000] = [b'U'; 5000];

/// The longest code of an area, and codes of the fixed list about the blocks of 64 bytes and past 1,023.
fn lengths() -> Vec<LookupReading> {
    let letters = |count: usize| &LETTERS[..count];
    let set = |length: u32, code: usize, nuls: usize| {
        [words(&[1, 7, length]), letters(code).to_vec(), vec![0; nuls]].concat()
    };
    let mut readings = vec![
        reading("1,023 bytes in an area", set(1024, 1023, 1), FIXED, 7, Told::Area(12, letters(1023))),
        reading("1,020 bytes in an area", set(1024, 1020, 4), FIXED, 7, Told::Area(12, letters(1020))),
        reading("1,024 bytes in an area", set(1028, 1024, 4), FIXED, 7, Told::Refused(32, 4)),
    ];
    for length in [62, 63, 64, 65, 126, 127, 128, 129, 1023, 1024, 5000] {
        let code = letters(length);
        let front = [b"a\0", code, b"\0b\0"].concat();
        readings.push(reading("a long fixed code", none(), &front, 1, Told::Fixed(2, code)));
        readings.push(reading("a fixed code behind a long one", none(), &front, 2, Told::Fixed(length + 3, b"b")));
        let bare = [b"a\0", code].concat();
        readings.push(reading("a long fixed code without its NUL", none(), &bare, 1, Told::NotFound));
        let empty = [vec![0; length], b"b\0".to_vec()].concat();
        readings.push(reading("behind many empty entries", none(), &empty, length as u32, Told::Fixed(length, b"b")));
    }
    readings
}

/// 16.6: "gives the sets before the fault, then the refusal, again and again".
fn views() -> Vec<ViewReading> {
    let entries = [Given::Entry(7, 12, 3), Given::Entry(9, 24, 2), Given::Entry(7, 36, 4)];
    let view = |name, area, entries: &[Given], last| ViewReading { name, area, steps: [entries, &[last]].concat() };
    let with = |at: usize, byte: u8| {
        let mut changed = area();
        changed[at] = byte;
        changed
    };
    vec![
        view("a view of three entries", area(), &entries, Given::End),
        view("a view of no entries", none(), &[], Given::End),
        view("a view of fewer entries than stand there", with(3, 2), &entries[..2], Given::End),
        view("a view with a count that is one too high", with(3, 4), &entries, Given::Refused(31, 44)),
        view("a view with count 0xffffff03", [&[0xff; 3], &area()[3..]].concat(), &entries, Given::Refused(31, 44)),
        view("a view of an area that is cut off", area()[..27].to_vec(), &entries[..1], Given::Refused(31, 16)),
        view("a view with a bad length", with(23, 3), &entries[..1], Given::Refused(32, 16)),
        view("a view with a bad code", with(43, 1), &entries[..2], Given::Refused(33, 28)),
        view("a view with a bad first entry", with(12, 0), &[], Given::Refused(33, 4)),
        view("a view of no bytes", Vec::new(), &[], Given::Refused(30, 0)),
        view("a view of 3 bytes", vec![0, 0, 1], &[], Given::Refused(30, 0)),
    ]
}

/// Any cursor is answered: "31 where under 8 bytes are left; an area under 4 bytes: 30 at 0".
fn steps() -> Vec<StepReading> {
    let any = |name, cursor: (u64, u64), given| StepReading { name, area: area(), cursor, given, behind: cursor };
    let short = |name, cursor: (u64, u64)| StepReading {
        name,
        area: vec![0; 3],
        cursor,
        given: Given::Refused(30, 0),
        behind: cursor,
    };
    let entry = StepReading {
        name: "a step at the second entry, 2^64 - 1 to come",
        area: area(),
        cursor: (16, u64::MAX),
        given: Given::Entry(9, 24, 2),
        behind: (28, u64::MAX - 1),
    };
    vec![
        entry,
        any("a step at an entry, none to come", (16, 0), Given::End),
        any("a step far out of range, none to come", (u64::MAX, 0), Given::End),
        any("a step at the area's end", (44, 1), Given::Refused(31, 44)),
        any("a step where 7 bytes are left", (37, 1), Given::Refused(31, 37)),
        any("a step where 8 bytes are left", (36, 1), Given::Refused(32, 36)),
        any("a step one byte past the end", (45, 1), Given::Refused(31, 45)),
        any("a step at 2^64 - 1", (u64::MAX, 1), Given::Refused(31, u64::MAX)),
        any("a step at 2^64 - 8", (u64::MAX - 7, 1), Given::Refused(31, u64::MAX - 7)),
        any("a step between two entries", (8, 1), Given::Refused(32, 8)),
        any("a step at 0", (0, 1), Given::Refused(32, 0)),
        short("a step in 3 bytes, none to come", (4, 0)),
        short("a step in 3 bytes, out of range", (u64::MAX, 9)),
    ]
}
