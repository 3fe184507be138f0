//! The rules and lines of lookups and of views (M-112).

use super::{Coverage, Line, Table};
use crate::buffers::word_at;
use crate::library::locations::{Cursor, Location, Step};
use crate::locations::subject::{END, NOT_FOUND};
use crate::paper::locations::{fixed_entries, lookup, view_start, view_step, FixedEntry, Given, Missed};
use crate::paper::readers::Index;

const LOOKUPS: [&str; 10] = [
    "found in the area",
    "found in the fixed list",
    "30 under 4 bytes",
    "31 under 8 bytes left, or code past the end",
    "32 length",
    "33 no code with its NULs",
    "not found: 0xFFFFFFFF",
    "not found: no such entry",
    "not found: an empty code",
    "not found: a code without its NUL",
];

fn lookup_row(area: &[u8], fixed: &[u8], index: u32, told: &Location) -> &'static str {
    match (told.number, told.buffer, lookup(area, fixed, u64::from(index))) {
        (0, 1, _) => LOOKUPS[0],
        (0, _, _) => LOOKUPS[1],
        (30..=33, _, _) => LOOKUPS[told.number as usize - 28],
        (_, _, Err(Missed::NotFound(rule))) => {
            let row = LOOKUPS.into_iter().find(|row| row.strip_prefix("not found: ") == Some(rule));
            row.unwrap_or(rule)
        }
        _ => "another answer",
    }
}

/// The library counts NULs in blocks of so many bytes.
const BLOCK: u64 = 64;

/// A lookup and what came of it.
struct Facts {
    index: u32,
    /// The entries that the area has before its end or its fault.
    sets: Vec<Index>,
    fixed: Vec<FixedEntry>,
    told: Location,
}

impl Facts {
    fn is_found(&self, buffer: u32) -> bool {
        self.told.number == 0 && self.told.buffer == buffer
    }

    fn is_refused(&self) -> bool {
        (30..=33).contains(&self.told.number)
    }

    fn is_not_found(&self) -> bool {
        self.told.number == NOT_FOUND
    }

    fn times_listed(&self) -> usize {
        self.sets.iter().filter(|set| set.index == self.index).count()
    }

    /// The entry of the fixed list with this number, where it has a code and its NUL.
    fn has_fixed(&self) -> bool {
        self.fixed.get(self.index as usize).is_some_and(|entry| entry.length > 0 && entry.ended)
    }

    fn is_last_of_fixed(&self) -> bool {
        self.index as usize + 1 == self.fixed.len()
    }

    /// Found in the fixed list, behind an empty entry.
    fn behind_empty(&self) -> bool {
        self.is_found(2) && self.fixed[..self.index as usize].iter().any(|entry| entry.length == 0)
    }

    /// Found in the fixed list from this byte of a block on.
    fn begins_in_block(&self, byte: u64) -> bool {
        self.is_found(2) && self.told.offset >= BLOCK && self.told.offset % BLOCK == byte
    }
}

const LINES: &[Line<Facts>] = &[
    ("listed once", |f| f.is_found(1) && f.times_listed() == 1),
    ("listed twice", |f| f.is_found(1) && f.times_listed() == 2),
    ("listed three times or more", |f| f.is_found(1) && f.times_listed() > 2),
    ("listed and in the fixed list", |f| f.is_found(1) && f.has_fixed()),
    ("listed by the first set", |f| f.is_found(1) && f.told.offset == 12),
    ("listed by the last set alone", |f| {
        f.is_found(1) && f.times_listed() == 1 && f.sets.last().is_some_and(|set| set.index == f.index)
    }),
    ("listed before a fault", |f| f.is_refused() && f.times_listed() > 0),
    ("in the fixed list, and the area is refused", |f| f.is_refused() && f.has_fixed()),
    ("0xFFFFFFFF listed", |f| f.is_not_found() && f.index == u32::MAX && f.times_listed() > 0),
    ("0xFFFFFFFF not listed", |f| f.is_not_found() && f.index == u32::MAX && f.times_listed() == 0),
    ("0xFFFFFFFF over a refused area", |f| f.is_refused() && f.index == u32::MAX),
    ("a code of 1,023 bytes in the area", |f| f.is_found(1) && f.told.length == 1023),
    ("fixed entry 0", |f| f.is_found(2) && f.index == 0),
    ("the last fixed entry", |f| f.is_found(2) && f.is_last_of_fixed()),
    ("one behind the last fixed entry", |f| f.is_not_found() && f.index as usize == f.fixed.len()),
    ("an empty fixed list", |f| f.is_not_found() && f.fixed.is_empty()),
    ("a fixed entry behind an empty one", Facts::behind_empty),
    ("fixed entry 0 is empty", |f| f.is_not_found() && f.index == 0 && f.fixed.first().is_some_and(|e| e.length == 0)),
    ("a fixed code of 1,024 bytes or more", |f| f.is_found(2) && f.told.length >= 1024),
    ("a fixed code over two blocks", |f| {
        f.is_found(2) && f.told.offset / BLOCK != (f.told.offset + f.told.length) / BLOCK
    }),
    ("a fixed code from the first byte of a later block on", |f| f.begins_in_block(0)),
    ("a fixed code from the last byte of a later block on", |f| f.begins_in_block(BLOCK - 1)),
    ("a fixed list of whole blocks, found", |f| {
        f.is_found(2) && f.fixed.last().is_some_and(|e| (e.at + e.length + 1).is_multiple_of(BLOCK))
    }),
    ("an index of 2^31 or more, found", |f| f.told.number == 0 && f.index >= 1 << 31),
];

/// The steps of a view from the start.
struct Viewed {
    count: Option<u32>,
    entries: usize,
    /// The steps behind the last entry.
    behind: Vec<Step>,
}

impl Viewed {
    fn ends_by(&self, number: u32) -> bool {
        self.behind.first().is_some_and(|step| step.number == number)
    }

    fn is_refused(&self) -> bool {
        !self.ends_by(END)
    }
}

const VIEWS: &[Line<Viewed>] = &[
    ("entries and the end", |f| f.ends_by(END) && f.entries > 0),
    ("no entries and the end", |f| f.ends_by(END) && f.entries == 0),
    ("ten entries or more", |f| f.entries >= 10),
    ("30 under 4 bytes", |f| f.ends_by(30)),
    ("31 under 8 bytes left, or code past the end", |f| f.ends_by(31)),
    ("32 length", |f| f.ends_by(32)),
    ("33 no code with its NULs", |f| f.ends_by(33)),
    ("entries before a refusal", |f| f.is_refused() && f.entries > 0),
    ("a refusal at the first entry", |f| f.is_refused() && f.entries == 0 && f.count.is_some()),
    ("count 0xffffffff", |f| f.count == Some(u32::MAX)),
    ("the end again", |f| f.ends_by(END) && f.behind.len() > 1),
    ("the refusal again", |f| f.is_refused() && f.behind.len() > 1),
];

/// A step from any cursor.
struct Stepped {
    length: u64,
    cursor: Cursor,
    step: Step,
}

impl Stepped {
    /// The bytes left, where the cursor is inside.
    fn rest(&self) -> Option<u64> {
        self.length.checked_sub(self.cursor.at)
    }

    fn gives(&self, number: u32) -> bool {
        self.step.number == number
    }
}

const STEPS: &[Line<Stepped>] = &[
    ("an entry", |f| f.gives(0)),
    ("an entry, 2^64 - 1 to come", |f| f.gives(0) && f.cursor.left == u64::MAX),
    ("an entry, one to come", |f| f.gives(0) && f.cursor.left == 1),
    ("an entry up to the area's end", |f| f.gives(0) && f.step.cursor.at == f.length),
    ("the end", |f| f.gives(END)),
    ("the end, far out of range", |f| f.gives(END) && f.rest().is_none()),
    ("30 under 4 bytes", |f| f.gives(30)),
    ("30, none to come", |f| f.gives(30) && f.cursor.left == 0),
    ("31 at the area's end", |f| f.gives(31) && f.rest() == Some(0)),
    ("31, 7 bytes left", |f| f.gives(31) && f.rest() == Some(7)),
    ("8 bytes left", |f| f.cursor.left > 0 && f.rest() == Some(8)),
    ("31, 9 bytes left or more", |f| f.gives(31) && f.rest().is_some_and(|rest| rest > 8)),
    ("31 one byte past the end", |f| f.gives(31) && f.cursor.at == f.length + 1),
    ("31 at 2^64 - 8 or above", |f| f.gives(31) && f.cursor.at >= u64::MAX - 7),
    ("32 length", |f| f.gives(32)),
    ("33 no code with its NULs", |f| f.gives(33)),
    ("at 0 to 3", |f| f.cursor.at < 4 && f.cursor.left > 0 && f.length >= 4),
];

pub fn tables() -> [Table; 4] {
    [
        Table::new("lookups, by rule", LOOKUPS.into_iter()),
        Table::of_lines("lookups, lines", LINES),
        Table::of_lines("views from the start", VIEWS),
        Table::of_lines("steps of a view from any cursor", STEPS),
    ]
}

/// The entries of an area before its end or its fault.
fn entries_before(area: &[u8]) -> Vec<Index> {
    let (mut entries, mut position) = (Vec::new(), view_start(area));
    while let (Given::Entry(entry), behind) = view_step(area, &position) {
        entries.push(entry);
        position = behind;
    }
    entries
}

impl Coverage {
    pub fn lookup(&mut self, area: &[u8], fixed: &[u8], index: u32, told: &Location) {
        self.locations[0].add(lookup_row(area, fixed, index, told), 1);
        let facts = Facts { index, sets: entries_before(area), fixed: fixed_entries(fixed), told: *told };
        self.locations[1].count_lines(LINES, &facts);
    }

    /// All steps of a view from the start.
    pub fn view(&mut self, area: &[u8], steps: &[Step]) {
        let entries = steps.iter().take_while(|step| step.number == 0).count();
        let facts = Viewed { count: word_at(area, 0), entries, behind: steps[entries..].to_vec() };
        self.locations[2].count_lines(VIEWS, &facts);
    }

    /// One step from any cursor.
    pub fn view_step(&mut self, area: &[u8], cursor: Cursor, step: &Step) {
        let facts = Stepped { length: area.len() as u64, cursor, step: *step };
        self.locations[3].count_lines(STEPS, &facts);
    }
}
