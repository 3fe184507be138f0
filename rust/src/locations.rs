//! One place to ask for a location code, and a view that goes through an index area.

use crate::ffi::locations as ffi;
use crate::reading::{accepted, Entry, Refusal};
use crate::text::words;
use std::fmt;
use std::iter::FusedIterator;

/// Why a lookup has no code.
#[derive(Clone, Copy, PartialEq, Eq, Debug)]
pub enum NotLocated {
    /// The area is refused, and with it every index, also one that it lists before the fault.
    Refused(Refusal),
    /// Number 34: neither the area nor the fixed list has a code for the index.
    NotFound,
}

impl NotLocated {
    /// The library's number: 30 to 33, or 34.
    pub fn number(self) -> u32 {
        match self {
            NotLocated::Refused(refusal) => refusal.reason as u32,
            NotLocated::NotFound => 34,
        }
    }
}

impl fmt::Display for NotLocated {
    fn fmt(&self, f: &mut fmt::Formatter<'_>) -> fmt::Result {
        match self {
            NotLocated::Refused(refusal) => refusal.fmt(f),
            NotLocated::NotFound => f.write_str(words("LOCATION_NUMBER", self.number() as i32)),
        }
    }
}

impl std::error::Error for NotLocated {}

/// The location code of an index, without its NULs: a part of the area or of the fixed list, and never empty.
///
/// The whole area is read first. An index that it lists wins, by its first entry; otherwise the entry of the fixed list
/// with this number is taken, from 0 on. The fixed list has codes of any length one after the other, each ended by a NUL;
/// one that is empty or without its NUL is not found. `0xffff_ffff` is never found.
///
/// ```
/// use draugsten::{lookup, NotLocated, Reason};
///
/// // An area with one entry, index 2, and a fixed list of three.
/// let area = b"\0\0\0\x01\0\0\0\x02\0\0\0\x08U1-P1\0\0\0";
/// let fixed = b"U0-A1\0\0U0-A3\0";
///
/// assert_eq!(lookup(area, fixed, 0), Ok(&b"U0-A1"[..]));
/// assert_eq!(lookup(area, fixed, 1), Err(NotLocated::NotFound));
/// assert_eq!(lookup(area, fixed, 2), Ok(&b"U1-P1"[..]));
///
/// match lookup(&area[..19], fixed, 0) {
///     Err(NotLocated::Refused(refusal)) => assert_eq!((refusal.reason, refusal.offset), (Reason::SetPastEnd, 4)),
///     other => panic!("{other:?}"),
/// }
/// ```
pub fn lookup<'a>(area: &'a [u8], fixed: &'a [u8], index: u32) -> Result<&'a [u8], NotLocated> {
    let location = ffi::lookup(area, fixed, index);
    if location.number == 34 {
        return Err(NotLocated::NotFound);
    }
    accepted(location.number, location.offset).map_err(NotLocated::Refused)?;
    let buffer = match location.buffer {
        1 => area,
        2 => fixed,
        buffer => unreachable!("a code stands in no buffer {buffer}"),
    };
    Ok(&buffer[location.offset..location.offset + location.length])
}

/// What a step of a view gives.
#[derive(Clone, Copy, PartialEq, Eq, Debug)]
pub enum ViewStep<'a> {
    /// An entry.
    Entry(Entry<'a>),
    /// All entries were given. Every further step gives this again.
    End,
    /// The area is refused after the entries that were given. Every further step gives this again.
    Refused(Refusal),
}

/// A view of an index area: the area, and a position in it. It takes no room for the entries, and over a refused area it
/// gives those before the fault.
///
/// ```
/// use draugsten::{IndexView, Reason, ViewStep};
///
/// // Two entries, of which the second is cut off.
/// let area = b"\0\0\0\x02\0\0\0\x07\0\0\0\x04abc\0\0\0\0\x09\0\0\0\x04de";
/// let mut view = IndexView::new(area);
///
/// assert!(matches!(view.step(), ViewStep::Entry(entry) if (entry.index, entry.code) == (7, b"abc")));
/// for _ in 0..3 {
///     assert!(matches!(view.step(), ViewStep::Refused(refusal) if refusal.offset == 16));
/// }
///
/// // As an iterator: each entry, then the refusal once, then nothing.
/// let mut entries = IndexView::new(area).into_iter();
/// assert_eq!(entries.next().unwrap().unwrap().code, b"abc");
/// assert_eq!(entries.next().unwrap().unwrap_err().reason, Reason::SetPastEnd);
/// assert_eq!(entries.next(), None);
/// ```
#[derive(Clone, PartialEq, Eq, Debug)]
pub struct IndexView<'a> {
    area: &'a [u8],
    cursor: ffi::Cursor,
}

impl<'a> IndexView<'a> {
    /// A view from the area's start.
    pub fn new(area: &'a [u8]) -> IndexView<'a> {
        IndexView { area, cursor: ffi::view_start(area) }
    }

    /// The next entry; after the last one the end or the refusal, again and again.
    pub fn step(&mut self) -> ViewStep<'a> {
        let step = ffi::view_step(self.area, self.cursor);
        self.cursor = step.cursor;
        if step.number == 35 {
            return ViewStep::End;
        }
        match accepted(step.number, step.offset) {
            Ok(()) => {
                let code = &self.area[step.offset..step.offset + step.length];
                ViewStep::Entry(Entry { index: step.index, code })
            }
            Err(refusal) => ViewStep::Refused(refusal),
        }
    }

    /// The area.
    pub fn area(&self) -> &'a [u8] {
        self.area
    }
}

impl<'a> IntoIterator for IndexView<'a> {
    type Item = Result<Entry<'a>, Refusal>;
    type IntoIter = ViewEntries<'a>;

    fn into_iter(self) -> ViewEntries<'a> {
        ViewEntries { view: Some(self) }
    }
}

/// The entries of a view from its position on: each of them, then a refusal once as an error, then nothing. Where a refusal
/// is to leave no entries, collect them: `view.into_iter().collect::<Result<Vec<_>, _>>()`.
#[derive(Clone, Debug)]
pub struct ViewEntries<'a> {
    /// None, where the end or the refusal was given.
    view: Option<IndexView<'a>>,
}

impl<'a> Iterator for ViewEntries<'a> {
    type Item = Result<Entry<'a>, Refusal>;

    fn next(&mut self) -> Option<Self::Item> {
        let given = match self.view.as_mut()?.step() {
            ViewStep::Entry(entry) => return Some(Ok(entry)),
            ViewStep::End => None,
            ViewStep::Refused(refusal) => Some(Err(refusal)),
        };
        self.view = None;
        given
    }
}

impl FusedIterator for ViewEntries<'_> {}
