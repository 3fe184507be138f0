//! Lookups and views on the two sides behind one trait.

use crate::library::locations::{Cursor, Location, Step};
use crate::paper;
use crate::subject::Paper;
#[cfg(feature = "without-library")]
use crate::subject::{second, Second};

/// The number of an index that is not found.
pub const NOT_FOUND: u32 = 34;

/// The number of a step at the end.
pub const END: u32 = 35;

/// Lookups and views as the library's C interface has them.
pub trait Locating {
    /// Where the code of an index stands.
    fn lookup(&self, area: &[u8], fixed: &[u8], index: u32) -> Location;

    /// A view before the first entry of an area.
    fn view_start(&self, area: &[u8]) -> Cursor;

    /// A step of a view, from any cursor.
    fn view_step(&self, area: &[u8], cursor: Cursor) -> Step;
}

/// Puts an implementation of the paper behind the trait.
macro_rules! paper_locating {
    ($subject:ident, $rules:ident) => {
        impl Locating for $subject {
            fn lookup(&self, area: &[u8], fixed: &[u8], index: u32) -> Location {
                use $rules::locations::{Holder, Missed};
                match $rules::locations::lookup(area, fixed, u64::from(index)) {
                    Ok(code) => {
                        let buffer = if code.holder == Holder::Area { 1 } else { 2 };
                        Location { number: 0, buffer, offset: code.at, length: code.length }
                    }
                    Err(Missed::NotFound(_)) => Location { number: NOT_FOUND, buffer: 0, offset: 0, length: 0 },
                    Err(Missed::Refused(refused)) => {
                        Location { number: refused.number, buffer: 0, offset: refused.offset, length: 0 }
                    }
                }
            }

            fn view_start(&self, area: &[u8]) -> Cursor {
                let $rules::locations::Position { at, left } = $rules::locations::view_start(area);
                Cursor { at, left }
            }

            fn view_step(&self, area: &[u8], cursor: Cursor) -> Step {
                use $rules::locations::{Given, Position};
                let (given, Position { at, left }) =
                    $rules::locations::view_step(area, &Position { at: cursor.at, left: cursor.left });
                let (number, index, offset, length) = match given {
                    Given::Entry(entry) => (0, entry.index, entry.code_at, entry.code_length),
                    Given::End => (END, 0, 0, 0),
                    Given::Refused(refused) => (refused.number, 0, refused.offset, 0),
                };
                Step { number, index, offset, length, cursor: Cursor { at, left } }
            }
        }
    };
}

paper_locating!(Paper, paper);

#[cfg(feature = "without-library")]
paper_locating!(Second, second);
