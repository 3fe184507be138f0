//! The table of a month: its text, written and read.

pub mod case;
pub mod subject;

use crate::buffers::Lent;
use crate::compare::{buffer_difference, Sides};
use crate::coverage::Coverage;
use crate::paper::table::Figures;
use case::TableCase;

pub fn difference(sides: Sides, case: &TableCase, coverage: &mut Coverage) -> Option<String> {
    match case {
        TableCase::Write { figures, digests, room } => write_difference(sides, figures, digests, *room, coverage),
        TableCase::Read { text, room } => read_difference(sides, text, *room, coverage),
    }
}

/// A buffer of so many bytes, none of which is like the next.
pub fn buffer(room: usize) -> Lent {
    Lent::new(&(0..room).map(|place| 0x80 | place as u8).collect::<Vec<u8>>())
}

fn write_difference(
    sides: Sides,
    figures: &Figures,
    digests: &[u8],
    room: usize,
    coverage: &mut Coverage,
) -> Option<String> {
    let (mut paper, mut tested, given) = (buffer(room), buffer(room), Lent::new(digests));
    let told = sides.paper.tabling().write(figures, digests, paper.content_mut());
    let other = sides.tested.tabling().write(figures, given.content(), tested.content_mut());
    coverage.table_written(figures, digests, room, &told);
    if told != other {
        let (left, right) = (sides.paper.name(), sides.tested.name());
        return Some(format!("the write differs\n  {left}: {told:?}\n  {right}: {other:?}\n"));
    }
    let changed = buffer_difference(sides, "the text", &paper, &tested);
    let changed = changed.or_else(|| buffer_difference(sides, "the digests", &Lent::new(digests), &given));
    if changed.is_some() || other.number != 0 {
        return changed;
    }
    back_difference(sides, figures, digests, &tested.content()[..other.length])
}

/// What the side under test wrote reads back there as the same figures and digests.
fn back_difference(sides: Sides, figures: &Figures, digests: &[u8], text: &[u8]) -> Option<String> {
    let mut back = vec![0; digests.len()];
    let (found, _) = sides.tested.tabling().read(text, &mut back);
    let same = (found.number, found.figures) == (0, *figures) && back == digests;
    (!same).then(|| format!("what was written reads back as {found:?}\n"))
}

fn read_difference(sides: Sides, text: &[u8], room: usize, coverage: &mut Coverage) -> Option<String> {
    let (mut paper, mut tested, given) = (buffer(room), buffer(room), Lent::new(text));
    let (told, rule) = sides.paper.tabling().read(text, paper.content_mut());
    let (other, _) = sides.tested.tabling().read(given.content(), tested.content_mut());
    coverage.table_read(text, room, &told, rule);
    if told != other {
        let (left, right) = (sides.paper.name(), sides.tested.name());
        return Some(format!("the read differs\n  {left}: {told:?}\n  {right}: {other:?}\n"));
    }
    let changed = buffer_difference(sides, "the digests", &paper, &tested);
    changed.or_else(|| buffer_difference(sides, "the text", &Lent::new(text), &given))
}
