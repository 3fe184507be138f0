//! One place to ask for a location (M-112): lookups, and views of index areas.

pub mod case;
pub mod subject;

use crate::buffers::Lent;
use crate::case::ReadCase;
use crate::compare::{buffer_difference, run_read_indices, Sides};
use crate::coverage::Coverage;
use crate::library::locations::{Cursor, Location, Step};
use crate::subject::Subject;
use crate::text::hex;
use case::LocationsCase;
use subject::END;

/// The bytes of the least set: index, length, and a code with its NULs.
const LEAST_SET: usize = 12;

pub fn difference(sides: Sides, case: &LocationsCase, coverage: &mut Coverage) -> Option<String> {
    match case {
        LocationsCase::Lookup { area, fixed, index } => lookup_difference(sides, area, fixed, *index, coverage),
        LocationsCase::View { area, beyond } => view_difference(sides, area, *beyond, coverage),
        LocationsCase::Step { area, cursor } => {
            let step = step_difference(sides, area, [*cursor; 2]);
            step.map(|step| coverage.view_step(area, *cursor, &step)).err()
        }
    }
}

/// The code that a lookup tells of: none where it tells of none, or of bytes outside its buffer.
pub fn code<'a>(area: &'a [u8], fixed: &'a [u8], told: &Location) -> Option<&'a [u8]> {
    let buffer = match (told.number, told.buffer) {
        (0, 1) => area,
        (0, 2) => fixed,
        _ => return None,
    };
    let end = told.offset.checked_add(told.length)?;
    buffer.get(usize::try_from(told.offset).ok()?..usize::try_from(end).ok()?)
}

fn lookup_difference(sides: Sides, area: &[u8], fixed: &[u8], index: u32, coverage: &mut Coverage) -> Option<String> {
    let told = sides.paper.locating().lookup(area, fixed, index);
    let lent = [Lent::new(area), Lent::new(fixed)];
    let other = sides.tested.locating().lookup(lent[0].content(), lent[1].content(), index);
    coverage.lookup(area, fixed, index, &told);
    let codes = [told, other].map(|told| code(area, fixed, &told));
    if told != other || codes[0] != codes[1] {
        let side = |subject: &dyn Subject, told: &Location, code: Option<&[u8]>| {
            format!("  {}: {told:?}, code {}\n", subject.name(), code.map_or(String::from("none"), hex))
        };
        let sides = [side(sides.paper, &told, codes[0]), side(sides.tested, &other, codes[1])];
        return Some(format!("the lookup differs\n{}", sides.concat()));
    }
    // "The answer is the code itself": it has a byte at the least, and no NUL.
    if other.number == 0 && !codes[1].is_some_and(|code| !code.is_empty() && !code.contains(&0)) {
        return Some(format!("{other:?} is no code\n"));
    }
    let area_changed = buffer_difference(sides, "the area", &Lent::new(area), &lent[0]);
    area_changed.or_else(|| buffer_difference(sides, "the fixed list", &Lent::new(fixed), &lent[1]))
}

/// What a step gives on both sides, each from its own cursor.
fn step_difference(sides: Sides, area: &[u8], cursors: [Cursor; 2]) -> Result<Step, String> {
    let told = sides.paper.locating().view_step(area, cursors[0]);
    let other = sides.tested.locating().view_step(area, cursors[1]);
    if told != other {
        let (left, right) = (sides.paper.name(), sides.tested.name());
        return Err(format!("the step differs\n  {left}: {told:x?}\n  {right}: {other:x?}\n"));
    }
    Ok(other)
}

/// The first difference in the steps of a view, and in which of them. There are so many more than the area has room for.
fn view_difference(sides: Sides, area: &[u8], beyond: usize, coverage: &mut Coverage) -> Option<String> {
    let mut cursors = [sides.paper, sides.tested].map(|subject| subject.locating().view_start(area));
    if cursors[0] != cursors[1] {
        return Some(format!("the start of the view differs: {:x?} and {:x?}\n", cursors[0], cursors[1]));
    }
    let (mut steps, mut over) = (Vec::new(), 0);
    while over <= beyond && steps.len() <= area.len() / LEAST_SET + 1 + beyond {
        match step_difference(sides, area, cursors) {
            Err(text) => return Some(format!("step {}: {text}", steps.len() + 1)),
            Ok(step) => {
                over += usize::from(step.number != 0);
                cursors = [step.cursor; 2];
                steps.push(step);
            }
        }
    }
    coverage.view(area, &steps);
    order_difference(sides.tested, area, &steps)
}

/// "its steps from the start give the area's entries in order, then the end or the reading's refusal, and that again": the
/// steps of the side under test beside its own reading.
fn order_difference(tested: &dyn Subject, area: &[u8], steps: &[Step]) -> Option<String> {
    let entries: Vec<&Step> = steps.iter().take_while(|step| step.number == 0).collect();
    let behind = &steps[entries.len()..];
    let read = run_read_indices(tested, &ReadCase { area: area.to_vec(), out: 3 * entries.len() });
    let last = match read.reading.refusal {
        0 => (END, 0),
        refusal => (refusal, read.reading.offset),
    };
    let repeats = !behind.is_empty() && behind.iter().all(|step| (step.number, step.offset) == last);
    let given: Vec<[u64; 3]> = entries.iter().map(|step| [u64::from(step.index), step.offset, step.length]).collect();
    let same =
        read.reading.refusal != 0 || read.reading.entries as usize == given.len() && read.entries::<3>() == given;
    (!repeats || !same).then(|| format!("the view gives {steps:x?}, and the reader {:?}\n", read.reading))
}
