//! The readings of the record of the reading in progress and of editions (M-105).

use super::{CallReading, NONE};
use crate::buffers::{arguments, inventory_record, words};
use crate::case::CallCase;
use crate::library::{Edit, ReadingRecord};
use crate::subject::Subject;

/// The type that most readings ask for, as sensors; their list has three entries.
const KIND: u32 = 9;
const EDITION: u32 = 7;
const TOP: u32 = 0xffff_ffff;

/// Where the work area stands.
const ADDRESS: u32 = 3;

/// The sizes of areas that hold one entry, two and three.
const ONE: u32 = 16;
const TWO: u32 = 28;
const THREE: u32 = 40;

/// The entries of the list, and one that an edit puts in front.
const A: (u32, &[u8]) = (0x0a, b"aaa");
const B: (u32, &[u8]) = (0x0b, b"bbb");
const C: (u32, &[u8]) = (0x0c, b"ccc");
const NEW: (u32, &[u8]) = (0x0d, b"ddd");
/// The only indicator of the type, and the two sensors of the type above.
const INDICATOR: (u32, &[u8]) = (0x11, b"iii");
const OTHERS: [(u32, &[u8]); 2] = [(0x21, b"ooo"), (0x22, b"ppp")];

fn sensors(entries: &[(u32, &[u8])], kind: u32) -> Vec<u8> {
    entries.iter().flat_map(|(index, code)| inventory_record(1, kind, *index, code)).collect()
}

fn inventory() -> Vec<u8> {
    let indicator = inventory_record(0, KIND, INDICATOR.0, INDICATOR.1);
    [sensors(&[A], KIND), indicator, sensors(&OTHERS, KIND + 1), sensors(&[B, C], KIND)].concat()
}

fn malformed() -> Vec<u8> {
    [inventory(), vec![0]].concat()
}

/// A reading of the sensors in progress, of which this entry is due.
fn due(number: u32) -> ReadingRecord {
    ReadingRecord { flag: 1, kind: KIND, number, edition: EDITION }
}

fn asks(flag: u32, kind: u32, size: u32, start: u32) -> Vec<u8> {
    arguments(2, &[flag, kind, ADDRESS, size, start], &[0x5555_5555, 0x6666_6666])
}

/// A call for one sensor from this number on, over a record.
fn from(start: u32, reading: ReadingRecord) -> CallCase {
    CallCase {
        args: asks(1, KIND, ONE, start),
        memory: vec![0xee; 64],
        journal: Vec::new(),
        inventory: inventory(),
        edition: EDITION,
        registration: NONE,
        reading,
    }
}

/// The call that goes on from the second entry, over a record that names it.
fn going_on() -> CallCase {
    from(2, due(2))
}

/// A refused call, which keeps the record.
fn refused(name: &str, case: CallCase, status: i32) -> CallReading {
    CallReading::new(name, case).outputs(&[status])
}

/// A call with -4, which clears the record.
fn changed(name: &str, case: CallCase) -> CallReading {
    refused(name, case, -4).reading(ReadingRecord::NONE)
}

/// The words and codes of an area.
fn area(entries: &[(u32, &[u8])]) -> Vec<u8> {
    let entry = |(index, code): &(u32, &[u8])| [&words(&[*index, 4]), *code, &[0]].concat();
    [words(&[entries.len() as u32]), entries.iter().flat_map(entry).collect()].concat()
}

/// A call with status 1, which leaves a record of the same list with the next number.
fn unfinished(name: &str, case: CallCase, entries: &[(u32, &[u8])], reading: ReadingRecord) -> CallReading {
    let outputs = [1, reading.number as i32];
    CallReading::new(name, case).outputs(&outputs).writes(ADDRESS as usize, &area(entries)).reading(reading)
}

/// A call with status 0, which leaves no reading in progress.
fn finished(name: &str, case: CallCase, entries: &[(u32, &[u8])]) -> CallReading {
    let reading = CallReading::new(name, case).outputs(&[0, 1]).writes(ADDRESS as usize, &area(entries));
    reading.reading(ReadingRecord::NONE)
}

pub fn readings() -> Vec<CallReading> {
    [fields(), both_due(), order(), none(), odd(), afresh(), refused_afresh(), ends(), editions(), story()]
        .into_iter()
        .flatten()
        .collect()
}

/// "-4 when the edition differs; -3 when flag, type or number differ from the record"
fn fields() -> Vec<CallReading> {
    let over = |reading: ReadingRecord| CallCase { reading, ..going_on() };
    let flag_of = |flag: u32| over(ReadingRecord { flag, ..due(2) });
    let kind_of = |kind: u32| over(ReadingRecord { kind, ..due(2) });
    let edition_of = |edition: u32| over(ReadingRecord { edition, ..due(2) });
    let other_list = |flag: u32, kind: u32| CallCase { args: asks(flag, kind, ONE, 2), ..going_on() };
    vec![
        unfinished("goes on in the same edition", going_on(), &[B], due(3)),
        refused("the record's flag is 0", flag_of(0), -3),
        refused("the record's flag is 0x101", flag_of(0x101), -3),
        refused("the record's flag is 0x80000001", flag_of(0x8000_0001), -3),
        refused("the other flag", other_list(0, KIND), -3),
        refused("the record's type is one above", kind_of(KIND + 1), -3),
        refused("the record's type has another high half", kind_of(KIND + 0x1_0000), -3),
        refused("another type, of two entries", other_list(1, KIND + 1), -3),
        refused("the record's number is one above", over(due(3)), -3),
        refused("the record's number is one below", over(due(1)), -3),
        refused("the record's number has another high half", over(due(0x1_0002)), -3),
        refused("the record's number has bit 31", over(due(0x8000_0002)), -3),
        changed("the record's edition is one below", edition_of(EDITION - 1)),
        changed("the record's edition is one above", edition_of(EDITION + 1)),
        changed("the record's edition is 0", edition_of(0)),
        changed("the record's edition has another high half", edition_of(EDITION + 0x1_0000)),
        changed("the record's edition has bit 31", edition_of(EDITION + 0x8000_0000)),
    ]
}

/// "both before the inventory check, -3 first"
fn both_due() -> Vec<CallReading> {
    let over = |reading: ReadingRecord| CallCase { edition: EDITION + 1, reading, ..going_on() };
    vec![
        refused("another flag and another edition", over(ReadingRecord { flag: 0, ..due(2) }), -3),
        refused("another type and another edition", over(ReadingRecord { kind: KIND + 1, ..due(2) }), -3),
        refused("another number and another edition", over(due(3)), -3),
        refused("no reading in progress and another edition", over(ReadingRecord::NONE), -3),
        changed("another edition alone", over(due(2))),
    ]
}

/// Flag, type, size and address come before the record, the inventory and all else behind it.
fn order() -> Vec<CallReading> {
    let later = |args: Vec<u8>, reading: ReadingRecord| CallCase { args, edition: EDITION + 1, reading, ..going_on() };
    let at = |address: u32| arguments(2, &[1, KIND, address, ONE, 2], &[0, 0]);
    let flag_2 = ReadingRecord { flag: 2, ..due(2) };
    let kind_9003 = ReadingRecord { kind: 9003, ..due(2) };
    let bad = |case: CallCase| CallCase { inventory: malformed(), ..case };
    vec![
        refused("flag 2 in both, another edition", later(asks(2, KIND, ONE, 2), flag_2), -3),
        refused("type 9003 in both, another edition", later(asks(1, 9003, ONE, 2), kind_9003), -3),
        refused("size 3, another edition", later(asks(1, KIND, 3, 2), due(2)), -3),
        refused("size 3, the same edition", CallCase { args: asks(1, KIND, 3, 2), ..going_on() }, -3),
        refused("area one byte past memory, another edition", later(at(49), due(2)), -3),
        changed("area where memory ends, another edition", later(at(48), due(2))),
        changed("size 4, another edition", later(asks(1, KIND, 4, 2), due(2))),
        refused("size 4, the same edition", CallCase { args: asks(1, KIND, 4, 2), ..going_on() }, -3),
        changed("size 15, another edition", later(asks(1, KIND, 15, 2), due(2))),
        changed("malformed inventory, another edition", bad(later(asks(1, KIND, ONE, 2), due(2)))),
        refused("malformed inventory, the same edition", bad(going_on()), -1),
        refused("malformed inventory, another number", bad(from(2, due(3))), -3),
        refused(
            "malformed inventory, Starting Number 1, another edition",
            bad(later(asks(1, KIND, ONE, 1), due(2))),
            -1,
        ),
    ]
}

/// "With no reading in progress every number but 1 differs."
fn none() -> Vec<CallReading> {
    let none = ReadingRecord::NONE;
    // Flag, type and edition are those of the cleared record.
    let like = |start: u32| CallCase {
        args: asks(0, 0, ONE, start),
        inventory: [inventory_record(0, 0, A.0, A.1), inventory_record(0, 0, B.0, B.1)].concat(),
        edition: 0,
        ..from(start, none)
    };
    let begun = ReadingRecord { flag: 0, kind: 0, number: 2, edition: 0 };
    vec![
        refused("none in progress, Starting Number 2", from(2, none), -3),
        refused("none in progress, Starting Number 0", from(0, none), -3),
        refused("none in progress, Starting Number 0xffffffff", from(0xffff_ffff, none), -3),
        refused("none in progress, Starting Number 0x80000001", from(0x8000_0001, none), -3),
        refused("none in progress, flag, type and edition 0, Starting Number 2", like(2), -3),
        refused("none in progress, flag, type and edition 0, Starting Number 0", like(0), -3),
        unfinished("none in progress, flag, type and edition 0, Starting Number 1", like(1), &[A], begun),
    ]
}

/// "Any other record meets the same checks."
fn odd() -> Vec<CallReading> {
    let later = |case: CallCase| CallCase { edition: EDITION + 1, ..case };
    let bad = |case: CallCase| CallCase { inventory: malformed(), ..case };
    let named = |start: u32| from(start, due(start));
    let unlisted = || CallCase {
        args: asks(1, KIND + 2, ONE, 2),
        reading: ReadingRecord { kind: KIND + 2, ..due(2) },
        ..going_on()
    };
    vec![
        refused("number 0 in both", named(0), -3),
        refused("number 0 in both, malformed inventory", bad(named(0)), -1),
        changed("number 0 in both, another edition", later(named(0))),
        refused("number 0 in the record, Starting Number 2", from(2, due(0)), -3),
        refused("number 4 of three in both", named(4), -3),
        refused("number 4 of three in both, malformed inventory", bad(named(4)), -1),
        changed("number 4 of three in both, another edition", later(named(4))),
        refused("number 0xffffffff in both", named(0xffff_ffff), -3),
        changed("number 0xffffffff in both, another edition", later(named(0xffff_ffff))),
        refused("a type without entries in both", unlisted(), -3),
        changed("a type without entries in both, another edition", later(unlisted())),
        refused("number 1 beside other fields, Starting Number 2", from(2, due(1)), -3),
        refused("number 1 beside other fields, Starting Number 0", from(0, due(1)), -3),
    ]
}

/// "Starting Number 1 always begins afresh."
fn afresh() -> Vec<CallReading> {
    let over = |reading: ReadingRecord| from(1, reading);
    let all = ReadingRecord { flag: TOP, kind: TOP, number: TOP, edition: TOP };
    vec![
        unfinished("afresh, none in progress", over(ReadingRecord::NONE), &[A], due(2)),
        unfinished("afresh over the same reading", over(due(3)), &[A], due(2)),
        unfinished("afresh over a reading of the other flag", over(ReadingRecord { flag: 0, ..due(2) }), &[A], due(2)),
        unfinished("afresh over a reading of another type", over(ReadingRecord { kind: 1, ..due(2) }), &[A], due(2)),
        unfinished("afresh over another edition", over(ReadingRecord { edition: 6, ..due(2) }), &[A], due(2)),
        unfinished("afresh over number 1", over(due(1)), &[A], due(2)),
        unfinished("afresh over number 0", over(due(0)), &[A], due(2)),
        unfinished("afresh over a record of ones", over(all), &[A], due(2)),
        unfinished("afresh, two entries", CallCase { args: asks(1, KIND, TWO, 1), ..over(due(3)) }, &[A, B], due(3)),
    ]
}

/// "A refused call keeps the record": the old one stays where a call that would begin afresh is refused.
fn refused_afresh() -> Vec<CallReading> {
    let asking = |args: Vec<u8>| CallCase { args, ..from(1, due(3)) };
    let outside = arguments(2, &[1, KIND, 49, ONE, 1], &[0, 0]);
    vec![
        refused("afresh refused, flag 2", asking(asks(2, KIND, ONE, 1)), -3),
        refused("afresh refused, type 9003", asking(asks(1, 9003, ONE, 1)), -3),
        refused("afresh refused, size 3", asking(asks(1, KIND, 3, 1)), -3),
        refused("afresh refused, area outside", asking(outside), -3),
        refused("afresh refused, malformed", CallCase { inventory: malformed(), ..from(1, due(3)) }, -1),
        refused("afresh refused, no entry of the type", asking(asks(1, KIND + 2, ONE, 1)), -3),
        refused("afresh refused, the entry does not fit", asking(asks(1, KIND, 15, 1)), -3),
    ]
}

/// "-4 clears it, as does status 0", whatever reading is in progress.
fn ends() -> Vec<CallReading> {
    let short = CallCase { args: asks(0, KIND, ONE, 1), ..from(1, due(3)) };
    let whole = |reading: ReadingRecord| CallCase { args: asks(1, KIND, THREE, 1), ..from(1, reading) };
    let others = CallCase { args: asks(1, KIND + 1, TWO, 1), ..from(1, due(3)) };
    let stopped = CallCase { args: asks(1, KIND + 1, ONE, 1), ..from(1, due(3)) };
    let of_others = ReadingRecord { kind: KIND + 1, ..due(2) };
    vec![
        finished("the last entry", from(3, due(3)), &[C]),
        finished("the last two", CallCase { args: asks(1, KIND, TWO, 2), ..going_on() }, &[B, C]),
        finished("the whole list, none in progress", whole(ReadingRecord::NONE), &[A, B, C]),
        finished("the whole list over its own reading", whole(due(2)), &[A, B, C]),
        finished("a short list ends another reading", short, &[INDICATOR]),
        finished("a short list of another type ends another reading", others, &OTHERS),
        unfinished("another list takes the record", stopped, &OTHERS[..1], of_others),
        refused("the reading that another ended goes on", from(3, ReadingRecord::NONE), -3),
        refused("the reading that another took the record from goes on", from(2, of_others), -3),
    ]
}

/// Editions at both ends.
fn editions() -> Vec<CallReading> {
    let found = |edition: u32, of_record: u32| CallCase {
        edition,
        reading: ReadingRecord { edition: of_record, ..due(2) },
        ..going_on()
    };
    let left = |edition: u32, number: u32| ReadingRecord { edition, ..due(number) };
    let first = |edition: u32| CallCase { edition, ..from(1, ReadingRecord::NONE) };
    vec![
        unfinished("goes on in edition 0", found(0, 0), &[B], left(0, 3)),
        unfinished("goes on in the top edition", found(TOP, TOP), &[B], left(TOP, 3)),
        unfinished("afresh in edition 0", first(0), &[A], left(0, 2)),
        unfinished("afresh in the top edition", first(TOP), &[A], left(TOP, 2)),
        changed("the top edition, the record one below", found(TOP, TOP - 1)),
        changed("one below the top, the record at the top", found(TOP - 1, TOP)),
        changed("edition 0, the record at the top", found(0, TOP)),
        changed("the top edition, the record at 0", found(TOP, 0)),
        changed("edition 0x80000000, the record one below", found(0x8000_0000, 0x7fff_ffff)),
    ]
}

/// A reading, an edit that puts an entry in front, and what follows up to the end.
fn story() -> Vec<CallReading> {
    let edited = |case: CallCase| {
        let inventory = [sensors(&[NEW], KIND), inventory()].concat();
        CallCase { inventory, edition: EDITION + 1, ..case }
    };
    let later = |number: u32| ReadingRecord { edition: EDITION + 1, ..due(number) };
    let rest = CallCase { args: asks(1, KIND, THREE, 2), ..from(2, later(2)) };
    vec![
        unfinished("story: begins", from(1, ReadingRecord::NONE), &[A], due(2)),
        changed("story: goes on after the edit", edited(from(2, due(2)))),
        refused("story: goes on once more", edited(from(2, ReadingRecord::NONE)), -3),
        unfinished("story: begins afresh", edited(from(1, ReadingRecord::NONE)), &[NEW], later(2)),
        finished("story: the rest of the edited list", edited(rest), &[A, B, C]),
    ]
}

/// "which rises by one with each edit (none is taken at the top)"
pub const EDITS: [(u32, Edit); 9] = [
    (0, Edit { taken: 1, edition: 1 }),
    (1, Edit { taken: 1, edition: 2 }),
    (0xff, Edit { taken: 1, edition: 0x100 }),
    (0xffff, Edit { taken: 1, edition: 0x1_0000 }),
    (0x7fff_ffff, Edit { taken: 1, edition: 0x8000_0000 }),
    (0x8000_0000, Edit { taken: 1, edition: 0x8000_0001 }),
    (TOP - 2, Edit { taken: 1, edition: TOP - 1 }),
    (TOP - 1, Edit { taken: 1, edition: TOP }),
    (TOP, Edit { taken: 0, edition: TOP }),
];

pub fn edit_failure(subject: &dyn Subject, edition: u32, written: Edit) -> Option<String> {
    let (given, side) = (subject.edit(edition), subject.name());
    (given != written)
        .then(|| format!("fixed edit of edition {edition:#x} on {side}: {given:x?}, written {written:x?}"))
}

/// The record that a partition starts with: number 1, the rest zero.
pub fn start_failure(subject: &dyn Subject) -> Option<String> {
    let given = subject.no_reading();
    let written = ReadingRecord { flag: 0, kind: 0, number: 1, edition: 0 };
    (given != written).then(|| format!("the record to start with on {}: {}", subject.name(), given.text()))
}
