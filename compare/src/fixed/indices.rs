//! The readings of get-indices.

use super::{CallReading, EDITION, NONE};
use crate::buffers::{arguments, inventory_record, words};
use crate::case::CallCase;
use crate::library::ReadingRecord;

/// A call over 1,100 bytes of memory that are 0xee; the area stands at byte 3. The record names what is asked for.
fn call(inventory: &[u8], flag: u32, kind: u32, size: u32, start: u32) -> CallCase {
    CallCase {
        args: arguments(2, &[flag, kind, 3, size, start], &[0x5555_5555, 0x6666_6666]),
        memory: vec![0xee; MEMORY],
        journal: Vec::new(),
        inventory: inventory.to_vec(),
        edition: EDITION,
        registration: NONE,
        reading: ReadingRecord { flag, kind, number: start, edition: EDITION },
    }
}

fn answered(name: &str, case: CallCase, status: i32, next: i32, area: &[u8]) -> CallReading {
    answered_at(3, name, case, status, next, area)
}

/// The area stands at another byte.
fn answered_at(at: usize, name: &str, case: CallCase, status: i32, next: i32, area: &[u8]) -> CallReading {
    let named = ReadingRecord { number: next as u32, ..case.reading };
    let reading = if status == 1 { named } else { ReadingRecord::NONE };
    CallReading::new(name, case).outputs(&[status, next]).writes(at, area).reading(reading)
}

fn refused(name: &str, case: CallCase, status: i32) -> CallReading {
    CallReading::new(name, case).outputs(&[status])
}

/// Sensors of type 9: "abc" and "abcd", with an indicator between.
fn two() -> Vec<u8> {
    [
        inventory_record(1, 9, 0x0102_0304, b"abc"),
        inventory_record(0, 9, 5, b"xyz"),
        inventory_record(1, 9, 0xffff_ffff, b"abcd"),
    ]
    .concat()
}

/// The bytes of memory.
const MEMORY: usize = 1100;

const THREE_BYTES: &[u8] = b"\0\0\0\x01\x01\x02\x03\x04\0\0\0\x04abc\0";
const FOUR_BYTES: &[u8] = b"\0\0\0\x01\xff\xff\xff\xff\0\0\0\x08abcd\0\0\0\0";
const BOTH: &[u8] = b"\0\0\0\x02\x01\x02\x03\x04\0\0\0\x04abc\0\xff\xff\xff\xff\0\0\0\x08abcd\0\0\0\0";

pub fn readings() -> Vec<CallReading> {
    [sizes(), starts(), longest(), kinds(), order(), places(), records()].into_iter().flatten().collect()
}

/// "A three-byte code takes 12 bytes, a four-byte one 16. Alone, the first needs an area of 16; 15 gives -3."
fn sizes() -> Vec<CallReading> {
    let two = two();
    vec![
        refused("three-byte code, size 15", call(&two, 1, 9, 15, 1), -3),
        answered("three-byte code, size 16", call(&two, 1, 9, 16, 1), 1, 2, THREE_BYTES),
        answered("both codes, size 31", call(&two, 1, 9, 31, 1), 1, 2, THREE_BYTES),
        answered("both codes, size 32", call(&two, 1, 9, 32, 1), 0, 1, BOTH),
        refused("four-byte code, size 19", call(&two, 1, 9, 19, 2), -3),
        answered("four-byte code, size 20", call(&two, 1, 9, 20, 2), 0, 1, FOUR_BYTES),
        refused("size 3", call(&two, 1, 9, 3, 1), -3),
        refused("size 4", call(&two, 1, 9, 4, 1), -3),
    ]
}

/// "Starting Number 0 or 0x80000000: -3."
fn starts() -> Vec<CallReading> {
    let two = two();
    vec![
        refused("Starting Number 0", call(&two, 1, 9, 92, 0), -3),
        refused("Starting Number 3 of two", call(&two, 1, 9, 92, 3), -3),
        refused("Starting Number 0x80000000", call(&two, 1, 9, 92, 0x8000_0000), -3),
        refused("Starting Number 0x80000001", call(&two, 1, 9, 92, 0x8000_0001), -3),
        refused("Starting Number 0xffffffff", call(&two, 1, 9, 92, 0xffff_ffff), -3),
        answered("Starting Number 2 of two", call(&two, 1, 9, 92, 2), 0, 1, FOUR_BYTES),
    ]
}

/// "Areas of 92 bytes or more always hold the entry due." M-113: "the size that always holds the entry due (1,036)".
fn longest() -> Vec<CallReading> {
    let code = [b'L'; 1023];
    let of = |length: usize| inventory_record(0, 9000, 7, &code[..length]);
    let area =
        |length: usize, field: u32, nuls: usize| [&words(&[1, 7, field])[..], &code[..length], &vec![0; nuls]].concat();
    let two = [of(1023), inventory_record(0, 9000, 7, b"abc")].concat();
    let longest = area(1023, 1024, 1);
    vec![
        answered("79 bytes, size 92", call(&of(79), 0, 9000, 92, 1), 0, 1, &area(79, 80, 1)),
        refused("79 bytes, size 91", call(&of(79), 0, 9000, 91, 1), -3),
        answered("80 bytes, size 96", call(&of(80), 0, 9000, 96, 1), 0, 1, &area(80, 84, 4)),
        refused("80 bytes, size 95", call(&of(80), 0, 9000, 95, 1), -3),
        answered("1,020 bytes, size 1,036", call(&of(1020), 0, 9000, 1036, 1), 0, 1, &area(1020, 1024, 4)),
        refused("1,020 bytes, size 1,035", call(&of(1020), 0, 9000, 1035, 1), -3),
        answered("1,023 bytes, size 1,036", call(&of(1023), 0, 9000, 1036, 1), 0, 1, &longest),
        refused("1,023 bytes, size 1,035", call(&of(1023), 0, 9000, 1035, 1), -3),
        answered("1,023 and 3 bytes, size 1,047", call(&two, 0, 9000, 1047, 1), 1, 2, &longest),
    ]
}

/// "type not 9001, 9002, 9003 for indicators nor 9003 for sensors"
fn kinds() -> Vec<CallReading> {
    let of = |flag: u16, kind: u32| inventory_record(flag, kind, 0x0102_0304, b"abc");
    let good = |name: &str, flag: u16, kind: u32| {
        answered(name, call(&of(flag, kind), u32::from(flag), kind, 16, 1), 0, 1, THREE_BYTES)
    };
    let bad = |name: &str, flag: u16, kind: u32| refused(name, call(&of(flag, kind), u32::from(flag), kind, 16, 1), -3);
    vec![
        good("indicator 9000", 0, 9000),
        bad("indicator 9001", 0, 9001),
        bad("indicator 9002", 0, 9002),
        bad("indicator 9003", 0, 9003),
        good("indicator 9004", 0, 9004),
        good("sensor 9001", 1, 9001),
        good("sensor 9002", 1, 9002),
        bad("sensor 9003", 1, 9003),
        good("sensor 9004", 1, 9004),
        refused("flag 2", call(&two(), 2, 9, 92, 1), -3),
        refused("flag 0x10001", call(&two(), 0x1_0001, 9, 92, 1), -3),
        refused("no entry of this type", call(&two(), 1, 8, 92, 1), -3),
        refused("empty inventory", call(&[], 1, 9, 92, 1), -3),
    ]
}

/// What comes before the inventory and what behind it.
fn order() -> Vec<CallReading> {
    let malformed = [&two()[..], &[0]].concat();
    vec![
        refused("malformed inventory", call(&malformed, 1, 9, 92, 1), -1),
        refused("malformed inventory, flag 2", call(&malformed, 2, 9, 92, 1), -3),
        refused("malformed inventory, type 9003", call(&malformed, 1, 9003, 92, 1), -3),
        refused("malformed inventory, size 3", call(&malformed, 1, 9, 3, 1), -3),
        refused("malformed inventory, size 4", call(&malformed, 1, 9, 4, 1), -1),
        refused("malformed inventory, Starting Number 0", call(&malformed, 1, 9, 92, 0), -1),
        refused("malformed inventory, no entry", call(&malformed, 1, 8, 92, 1), -1),
    ]
}

/// "address + size at most 2^32 and inside memory"; the area needs no alignment.
fn places() -> Vec<CallReading> {
    let at = |address: u32, size: u32| {
        let mut case = call(&two(), 1, 9, size, 1);
        case.args = arguments(2, &[1, 9, address, size, 1], &[0, 0]);
        case
    };
    vec![
        answered_at(1084, "area where memory ends", at(1084, 16), 1, 2, THREE_BYTES),
        refused("area one byte past memory", at(1085, 16), -3),
        refused("address + size = 2^32", at(0xffff_fff0, 16), -3),
        refused("address + size wraps to 4", at(0xffff_fff4, 16), -3),
        refused("size 0xffffffff", at(1, 0xffff_ffff), -3),
    ]
}

/// The inventory's own lines.
fn records() -> Vec<CallReading> {
    let judged = |name: &str, record: Vec<u8>| refused(name, call(&[two(), record].concat(), 1, 8, 92, 1), -1);
    let good = |name: &str, record: Vec<u8>| refused(name, call(&[two(), record].concat(), 1, 8, 92, 1), -3);
    let mut kind_17 = inventory_record(1, 9, 1, b"a");
    kind_17[2] = 17;
    let mut long = inventory_record(1, 9, 1, b"a");
    long[0] += 1;
    vec![
        judged("a code of no bytes", inventory_record(1, 9, 1, b"")),
        good("a code of 1 byte", inventory_record(1, 9, 1, b"a")),
        good("a code of 79 bytes", inventory_record(1, 9, 1, &[b'x'; 79])),
        good("a code of 80 bytes", inventory_record(1, 9, 1, &[b'x'; 80])),
        good("a code of 256 bytes", inventory_record(1, 9, 1, &[b'x'; 256])),
        good("a code of 1,023 bytes", inventory_record(1, 9, 1, &[b'x'; 1023])),
        judged("a code of 1,024 bytes", inventory_record(1, 9, 1, &[b'x'; 1024])),
        judged("a code of 1,023 bytes, the last a NUL", inventory_record(1, 9, 1, &[&[b'x'; 1022][..], &[0]].concat())),
        judged(
            "a code of 1,023 bytes, the first a NUL",
            inventory_record(1, 9, 1, &[&[0], &[b'x'; 1022][..]].concat()),
        ),
        judged("a code of 256 NULs", inventory_record(1, 9, 1, &[0; 256])),
        judged("a code of 1,023 NULs", inventory_record(1, 9, 1, &[0; 1023])),
        judged("a NUL in a code", inventory_record(1, 9, 1, b"a\0b")),
        judged("a NUL behind a code", inventory_record(1, 9, 1, b"ab\0")),
        judged("flag 2 in a record", inventory_record(2, 9, 1, b"a")),
        judged("flag 0x100 in a record", inventory_record(0x100, 9, 1, b"a")),
        judged("kind 17", kind_17),
        judged("a length one too long", long),
        good("type 9003, index 0xffffffff", inventory_record(0, 9003, 0xffff_ffff, b"a")),
    ]
}
