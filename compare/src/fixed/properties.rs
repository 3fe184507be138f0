//! The readings of update-properties (M-103).

use super::{CallReading, EDITION, NONE, READING};
use crate::buffers::{arguments, journal_record, property_record, put_word, record, words};
use crate::case::CallCase;

/// Where the work area stands.
const ADDRESS: u32 = 4096;

/// The node of most readings.
const NODE: u32 = 0x0102_0304;

/// A call over an area that begins with this phandle and state; all other bytes of memory are 0xee.
fn call_for(journal: &[u8], phandle: u32, state: u32) -> CallCase {
    let mut memory = vec![0xee; 3 * 4096];
    let at = ADDRESS as usize;
    memory[at..at + 16].fill(0);
    put_word(&mut memory, at, phandle);
    put_word(&mut memory, at + 4, state);
    CallCase {
        args: arguments(4, &[ADDRESS, 1], &[0x5555_5555]),
        memory,
        journal: journal.to_vec(),
        inventory: Vec::new(),
        edition: EDITION,
        registration: NONE,
        reading: READING,
    }
}

fn call(journal: &[u8], state: u32) -> CallCase {
    call_for(journal, NODE, state)
}

fn in_scope(mut case: CallCase, scope: u32) -> CallCase {
    case.args = arguments(4, &[ADDRESS, scope], &[7]);
    case
}

fn with_byte(mut case: CallCase, byte: usize, value: u8) -> CallCase {
    case.memory[ADDRESS as usize + byte] = value;
    case
}

/// A call that is answered with this status, this state and these properties, so many of them.
fn answered(name: &str, case: CallCase, status: i32, state: u32, properties: &[&[u8]]) -> CallReading {
    let phandle = &case.memory[ADDRESS as usize..ADDRESS as usize + 4];
    let head = [phandle, &words(&[state, 0, 0, properties.len() as u32])].concat();
    let area = [head, properties.concat()].concat();
    CallReading::new(name, case).outputs(&[status]).writes(ADDRESS as usize, &area)
}

fn refused(name: &str, case: CallCase, status: i32) -> CallReading {
    CallReading::new(name, case).outputs(&[status])
}

/// A value of so many bytes; NULs are among them.
fn bytes(length: usize) -> Vec<u8> {
    (0..length).map(|place| (place % 253) as u8).collect()
}

/// A record of the node with a value of so many bytes.
fn long(name: &[u8], length: usize) -> Vec<u8> {
    property_record(NODE, name, Some(&bytes(length)))
}

/// A property of an area.
fn piece(name: &[u8], descriptor: u32, value: &[u8]) -> Vec<u8> {
    [name, &[0], &descriptor.to_be_bytes(), value].concat()
}

pub fn readings() -> Vec<CallReading> {
    let parts = [lines(), ends(), longest(), two_nodes(), states(), checks(), records(), node_updates()];
    parts.into_iter().flatten().collect()
}

/// Values, no values, deletions, equal names; names of 1 and 31 bytes.
fn lines() -> Vec<CallReading> {
    let one = property_record(NODE, b"reg", Some(b"\0\0\0\x01"));
    let longest = [b'n'; 31];
    vec![
        answered("one property", call(&one, 0), 0, 0, &[b"reg\0\0\0\0\x04\0\0\0\x01"]),
        answered("no value", call(&property_record(NODE, b"a", Some(b"")), 0), 0, 0, &[b"a\0\0\0\0\0"]),
        answered("a deletion", call(&property_record(NODE, b"a", None), 0), 0, 0, &[b"a\0\x80\0\0\0"]),
        answered("a value of one NUL", call(&property_record(NODE, b"a", Some(b"\0")), 0), 0, 0, &[b"a\0\0\0\0\x01\0"]),
        answered(
            "equal names stay",
            call(&[one.clone(), property_record(NODE, b"reg", None), one.clone()].concat(), 0),
            0,
            0,
            &[b"reg\0\0\0\0\x04\0\0\0\x01", b"reg\0\x80\0\0\0", b"reg\0\0\0\0\x04\0\0\0\x01"],
        ),
        answered(
            "a name of 31 bytes",
            call(&property_record(NODE, &longest, Some(b"v")), 0),
            0,
            0,
            &[&piece(&longest, 1, b"v")],
        ),
        answered(
            "a deleted name of 31 bytes",
            call(&property_record(NODE, &longest, None), 0),
            0,
            0,
            &[&piece(&longest, 0x8000_0000, b"")],
        ),
        refused("a name of 32 bytes", call(&property_record(NODE, &[b'n'; 32], Some(b"v")), 0), -1),
        refused("a deleted name of 32 bytes", call(&property_record(NODE, &[b'n'; 32], None), 0), -1),
    ]
}

/// 4,076 bytes of an area are for properties: a value of 4,070 bytes with a name of one fits to the last byte.
fn ends() -> Vec<CallReading> {
    let value = bytes(4071);
    let more = long(b"a", 4071);
    let two = |first: usize, second: Option<&[u8]>| [long(b"a", first), property_record(NODE, b"b", second)].concat();
    let first = |length: usize| piece(b"a", length as u32, &bytes(length));
    vec![
        answered("a value to the last byte", call(&long(b"a", 4070), 0), 0, 0, &[&first(4070)]),
        answered("one byte more, first call", call(&more, 0), 1, 4080, &[&piece(b"a", 0xffff_f01a, &value[..4070])]),
        answered("one byte more, second call", call(&more, 4080), 0, 0, &[&piece(b"a", 1, &value[4070..])]),
        // Ten bytes of the record stand before its value, so the second record begins behind them and the value.
        answered("room for no byte", call(&two(4064, Some(b"xy")), 0), 1, 4074, &[&first(4064)]),
        answered("room for no byte, second call", call(&two(4064, Some(b"xy")), 4074), 0, 0, &[b"b\0\0\0\0\x02xy"]),
        answered(
            "room for one byte",
            call(&two(4063, Some(b"xy")), 0),
            1,
            4084,
            &[&first(4063), b"b\0\xff\xff\xff\xffx"],
        ),
        answered("room for one byte, second call", call(&two(4063, Some(b"xy")), 4084), 0, 0, &[b"b\0\0\0\0\x01y"]),
        answered("room for both bytes", call(&two(4062, Some(b"xy")), 0), 0, 0, &[&first(4062), b"b\0\0\0\0\x02xy"]),
        answered(
            "room for a property without a value",
            call(&two(4064, Some(b"")), 0),
            0,
            0,
            &[&first(4064), b"b\0\0\0\0\0"],
        ),
        answered("one byte short of it", call(&two(4065, Some(b"")), 0), 1, 4075, &[&first(4065)]),
        answered("room for a deletion", call(&two(4064, None), 0), 0, 0, &[&first(4064), b"b\0\x80\0\0\0"]),
        answered("one byte short of a deletion", call(&two(4065, None), 0), 1, 4075, &[&first(4065)]),
        answered("no byte left", call(&two(4070, None), 0), 1, 4080, &[&first(4070)]),
    ]
}

/// A value of 32,768 bytes takes nine areas: eight of 4,070 bytes and one of 208, behind a name of one byte.
fn longest() -> Vec<CallReading> {
    let (journal, value) = (long(b"a", 32_768), bytes(32_768));
    let part = |number: usize| piece(b"a", 0xffff_f01a, &value[4070 * number..4070 * (number + 1)]);
    let state = |number: usize| if number == 0 { 0 } else { 10 + 4070 * number as u32 };
    let mut readings: Vec<CallReading> = (0..8)
        .map(|number| answered("32,768 bytes", call(&journal, state(number)), 1, state(number + 1), &[&part(number)]))
        .collect();
    let last = piece(b"a", 208, &value[32_560..]);
    readings.push(answered("32,768 bytes, ninth call", call(&journal, 32_570), 0, 0, &[&last]));
    readings
}

/// Two nodes with records between each other's, and a third that has none.
fn two_nodes() -> Vec<CallReading> {
    let other = NODE.swap_bytes();
    let journal = [
        property_record(NODE, b"a", Some(b"1")),
        property_record(other, b"a", Some(&bytes(5000))),
        journal_record(1, 10, 0x2a, 0),
        property_record(NODE, b"b", None),
        property_record(other, b"b", Some(b"2")),
    ]
    .concat();
    let rest = piece(b"a", 930, &bytes(5000)[4070..]);
    vec![
        answered("two nodes, the first", call(&journal, 0), 0, 0, &[b"a\0\0\0\0\x011", b"b\0\x80\0\0\0"]),
        answered(
            "two nodes, the second",
            call_for(&journal, other, 0),
            1,
            4091,
            &[&piece(b"a", 0xffff_f01a, &bytes(4070))],
        ),
        answered("two nodes, the second's rest", call_for(&journal, other, 4091), 0, 0, &[&rest, b"b\0\0\0\0\x012"]),
        refused("two nodes, the second's state for the first", call(&journal, 4091), -3),
        refused("a node without records", call_for(&journal, NODE + 1, 0), -3),
        refused("a node that was deleted", call_for(&journal, 0x2a, 0), -3),
        refused("an empty journal", call(&[], 0), -3),
    ]
}

/// "a state that this node's session never carries"
fn states() -> Vec<CallReading> {
    // A record of ten bytes, one of 4,081 whose value begins at 20 and ends at 4,091, and one of ten.
    let journal = [journal_record(1, 10, 1, 0), long(b"a", 4071), property_record(NODE, b"b", None)].concat();
    let rest: &[&[u8]] = &[&piece(b"a", 1, &bytes(4071)[4070..]), b"b\0\x80\0\0\0"];
    let mut readings = vec![answered("the state of the value's last byte", call(&journal, 4090), 0, 0, rest)];
    let bad = [
        ("the first record's offset", 10),
        ("the first value's offset", 20),
        ("the second byte of the value", 21),
        ("one byte below the state", 4089),
        ("one byte above the state, the second record", 4091),
        ("the journal's length", 4101),
        ("state 1", 1),
        ("the state with bit 31", 0x8000_0000 + 4090),
        ("0xffffffff", 0xffff_ffff),
    ];
    readings.extend(bad.map(|(name, state)| refused(name, call(&journal, state), -3)));
    readings
}

/// Address, scope, journal, then the phandle, bytes 8 to 15 and the state.
fn checks() -> Vec<CallReading> {
    let good = property_record(NODE, b"a", Some(b"v"));
    let malformed = property_record(NODE, b"", Some(b"v"));
    let property: &[&[u8]] = &[b"a\0\0\0\0\x01v"];
    let mut readings = Vec::new();
    for scope in [1, 2, 3, 0x8000_0000, 0xffff_ffff] {
        readings.push(answered("a scope with a row", in_scope(call(&good, 0), scope), 0, 0, property));
        readings.push(refused("a malformed journal", in_scope(call(&malformed, 0), scope), -1));
    }
    for scope in [0, 4, 0x103, 0x7fff_ffff] {
        readings.push(refused("another scope", in_scope(call(&good, 0), scope), -3));
        readings.push(refused("another scope, malformed journal", in_scope(call(&malformed, 0), scope), -3));
    }
    for byte in [8, 11, 12, 15] {
        readings.push(refused("bytes 8 to 15", with_byte(call(&good, 0), byte, 1), -3));
        readings.push(refused("bytes 8 to 15, malformed journal", with_byte(call(&malformed, 0), byte, 1), -1));
    }
    readings.push(answered("byte 16 is not looked at", with_byte(call(&good, 0), 16, 1), 0, 0, property));
    readings.push(refused("a malformed journal, another state", call(&malformed, 9), -1));
    readings.push(refused("a malformed journal, another node", call_for(&malformed, 9, 0), -1));
    for (address, memory) in [(4097, 12_288), (8192, 12_287), (12_288, 12_288), (0xffff_f000, 12_288)] {
        let mut case = call(&malformed, 0);
        case.args = arguments(4, &[address, 1], &[7]);
        case.memory.truncate(memory);
        readings.push(refused("another address or memory", case, -3));
    }
    readings
}

/// Records on both sides of the limits of kinds 5 and 6.
fn records() -> Vec<CallReading> {
    let body = |text: &[u8]| [&NODE.to_le_bytes(), text].concat();
    let malformed = |name: &str, record: Vec<u8>| refused(name, call(&record, 0), -1);
    let first = piece(&[b'n'; 31], 0xffff_f038, &bytes(4040));
    vec![
        answered("length 32,806", call(&long(&[b'n'; 31], 32_768), 0), 1, 40 + 4040, &[&first]),
        malformed("length 32,806, value of 32,769 bytes", long(&[b'n'; 30], 32_769)),
        malformed("length 32,807", long(&[b'n'; 31], 32_769)),
        malformed("length 7, kind 5", record(5, &body(b"a"))),
        malformed("length 7, kind 6", record(6, &body(b"\0"))),
        malformed("kind 5, no name", record(5, &body(b"\0v"))),
        malformed("kind 6, no name", record(6, &body(b"\0\0"))),
        malformed("kind 5, no NUL", record(5, &body(b"abc"))),
        malformed("kind 6, no NUL", record(6, &body(b"abc"))),
        malformed("kind 6, a byte behind its NUL", record(6, &body(b"a\0b"))),
        malformed("kind 6, two NULs", record(6, &body(b"a\0\0"))),
        malformed("kind 6 of length 39", record(6, &body(&[[b'n'; 31].as_slice(), &[0, 0]].concat()))),
        malformed("kind 7", record(7, &body(b"a\0"))),
        malformed("kind 5 cut off", property_record(NODE, b"a", Some(b"v"))[..10].to_vec()),
    ]
}

/// "Node updates pass over kinds 5 and 6."
fn node_updates() -> Vec<CallReading> {
    let delete = journal_record(1, 10, 0x2a, 0);
    let journal =
        [property_record(NODE, b"a", Some(&delete)), delete.clone(), property_record(NODE, b"a", None)].concat();
    let nodes = |journal: &[u8]| super::nodes::call(journal, 1, 0);
    let malformed = [delete, property_record(NODE, &[b'n'; 32], Some(b"v"))].concat();
    vec![
        super::nodes::answered(
            "update-nodes over kinds 5 and 6",
            nodes(&journal),
            0,
            &[0, 0, 0, 0, 0x0100_0001, 0x2a, 0],
        ),
        refused("update-nodes over a name of 32 bytes", nodes(&malformed), -1),
    ]
}
