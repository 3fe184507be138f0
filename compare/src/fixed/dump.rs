//! The readings of configure-kernel-dump.

use super::{CallReading, EDITION, NONE, READING};
use crate::buffers::{arguments, put_word};
use crate::case::CallCase;
use crate::library::Registration;

const ADDRESS: usize = 5;

/// A structure of this length without a disk, all other bytes 0xee.
fn structure(length: usize, sections: u16, first: usize) -> Vec<u8> {
    let mut bytes = vec![0xee; length];
    put_word(&mut bytes, 0, 1);
    bytes[4..6].copy_from_slice(&sections.to_be_bytes());
    bytes[6..8].fill(0);
    put_word(&mut bytes, 8, first as u32);
    bytes[12..36].fill(0);
    for at in (first..first + 40 * usize::from(sections)).step_by(40) {
        section(&mut bytes, at);
    }
    bytes
}

/// A section with request flag 1 and type 1, as far as the structure reaches.
fn section(bytes: &mut [u8], at: usize) {
    let fields = [(0, [0, 0, 0, 1].as_slice()), (4, &[0, 1, 0, 0]), (24, &[0; 8])];
    for (place, field) in fields {
        if at + place + field.len() <= bytes.len() {
            bytes[at + place..at + place + field.len()].copy_from_slice(field);
        }
    }
}

/// One section at 60 in a structure of 120 bytes, with a disk and this path at this offset.
fn with_path(offset: usize, path: &[u8]) -> Vec<u8> {
    let mut bytes = structure(120, 1, 60);
    put_word(&mut bytes, 12, 512);
    bytes[16..32].fill(0x77);
    put_word(&mut bytes, 32, offset as u32);
    let end = (offset + path.len()).min(120);
    if offset < end {
        bytes[offset..end].copy_from_slice(&path[..end - offset]);
    }
    bytes
}

fn call(command: u32, length: u32, structure: &[u8], registration: Registration) -> CallCase {
    let mut memory = vec![0xdd; ADDRESS + 520];
    memory[ADDRESS..ADDRESS + structure.len()].copy_from_slice(structure);
    CallCase {
        args: arguments(3, &[command, ADDRESS as u32, length], &[0x5555_5555]),
        memory,
        journal: vec![1],
        inventory: vec![1],
        edition: EDITION,
        registration,
        reading: READING,
    }
}

fn registered(structure: &[u8]) -> Registration {
    let mut copy = [0; 512];
    copy[..structure.len()].copy_from_slice(structure);
    Registration { phase: 1, length: structure.len() as u32, copy }
}

/// A structure that is registered.
fn good(name: &str, structure: Vec<u8>) -> CallReading {
    let case = call(1, structure.len() as u32, &structure, NONE);
    CallReading::new(name, case).outputs(&[0]).registration(registered(&structure))
}

/// A structure that is refused.
fn bad(name: &str, structure: Vec<u8>) -> CallReading {
    CallReading::new(name, call(1, structure.len() as u32, &structure, NONE)).outputs(&[-3])
}

pub fn readings() -> Vec<CallReading> {
    [commands(), lengths(), headers(), sections(), no_disk(), paths()].into_iter().flatten().collect()
}

/// "command 1 to 3 (-3); active and command 1 or 2 (-10); registered and command 1 (-9); command 2 when not registered,
/// or 3 when not active (-3)"
fn commands() -> Vec<CallReading> {
    let held = |phase: u32| Registration { phase, length: 80, copy: [9; 512] };
    let refused = |name: &str, phase: u32, command: u32, status: i32| {
        let given = if phase == 0 { NONE } else { held(phase) };
        CallReading::new(name, call(command, 80, &structure(80, 1, 40), given)).outputs(&[status])
    };
    let ended = |name: &str, phase: u32, command: u32| {
        // "Commands 2 and 3 ignore address and length and give none."
        let case = call(command, 0xffff_ffff, &[], held(phase));
        CallReading::new(name, case).outputs(&[0]).registration(NONE)
    };
    vec![
        refused("none, command 0", 0, 0, -3),
        refused("none, command 2", 0, 2, -3),
        refused("none, command 3", 0, 3, -3),
        refused("none, command 4", 0, 4, -3),
        refused("registered, command 0", 1, 0, -3),
        refused("registered, command 1", 1, 1, -9),
        ended("registered, command 2", 1, 2),
        refused("registered, command 3", 1, 3, -3),
        refused("registered, command 0x80000001", 1, 0x8000_0001, -3),
        refused("active, command 0", 2, 0, -3),
        refused("active, command 1", 2, 1, -10),
        refused("active, command 2", 2, 2, -10),
        ended("active, command 3", 2, 3),
        refused("active, command 4", 2, 4, -3),
    ]
}

/// "Ten sections at offset 112, length 512, no disk: good. At 113: -3."
fn lengths() -> Vec<CallReading> {
    let of =
        |name: &str, length: u32| CallReading::new(name, call(1, length, &structure(520, 1, 40), NONE)).outputs(&[-3]);
    let mut outside = call(1, 80, &structure(80, 1, 40), NONE);
    outside.memory.truncate(ADDRESS + 79);
    let mut edge = good("structure where memory ends", structure(80, 1, 40));
    edge.case.memory.truncate(ADDRESS + 80);
    edge.memory.truncate(ADDRESS + 80);
    let mut far = call(1, 80, &structure(80, 1, 40), NONE);
    far.args = arguments(3, &[1, 0xffff_ffff, 80], &[0]);
    vec![
        good("ten sections at 112, length 512", structure(512, 10, 112)),
        bad("ten sections at 113, length 512", structure(512, 10, 113)),
        good("one section, length 80", structure(80, 1, 40)),
        bad("one section at 40, length 79", structure(79, 1, 40)),
        of("length 0", 0),
        of("length 39", 39),
        of("length 40", 40),
        of("length 513", 513),
        of("length 0xffffffff", 0xffff_ffff),
        CallReading::new("structure one byte past memory", outside).outputs(&[-3]),
        edge,
        CallReading::new("address 0xffffffff", far).outputs(&[-3]),
    ]
}

/// A good structure of 120 bytes with one section at 60, after an edit.
fn edited(at: usize, bytes: &[u8]) -> Vec<u8> {
    let mut structure = structure(120, 1, 60);
    structure[at..at + bytes.len()].copy_from_slice(bytes);
    structure
}

fn headers() -> Vec<CallReading> {
    vec![
        good("section at 60", edited(0, &[])),
        bad("version 0", edited(0, &[0, 0, 0, 0])),
        bad("version 2", edited(0, &[0, 0, 0, 2])),
        bad("version 0x01000000", edited(0, &[1, 0, 0, 0])),
        bad("no sections", edited(4, &[0, 0])),
        bad("two sections that do not end within the length", edited(4, &[0, 2])),
        bad("eleven sections", structure(512, 11, 40)),
        bad("status flags 0x8000", edited(6, &[0x80, 0])),
        bad("status flags 1", edited(6, &[0, 1])),
        bad("first section at 39", structure(120, 1, 39)),
        good("first section at 41", structure(120, 1, 41)),
        good("first section at 80 of 120", structure(120, 1, 80)),
        bad("first section at 81 of 120", structure(120, 1, 81)),
        bad("first section at 0xffffffe0, which wraps to 8", edited(8, &[0xff, 0xff, 0xff, 0xe0])),
        good("milliseconds 0", edited(36, &[0, 0, 0, 0])),
    ]
}

fn sections() -> Vec<CallReading> {
    vec![
        bad("request flags 2", edited(60, &[0, 0, 0, 2])),
        bad("request flags 0x80000001", edited(60, &[0x80, 0, 0, 1])),
        bad("type 0", edited(64, &[0, 0])),
        good("type 2", edited(64, &[0, 2])),
        bad("type 3", edited(64, &[0, 3])),
        bad("type 0x10", edited(64, &[0, 0x10])),
        good("type 0x11", edited(64, &[0, 0x11])),
        good("type 0x12", edited(64, &[0, 0x12])),
        bad("type 0x13", edited(64, &[0, 0x13])),
        bad("type 0xff", edited(64, &[0, 0xff])),
        good("type 0x100", edited(64, &[1, 0])),
        good("type 0xffff", edited(64, &[0xff, 0xff])),
        bad("error flags 0x100", edited(66, &[1, 0])),
        bad("error flags 1", edited(66, &[0, 1])),
        bad("actual, first byte", edited(84, &[1])),
        bad("actual, last byte", edited(91, &[1])),
        good("source, requested and destination 0", edited(68, &[0; 32])),
    ]
}

fn no_disk() -> Vec<CallReading> {
    vec![
        bad("no disk, request flag 0", edited(60, &[0, 0, 0, 0])),
        bad("no disk, first block", edited(23, &[1])),
        bad("no disk, first block's first byte", edited(16, &[1])),
        bad("no disk, blocks", edited(31, &[1])),
        bad("no disk, path offset 40", edited(35, &[40])),
        bad("disk without path", edited(15, &[1])),
    ]
}

/// "the path starts at 40 or later, is not empty, ends at the first NUL inside the length, and with its NUL shares no
/// byte with the sections"
fn paths() -> Vec<CallReading> {
    let mut request_0 = with_path(100, b"/a\0");
    request_0[63] = 0;
    let mut flags_and_path = with_path(100, b"/a\0");
    flags_and_path[99] = 0x2f;
    put_word(&mut flags_and_path, 32, 99);
    vec![
        good("path at 40", with_path(40, b"/a\0")),
        good("path, request flag 0", request_0),
        bad("path at 39", with_path(39, b"/a\0")),
        good("path's NUL at 59, the section at 60", with_path(50, b"/23456789\0")),
        bad("path of 10 bytes at 50, its NUL at 60", with_path(50, b"/234567890")),
        good("path at 100, where the section ends", with_path(100, b"/\0")),
        bad("path at 99, the section's last byte", flags_and_path),
        bad("path inside the section", with_path(70, b"/\0")),
        bad("path empty", with_path(100, b"\0/\0")),
        good("path's NUL in the last byte", with_path(110, b"/23456789\0")),
        bad("path without NUL", with_path(110, b"/234567890")),
        bad("path at the length", with_path(120, b"")),
        bad("path at 0xffffffff", with_path(0xffff_ffff, b"")),
    ]
}
