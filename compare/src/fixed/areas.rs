//! The readings of work areas.

use super::{AreaReading, Of};
use crate::buffers::words;

/// A node area of these words and 0 to the end.
fn node_area(list: &[u32]) -> Vec<u8> {
    let mut area = words(list);
    area.resize(4096, 0);
    area
}

/// A node area that begins with these words behind its first 16 bytes and has 1 in every word from there on.
fn filled(list: &[u32]) -> Vec<u8> {
    let mut all = vec![0, 0, 0, 0];
    all.extend(list);
    all.resize(1024, 1);
    words(&all)
}

/// A node area of scope 1.
fn nodes(name: &str, area: Vec<u8>, state: u32, entries: &[[u64; 3]]) -> AreaReading {
    let of = Of::Nodes { scope: 1 };
    AreaReading { name: String::from(name), area, of, state, result: Ok(entries.to_vec()) }
}

fn nodes_refused(name: &str, area: Vec<u8>, refusal: u32, offset: u64) -> AreaReading {
    let of = Of::Nodes { scope: 1 };
    AreaReading { name: String::from(name), area, of, state: 0, result: Err((refusal, offset)) }
}

/// The same reading, with the reader told another scope.
fn in_scope(scope: u32, reading: AreaReading) -> AreaReading {
    AreaReading { of: Of::Nodes { scope }, name: format!("{}, scope {scope:#x}", reading.name), ..reading }
}

fn indices(name: &str, area: &[u8], entries: &[[u64; 3]]) -> AreaReading {
    let result = Ok(entries.to_vec());
    AreaReading { name: String::from(name), area: area.to_vec(), of: Of::Indices, state: 0, result }
}

fn indices_refused(name: &str, area: &[u8], refusal: u32, offset: u64) -> AreaReading {
    let result = Err((refusal, offset));
    AreaReading { name: String::from(name), area: area.to_vec(), of: Of::Indices, state: 0, result }
}

pub fn readings() -> Vec<AreaReading> {
    [node_readings(), node_refusals(), node_scopes(), node_ends(), index_readings(), index_refusals()]
        .into_iter()
        .flatten()
        .collect()
}

fn node_readings() -> Vec<AreaReading> {
    // The example of the printing program.
    let example = [0, 0, 0, 0, 0x0100_0001, 0x2a, 0x0200_0001, 0x1000, 0x0300_0002, 0x1000, 0x1000_0005];
    let entries = [[1, 0x2a, 0], [2, 0x1000, 0], [3, 0x1000, 0x1000_0005]];
    vec![
        nodes("the example of the printing program", node_area(&example), 0, &entries),
        nodes("no operators", node_area(&[]), 0, &[]),
        nodes("state 0xffffffff, no operators", node_area(&[0xffff_ffff]), 0xffff_ffff, &[]),
        nodes(
            "two delete lists in a row",
            filled(&[0x0100_0001, 7, 0x0100_0002, 8, 9, 0]),
            0,
            &[[1, 7, 0], [1, 8, 0], [1, 9, 0]],
        ),
        nodes("operands 0", filled(&[0x0300_0002, 0, 0, 0]), 0, &[[3, 0, 0]]),
        nodes("count 0", filled(&[0x0100_0000, 0]), 0, &[]),
        nodes("opcode 4, count 0", filled(&[0x0400_0000, 0]), 0, &[]),
        nodes("opcode 255, count 0", filled(&[0xff00_0000, 0]), 0, &[]),
        nodes("count 0 before a lower opcode", filled(&[0x0200_0000, 0x0100_0001, 7, 0]), 0, &[[1, 7, 0]]),
        nodes(
            "count 0 of a lower opcode between updates",
            filled(&[0x0200_0001, 7, 0x0100_0000, 0x0200_0001, 8, 0]),
            0,
            &[[2, 7, 0], [2, 8, 0]],
        ),
    ]
}

/// An area without operators in which this byte is 1 and all others are zero.
fn reserved(byte: usize) -> Vec<u8> {
    let mut area = node_area(&[]);
    area[byte] = 1;
    area
}

/// M-100: "in scope 3 only bytes 12 to 15 are tested for zero, by writer and reader (21 at offset 12)". Every other
/// value, also one that is no scope, is read as scope 1 is.
fn node_scopes() -> Vec<AreaReading> {
    let unit = [7, 0x8000_0000, 0x2000_0002, 0, 0x0200_0002, 0x1000, 0x1001];
    let updates = [[2, 0x1000, 0], [2, 0x1001, 0]];
    let of_unit = || node_area(&unit);
    let mut both = reserved(4);
    both[12] = 1;
    let mut readings = vec![
        in_scope(3, nodes("two updates of a unit", of_unit(), 7, &updates)),
        in_scope(3, nodes("byte 4", reserved(4), 0, &[])),
        in_scope(3, nodes("byte 11", reserved(11), 0, &[])),
        in_scope(3, nodes_refused("byte 12", reserved(12), 21, 12)),
        in_scope(3, nodes_refused("byte 15", reserved(15), 21, 12)),
        in_scope(3, nodes_refused("bytes 4 and 12", both.clone(), 21, 12)),
        in_scope(3, nodes_refused("4,095 bytes", vec![0; 4095], 20, 0)),
        in_scope(3, nodes_refused("opcode 4", filled(&[0x0400_0001]), 22, 16)),
        in_scope(3, nodes("unit 0", node_area(&[]), 0, &[])),
    ];
    for scope in [0, 1, 2, 4, 0x103, 0x0300_0000, 0x7fff_ffff, 0x8000_0000, 0x8000_0003, 0xffff_ffff] {
        readings.push(in_scope(scope, nodes("no operators", node_area(&[]), 0, &[])));
        readings.push(in_scope(scope, nodes_refused("two updates of a unit", of_unit(), 21, 4)));
        readings.push(in_scope(scope, nodes_refused("byte 4", reserved(4), 21, 4)));
        readings.push(in_scope(scope, nodes_refused("byte 11", reserved(11), 21, 4)));
        readings.push(in_scope(scope, nodes_refused("byte 12", reserved(12), 21, 4)));
        readings.push(in_scope(scope, nodes_refused("bytes 4 and 12", both.clone(), 21, 4)));
    }
    readings
}

fn node_refusals() -> Vec<AreaReading> {
    vec![
        nodes_refused("no bytes", Vec::new(), 20, 0),
        nodes_refused("4,095 bytes", vec![0; 4095], 20, 0),
        nodes_refused("4,097 bytes", vec![0; 4097], 20, 0),
        nodes_refused("byte 4", reserved(4), 21, 4),
        nodes_refused("byte 15", reserved(15), 21, 4),
        nodes_refused("opcode 0, count 5", filled(&[5]), 22, 16),
        nodes_refused("opcode 4, count 1", filled(&[0x0400_0001]), 22, 16),
        nodes_refused("opcode 4, past the end", filled(&[0x04ff_ffff]), 22, 16),
        nodes_refused("opcode 255", filled(&[0x0100_0001, 1, 0xff00_0001]), 22, 24),
        nodes_refused("lower opcode behind count 0", filled(&[0x0200_0001, 1, 0x0100_0000, 0x0100_0001]), 26, 28),
        nodes_refused("odd count", filled(&[0x0300_0003]), 25, 16),
        nodes_refused("odd count past the end", filled(&[0x03ff_ffff]), 25, 16),
        nodes_refused("lower opcode", filled(&[0x0200_0001, 1, 0x0100_0001, 1, 0]), 26, 24),
        nodes_refused("lower opcode past the end", filled(&[0x0300_0002, 1, 1, 0x0200_0fff]), 26, 28),
        nodes_refused("count 0xffffff", filled(&[0x01ff_ffff]), 24, 16),
        nodes_refused("an even count past the end", filled(&[0x03ff_fffe]), 24, 16),
    ]
}

/// Areas whose operands end at 4,092, at 4,096 or past it.
fn node_ends() -> Vec<AreaReading> {
    let mut terminated = filled(&[0x0100_03fa]);
    terminated[4092..].fill(0);
    let whole = vec![[1, 1, 0]; 1018];
    let mut empty = filled(&[0x0100_03fa]);
    empty[4092..].copy_from_slice(&[2, 0, 0, 0]);
    vec![
        nodes("1,018 deletes and a terminator in the last word", terminated, 0, &whole),
        nodes_refused("1,018 deletes and one word more, opcode 0", filled(&[0x0100_03fa]), 22, 4092),
        nodes_refused("1,018 deletes and an empty operator in the last word", empty, 27, 4096),
        nodes_refused("1,019 deletes to byte 4,096", filled(&[0x0100_03fb]), 27, 4096),
        nodes_refused("1,020 deletes", filled(&[0x0100_03fc]), 24, 16),
        nodes_refused("510 additions", filled(&[0x0300_03fc]), 24, 16),
    ]
}

/// One set of index 7, with this length, so many letters and so many NULs.
fn one_set(length: u32, letters: usize, nuls: usize) -> Vec<u8> {
    [words(&[1, 7, length]), vec![b'L'; letters], vec![0; nuls]].concat()
}

fn index_readings() -> Vec<AreaReading> {
    vec![
        indices("count 0", b"\0\0\0\0", &[]),
        indices("count 0, more bytes", b"\0\0\0\0\xff\xff\xff", &[]),
        indices("abc", b"\0\0\0\x01\x01\x02\x03\x04\0\0\0\x04abc\0", &[[0x0102_0304, 12, 3]]),
        indices("abcd, bytes behind", b"\0\0\0\x01\xff\xff\xff\xff\0\0\0\x08abcd\0\0\0\0x", &[[0xffff_ffff, 12, 4]]),
        indices(
            "two sets",
            b"\0\0\0\x02\0\0\0\x05\0\0\0\x04a\0\0\0\0\0\0\x06\0\0\0\x08abcde\0\0\0",
            &[[5, 12, 1], [6, 24, 5]],
        ),
        indices("79 bytes", &one_set(80, 79, 1), &[[7, 12, 79]]),
        indices("80 bytes", &one_set(84, 80, 4), &[[7, 12, 80]]),
        indices("1,019 bytes", &one_set(1020, 1019, 1), &[[7, 12, 1019]]),
        indices("1,020 bytes", &one_set(1024, 1020, 4), &[[7, 12, 1020]]),
        indices("1,022 bytes", &one_set(1024, 1022, 2), &[[7, 12, 1022]]),
        indices("1,023 bytes", &one_set(1024, 1023, 1), &[[7, 12, 1023]]),
    ]
}

fn index_refusals() -> Vec<AreaReading> {
    vec![
        indices_refused("no bytes", b"", 30, 0),
        indices_refused("3 bytes", b"\0\0\0", 30, 0),
        indices_refused("count 1, no set", b"\0\0\0\x01", 31, 4),
        indices_refused("7 bytes left", b"\0\0\0\x01\0\0\0\x07\0\0\0", 31, 4),
        indices_refused("length 4, 3 bytes left", b"\0\0\0\x01\0\0\0\x07\0\0\0\x04abc", 31, 4),
        indices_refused("length 1,024, 1,023 bytes left", &one_set(1024, 1023, 0), 31, 4),
        indices_refused("length 1,024, no byte left", &one_set(1024, 0, 0), 31, 4),
        indices_refused("length 1,028", &one_set(1028, 1027, 1), 32, 4),
        indices_refused("length 1,028, 1,023 bytes and five NULs", &one_set(1028, 1023, 5), 32, 4),
        indices_refused("length 1,028, 1,027 bytes left", &one_set(1028, 1027, 0), 32, 4),
        indices_refused("length 1,023", &one_set(1023, 1022, 1), 32, 4),
        indices_refused("length 0", b"\0\0\0\x01\0\0\0\x07\0\0\0\0abc\0", 32, 4),
        indices_refused("length 3", b"\0\0\0\x01\0\0\0\x07\0\0\0\x03ab\0\0", 32, 4),
        indices_refused("length 0x80000004", b"\0\0\0\x01\0\0\0\x07\x80\0\0\x04abc\0", 32, 4),
        indices_refused("empty code", b"\0\0\0\x01\0\0\0\x07\0\0\0\x04\0\0\0\0", 33, 4),
        indices_refused("1,024 bytes, no NUL", &one_set(1024, 1024, 0), 33, 4),
        indices_refused("1,019 bytes, five NULs", &one_set(1024, 1019, 5), 33, 4),
        indices_refused("no NUL", b"\0\0\0\x01\0\0\0\x07\0\0\0\x04abcd", 33, 4),
        indices_refused("a byte behind a NUL", b"\0\0\0\x01\0\0\0\x07\0\0\0\x08ab\0d\0\0\0\0", 33, 4),
        indices_refused("five NULs", b"\0\0\0\x01\0\0\0\x07\0\0\0\x08abc\0\0\0\0\0", 33, 4),
        indices_refused("count 2, one set", b"\0\0\0\x02\0\0\0\x07\0\0\0\x04abc\0", 31, 16),
        indices_refused("count 0xffffffff", b"\xff\xff\xff\xff\0\0\0\x07\0\0\0\x04abc\0", 31, 16),
    ]
}
