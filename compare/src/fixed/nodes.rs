//! The readings of update-nodes.

use super::{CallReading, EDITION, NONE, READING};
use crate::buffers::{arguments, journal_record, put_word, unit_record, words};
use crate::case::CallCase;

/// Where the work area stands.
const ADDRESS: u32 = 4096;

/// Records of one kind with node type 10, which every scope but 2 reports. The operands count from `first` on.
fn records(kind: u16, first: u32, number: u32) -> Vec<u8> {
    (first..first + number).flat_map(|operand| journal_record(kind, 10, operand, operand + 0x7000_0000)).collect()
}

/// A call over an area that begins with this state; all other bytes of memory are 0xee.
pub fn call(journal: &[u8], scope: u32, state: u32) -> CallCase {
    let mut memory = vec![0xee; 3 * 4096];
    let at = ADDRESS as usize;
    memory[at..at + 16].fill(0);
    put_word(&mut memory, at, state);
    CallCase {
        args: arguments(1, &[ADDRESS, scope], &[0x5555_5555]),
        memory,
        journal: journal.to_vec(),
        inventory: Vec::new(),
        edition: EDITION,
        registration: NONE,
        reading: READING,
    }
}

/// A call in scope 3 for this unit; all other bytes of memory are 0xee.
pub fn call_for_unit(journal: &[u8], unit: u64, state: u32) -> CallCase {
    let mut case = call(journal, 3, state);
    let at = ADDRESS as usize + 4;
    case.memory[at..at + 8].copy_from_slice(&unit.to_be_bytes());
    case
}

/// The same call with another byte of the work area.
fn with_byte(mut case: CallCase, byte: usize, value: u8) -> CallCase {
    case.memory[ADDRESS as usize + byte] = value;
    case
}

/// A call that is answered with this status and these words.
pub fn answered(name: &str, case: CallCase, status: i32, area: &[u32]) -> CallReading {
    CallReading::new(name, case).outputs(&[status]).writes(ADDRESS as usize, &words(area))
}

fn refused(name: &str, case: CallCase, status: i32) -> CallReading {
    CallReading::new(name, case).outputs(&[status])
}

/// The words of an area: the state, twelve zero bytes, then these parts and the terminator.
fn area(state: u32, parts: &[&[u32]]) -> Vec<u32> {
    let mut area = vec![state, 0, 0, 0];
    parts.iter().for_each(|part| area.extend(*part));
    area.push(0);
    area
}

fn counting(first: u32, number: u32) -> Vec<u32> {
    (first..first + number).collect()
}

fn pairs(first: u32, number: u32) -> Vec<u32> {
    (first..first + number).flat_map(|operand| [operand, operand + 0x7000_0000]).collect()
}

pub fn readings() -> Vec<CallReading> {
    let parts =
        [deletes(), additions(), mixed(), lines(), checks(), units(), unit_lists(), unit_bytes(), unit_records()];
    parts.into_iter().flatten().collect()
}

/// "1,018 reportable deletes: one call. 1,019: status 1, state 1,018; then one delete, status 0."
fn deletes() -> Vec<CallReading> {
    let first = counting(0, 1018);
    let whole = area(0, &[&[0x0100_03fa], &first]);
    let part = area(1018, &[&[0x0100_03fa], &first]);
    let last = area(0, &[&[0x0100_0001, 1018]]);
    let journal = records(1, 0, 1019);
    vec![
        answered("1,018 deletes", call(&records(1, 0, 1018), 1, 0), 0, &whole),
        answered("1,019 deletes, first call", call(&journal, 1, 0), 1, &part),
        answered("1,019 deletes, second call", call(&journal, 1, 1018), 0, &last),
    ]
}

/// "509 additions: one call. 510: two."
fn additions() -> Vec<CallReading> {
    let first = pairs(0, 509);
    let whole = area(0, &[&[0x0300_03fa], &first]);
    let part = area(509, &[&[0x0300_03fa], &first]);
    let last = area(0, &[&[0x0300_0002, 509, 0x7000_01fd]]);
    let journal = records(3, 0, 510);
    vec![
        answered("509 additions", call(&records(3, 0, 509), 0x8000_0000, 0), 0, &whole),
        answered("510 additions, first call", call(&journal, 0x8000_0000, 0), 1, &part),
        answered("510 additions, second call", call(&journal, 0x8000_0000, 509), 0, &last),
    ]
}

/// "1 delete, 1,013 updates, 1 addition: one call. With 1,014 updates: status 1, state 1,015."
fn mixed() -> Vec<CallReading> {
    // The addition stands first and the delete last: the list orders them.
    let journal = |updates: u32| [records(3, 5, 1), records(2, 0, updates), records(1, 9, 1)].concat();
    let updates = counting(0, 1014);
    let addition = [0x0300_0002, 5, 0x7000_0005];
    let whole = area(0, &[&[0x0100_0001, 9], &[0x0200_03f5], &updates[..1013], &addition]);
    let part = area(1015, &[&[0x0100_0001, 9], &[0x0200_03f6], &updates]);
    let last = area(0, &[&addition]);
    vec![
        answered("1 delete, 1,013 updates, 1 addition", call(&journal(1013), 1, 0), 0, &whole),
        answered("1 delete, 1,014 updates, 1 addition, first call", call(&journal(1014), 1, 0), 1, &part),
        answered("1 delete, 1,014 updates, 1 addition, second call", call(&journal(1014), 1, 1015), 0, &last),
    ]
}

/// The empty journal, scopes, states.
fn lines() -> Vec<CallReading> {
    let one = records(1, 0x2a, 1);
    let three = records(1, 1, 3);
    let one_delete = area(0, &[&[0x0100_0001, 0x2a]]);
    vec![
        answered("empty journal, scope 1", call(&[], 1, 0), 0, &[0, 0, 0, 0, 0]),
        answered("scope 0x80000000", call(&one, 0x8000_0000, 0), 0, &one_delete),
        answered("scope 0xffffffff", call(&one, 0xffff_ffff, 0), 0, &one_delete),
        refused("scope 0", call(&one, 0, 0), -3),
        refused("scope 4", call(&one, 4, 0), -3),
        refused("scope 0x7fffffff", call(&one, 0x7fff_ffff, 0), -3),
        refused("state 1, one delete", call(&one, 1, 1), -3),
        refused("state 3, three deletes", call(&three, 1, 3), -3),
        refused("state 4, three deletes", call(&three, 1, 4), -3),
        refused("state 0x80000002, three deletes", call(&three, 1, 0x8000_0002), -3),
        refused("state 1, empty journal", call(&[], 1, 1), -3),
        refused("state 1, one delete that scope 2 passes over", call(&one, 2, 1), -3),
        answered("state 2, three deletes", call(&three, 1, 2), 0, &area(0, &[&[0x0100_0001, 3]])),
        answered(
            "equal records stay",
            call(&[one.clone(), one.clone()].concat(), 1, 0),
            0,
            &[0, 0, 0, 0, 0x0100_0002, 0x2a, 0x2a, 0],
        ),
    ]
}

/// A call with another address or memory.
fn at(address: u32, memory: usize) -> CallCase {
    let mut case = call(&[], 1, 0);
    case.args = arguments(1, &[address, 1], &[7]);
    case.memory = vec![0; memory];
    case
}

/// The checks and their order.
fn checks() -> Vec<CallReading> {
    let malformed = [8, 0, 5, 0, 10, 0, 1, 2, 3, 4];
    let reserved = with_byte(call(&[], 1, 0), 15, 1);
    let malformed_and_reserved = with_byte(call(&malformed, 1, 0), 4, 1);
    vec![
        refused("address 4,097", at(4097, 12288), -3),
        refused("address 2,048", at(2048, 12288), -3),
        refused("area one byte past memory", at(4096, 8191), -3),
        answered("area where memory ends", at(4096, 8192), 0, &[0, 0, 0, 0, 0]),
        refused("address 0xfffff000", at(0xffff_f000, 8192), -3),
        refused("no memory", at(0, 0), -3),
        refused("byte 15 not zero", reserved, -3),
        refused("malformed journal", call(&malformed, 1, 0), -1),
        refused("malformed journal, scope 0", call(&malformed, 0, 0), -3),
        refused("malformed journal, state 9", call(&malformed, 1, 9), -1),
        refused("malformed journal, byte 4 not zero", malformed_and_reserved, -1),
        refused("node type 0", call(&journal_record(1, 0, 1, 0), 1, 0), -1),
        refused("node type 15", call(&journal_record(1, 15, 1, 0), 1, 0), -1),
        refused("kind 16", call(&journal_record(16, 10, 1, 0), 1, 0), -1),
        refused("a journal of 9 bytes", call(&journal_record(1, 10, 1, 0)[..9], 1, 0), -1),
        refused("a journal of 11 bytes", call(&[&journal_record(1, 10, 1, 0)[..], &[0]].concat(), 1, 0), -1),
        refused("a delete of length 12", call(&[12, 0, 1, 0, 10, 0, 1, 0, 0, 0, 1, 0, 0, 0], 1, 0), -1),
        refused("an addition of length 8", call(&[8, 0, 3, 0, 10, 0, 1, 0, 0, 0], 1, 0), -1),
        answered("a journal of 1,048,576 bytes", call(&full(104_852), 2, 0), 0, &[0, 0, 0, 0, 0]),
        refused("a journal of 1,048,586 bytes", call(&full(104_853), 2, 0), -1),
    ]
}

/// Four additions and this many deletes, none of which scope 2 reports; 104,852 make 1,048,576 bytes.
fn full(deletes: u32) -> Vec<u8> {
    [records(3, 0, 4), records(1, 0, deletes)].concat()
}

/// Two units that differ in the high word alone, and words as their areas have them.
const UNIT_A: u64 = 0x8000_0000_2000_0002;
const UNIT_B: u64 = 0x8000_0001_2000_0002;
const A: [u32; 2] = [0x8000_0000, 0x2000_0002];
const B: [u32; 2] = [0x8000_0001, 0x2000_0002];

/// Five records of the two units in turn, the first of them of A, with one of another sort between.
fn two_units() -> Vec<u8> {
    [
        unit_record(15, UNIT_A, 0x100),
        unit_record(16, UNIT_B, 0x200),
        journal_record(2, 3, 0x2a, 0),
        unit_record(16, UNIT_A, 0x101),
        unit_record(15, UNIT_B, 0x201),
        unit_record(16, UNIT_A, 0x100),
    ]
    .concat()
}

/// The words of an area in scope 3: the state, the unit, four zero bytes, then these updates and the terminator.
fn unit_area(state: u32, unit: [u32; 2], updates: &[u32]) -> Vec<u32> {
    let operator = [0x0200_0000 + updates.len() as u32];
    let operator = if updates.is_empty() { [].as_slice() } else { &operator };
    [&[state, unit[0], unit[1], 0], operator, updates, &[0]].concat()
}

/// M-100: "reports only that unit's records". The state counts in that unit's list.
fn units() -> Vec<CallReading> {
    let both = two_units();
    let zero = [unit_record(15, 1, 7), unit_record(16, 0, 8), unit_record(15, 1 << 32, 9)].concat();
    vec![
        answered("scope 3, unit A", call_for_unit(&both, UNIT_A, 0), 0, &unit_area(0, A, &[0x100, 0x101, 0x100])),
        answered("scope 3, unit B", call_for_unit(&both, UNIT_B, 0), 0, &unit_area(0, B, &[0x200, 0x201])),
        answered("scope 3, unit A, state 1", call_for_unit(&both, UNIT_A, 1), 0, &unit_area(0, A, &[0x101, 0x100])),
        answered("scope 3, unit A, state 2", call_for_unit(&both, UNIT_A, 2), 0, &unit_area(0, A, &[0x100])),
        answered("scope 3, unit B, state 1", call_for_unit(&both, UNIT_B, 1), 0, &unit_area(0, B, &[0x201])),
        refused("scope 3, unit A, state 3", call_for_unit(&both, UNIT_A, 3), -3),
        refused("scope 3, unit B, state 2", call_for_unit(&both, UNIT_B, 2), -3),
        refused("scope 3, unit B, state 5", call_for_unit(&both, UNIT_B, 5), -3),
        answered("a unit without a record", call_for_unit(&both, 7, 0), 0, &unit_area(0, [0, 7], &[])),
        refused("a unit without a record, state 1", call_for_unit(&both, 7, 1), -3),
        answered("unit 0 without a record", call_for_unit(&both, 0, 0), 0, &unit_area(0, [0, 0], &[])),
        answered("unit 0", call_for_unit(&zero, 0, 0), 0, &unit_area(0, [0, 0], &[8])),
        answered("unit 1", call_for_unit(&zero, 1, 0), 0, &unit_area(0, [0, 1], &[7])),
        answered("unit 2^32", call_for_unit(&zero, 1 << 32, 0), 0, &unit_area(0, [1, 0], &[9])),
        answered("scope 3, empty journal", call_for_unit(&[], UNIT_A, 0), 0, &unit_area(0, A, &[])),
        answered("scope 1 over kind 4", call(&both, 1, 0), 0, &area(0, &[&[0x0200_0001, 0x2a]])),
        answered("scope 2 over kind 4", call(&both, 2, 0), 0, &area(0, &[&[0x0200_0001, 0x2a]])),
        answered("scope 0x80000003 over kind 4", call(&both, 0x8000_0003, 0), 0, &area(0, &[])),
        refused("scope 0 over kind 4", call(&both, 0, 0), -3),
        refused("scope 4 over kind 4", call(&both, 4, 0), -3),
        refused("scope 0x103 over kind 4", call(&both, 0x103, 0), -3),
    ]
}

/// 1,018 updates of a unit: one call. 1,019: two, the second from the bytes that the first left.
fn unit_lists() -> Vec<CallReading> {
    let of = |number: u32| -> Vec<u8> {
        let pair = |phandle: u32| [unit_record(15, UNIT_A, phandle), unit_record(15, UNIT_B, phandle + 0x7000_0000)];
        (0..number).flat_map(pair).flatten().collect()
    };
    let first = counting(0, 1018);
    let (some, more) = (of(1018), of(1019));
    vec![
        answered("1,018 updates of a unit", call_for_unit(&some, UNIT_A, 0), 0, &unit_area(0, A, &first)),
        answered("1,019 of a unit, first call", call_for_unit(&more, UNIT_A, 0), 1, &unit_area(1018, A, &first)),
        answered("1,019 of a unit, second call", call_for_unit(&more, UNIT_A, 1018), 0, &unit_area(0, A, &[1018])),
        answered(
            "1,019 of a unit, second call of the other",
            call_for_unit(&more, UNIT_B, 1018),
            0,
            &unit_area(0, B, &[0x7000_03fa]),
        ),
        refused("1,019 of a unit, state 1,019", call_for_unit(&more, UNIT_A, 1019), -3),
    ]
}

/// The bytes behind the state: in scope 3 only 12 to 15 are tested, in the others 4 to 15.
fn unit_bytes() -> Vec<CallReading> {
    let both = two_units();
    let scope_3 = |byte: usize| with_byte(call_for_unit(&both, UNIT_A, 0), byte, 1);
    let scope_1 = |byte: usize| with_byte(call(&both, 1, 0), byte, 1);
    let malformed = unit_record(14, UNIT_A, 1);
    vec![
        answered("scope 3, byte 4 is 1", scope_3(4), 0, &unit_area(0, [0x0100_0000, 0x2000_0002], &[])),
        answered("scope 3, byte 7 is 1: unit B", scope_3(7), 0, &unit_area(0, B, &[0x200, 0x201])),
        answered("scope 3, byte 11 is 1", scope_3(11), 0, &unit_area(0, [0x8000_0000, 0x2000_0001], &[])),
        refused("scope 3, byte 12 is 1", scope_3(12), -3),
        refused("scope 3, byte 15 is 1", scope_3(15), -3),
        refused("scope 1, byte 4 is 1", scope_1(4), -3),
        refused("scope 1, byte 11 is 1", scope_1(11), -3),
        refused("scope 1, byte 12 is 1", scope_1(12), -3),
        refused("malformed journal in scope 3, byte 12 is 1", with_byte(call(&malformed, 3, 0), 12, 1), -1),
        refused("malformed journal in scope 3, state 9", call_for_unit(&malformed, UNIT_A, 9), -1),
        refused("state 9 in scope 3, byte 12 is 1", with_byte(call_for_unit(&both, UNIT_A, 9), 12, 1), -3),
    ]
}

/// M-100: "length 16, for these types alone" and "these types in kinds 1 to 3 are malformed", in every scope.
fn unit_records() -> Vec<CallReading> {
    let good = unit_record(16, UNIT_A, 1);
    let cut = |length: u8| [&[length, 0], &[good.as_slice(), &[0, 0]].concat()[2..2 + length as usize]].concat();
    let mut readings = vec![answered("length 16", call_for_unit(&cut(16), UNIT_A, 0), 0, &unit_area(0, A, &[1]))];
    for scope in [1, 2, 3, 0x8000_0000] {
        let malformed =
            |name: &str, journal: &[u8]| refused(&format!("{name}, {scope:#x}"), call(journal, scope, 0), -1);
        for length in [8, 12, 15, 17] {
            readings.push(malformed("another length of kind 4", &cut(length)));
        }
        for node_type in [0, 1, 14, 17, 0x10f, 0x0f00] {
            readings.push(malformed("another node type in kind 4", &unit_record(node_type, UNIT_A, 1)));
        }
        for kind in 1..=3 {
            readings.push(malformed("node type 15 in kinds 1 to 3", &journal_record(kind, 15, 1, 1)));
            readings.push(malformed("node type 16 in kinds 1 to 3", &journal_record(kind, 16, 1, 1)));
        }
        readings.push(malformed("a record of kind 4 cut off", &good[..17]));
    }
    readings
}
