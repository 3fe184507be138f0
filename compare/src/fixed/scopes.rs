//! "What each scope reports (000)", written out.

use super::nodes::{answered, call, call_for_unit};
use super::CallReading;
use crate::buffers::{journal_record, unit_record};

/// "any negative scope: 5, 8, 9 updates; 10 to 14 all three opcodes"
#[rustfmt::skip]
const NEGATIVE: [u32; 31] = [
    0, 0, 0, 0,
    0x0100_0005, 14, 13, 12, 11, 10,
    0x0200_0008, 14, 13, 12, 11, 10, 9, 8, 5,
    0x0300_000a, 14, 0x30e, 13, 0x30d, 12, 0x30c, 11, 0x30b, 10, 0x30a,
    0,
];

/// "scope 1: 1 to 5, 7, 8 updates; 6, 9 to 14 all three"
#[rustfmt::skip]
const SCOPE_1: [u32; 43] = [
    0, 0, 0, 0,
    0x0100_0007, 14, 13, 12, 11, 10, 9, 6,
    0x0200_000e, 14, 13, 12, 11, 10, 9, 8, 7, 6, 5, 4, 3, 2, 1,
    0x0300_000e, 14, 0x30e, 13, 0x30d, 12, 0x30c, 11, 0x30b, 10, 0x30a, 9, 0x309, 6, 0x306,
    0,
];

/// "scope 2: 3 updates"
const SCOPE_2: [u32; 7] = [0, 0, 0, 0, 0x0200_0001, 3, 0];

/// M-100: "Node types 15 (coherent platform facility) and 16 (function) report updates, in scope 3 only."
const SCOPE_3: [u32; 8] = [0, 0x8000_0000, 0x2000_0002, 0, 0x0200_0002, 16, 15, 0];

const UNIT: u64 = 0x8000_0000_2000_0002;

/// One record of each kind for each node type, the highest type and kind first. The first operand is the node type.
fn one_of_each() -> Vec<u8> {
    let mut journal = [unit_record(16, UNIT, 16), unit_record(15, UNIT, 15)].concat();
    for node_type in (1..=14).rev() {
        for kind in (1..=3).rev() {
            journal.extend(journal_record(kind, node_type, u32::from(node_type), 0x300 + u32::from(node_type)));
        }
    }
    journal
}

pub fn readings() -> Vec<CallReading> {
    let journal = one_of_each();
    vec![
        answered("one of each, scope 0x80000000", call(&journal, 0x8000_0000, 0), 0, &NEGATIVE),
        answered("one of each, scope 0xfffffffe", call(&journal, 0xffff_fffe, 0), 0, &NEGATIVE),
        answered("one of each, scope 1", call(&journal, 1, 0), 0, &SCOPE_1),
        answered("one of each, scope 2", call(&journal, 2, 0), 0, &SCOPE_2),
        answered("one of each, scope 3", call_for_unit(&journal, UNIT, 0), 0, &SCOPE_3),
    ]
}
