//! "The argument buffer"

use super::{CallReading, EDITION, NONE, READING};
use crate::buffers::words;
use crate::case::CallCase;
use crate::library::Registration;

/// A call with this argument buffer over one page of memory, an empty journal and an empty inventory.
fn with(args: Vec<u8>) -> CallCase {
    CallCase {
        args,
        memory: vec![0; 4096],
        journal: Vec::new(),
        inventory: Vec::new(),
        edition: EDITION,
        registration: NONE,
        reading: READING,
    }
}

/// A buffer of these words, padded to a length or cut off.
fn buffer(head: &[u32], length: usize) -> Vec<u8> {
    let mut bytes = words(head);
    bytes.resize(length, 0xee);
    bytes
}

pub fn readings() -> Vec<CallReading> {
    let refused = |name: &str, head: &[u32], length: usize, number: u32| {
        CallReading::new(name, with(buffer(head, length))).number(number)
    };
    let status =
        |name: &str, head: &[u32], length: usize| CallReading::new(name, with(buffer(head, length))).outputs(&[-3]);
    let mut readings = vec![
        refused("no bytes: 10", &[], 0, 10),
        refused("11 bytes: 10", &[1, 2, 1], 11, 10),
        refused("11 bytes, 17 inputs: 10", &[1, 17, 1], 11, 10),
        refused("17 inputs, no outputs, 12 bytes: 12", &[1, 17, 0], 12, 12),
        refused("17 outputs: 12", &[1, 0, 17], 80, 12),
        refused("0xffffffff inputs: 12", &[1, 0xffff_ffff, 1], 64, 12),
        refused("0x80000000 outputs: 12", &[1, 2, 0x8000_0000], 64, 12),
        refused("0x40000002 inputs, which wraps: 12", &[1, 0x4000_0002, 1], 64, 12),
        refused("1 input, no outputs, 12 bytes: 10", &[1, 1, 0], 12, 10),
        refused("1 input, no outputs, 16 bytes: 11", &[1, 1, 0], 16, 11),
        refused("no inputs, no outputs, 12 bytes: 11", &[1, 0, 0], 12, 11),
        refused("2 inputs, 1 output, 23 bytes: 10", &[1, 2, 1], 23, 10),
        refused("16 and 16, 139 bytes: 10", &[1, 16, 16], 139, 10),
        status("16 and 16, 140 bytes: -3", &[1, 16, 16], 140),
        status("token 0: -3", &[0, 2, 1], 24),
        status("token 5: -3", &[5, 2, 1], 24),
        status("token 0xffffffff: -3", &[0xffff_ffff, 0, 3], 24),
        status("update-nodes with 3 inputs: -3", &[1, 3, 1], 28),
        status("update-nodes with 2 outputs: -3 in the first", &[1, 2, 2], 28),
        status("get-indices with 1 output: -3", &[2, 5, 1], 36),
        status("get-indices with 6 inputs: -3", &[2, 6, 2], 44),
        status("dump with 2 inputs: -3", &[3, 2, 1], 24),
        status("update-properties with 1 input: -3", &[4, 1, 1], 24),
        status("update-properties with 3 inputs: -3", &[4, 3, 1], 28),
        status("update-properties with 2 outputs: -3 in the first", &[4, 2, 2], 28),
        status("dump with 2 outputs: -3 in the first", &[3, 3, 2], 40),
    ];
    readings.push(long_buffer());
    readings.extend(no_registrations());
    readings
}

/// "A buffer longer than its declared size" keeps the bytes behind.
fn long_buffer() -> CallReading {
    let case = with(buffer(&[1, 2, 1, 0, 1, 7], 41));
    CallReading::new("update-nodes in a buffer of 41 bytes", case).outputs(&[0])
}

/// The library's number for something that is no registration, before anything else.
fn no_registrations() -> Vec<CallReading> {
    let given = |name: &str, args: Vec<u8>, phase: u32, length: u32| {
        let registration = Registration { phase, length, copy: [7; 512] };
        CallReading::new(name, CallCase { registration, ..with(args) }).number(13)
    };
    vec![
        given("phase 3: 13", buffer(&[1, 2, 1, 0, 1, 7], 24), 3, 0),
        given("length 513: 13", buffer(&[3, 3, 1, 2, 0, 0, 7], 28), 1, 513),
        given("phase 0xffffffff over no bytes: 13", Vec::new(), 0xffff_ffff, 0),
        given("length 0xffffffff over 17 inputs: 13", buffer(&[1, 17, 1], 12), 0, 0xffff_ffff),
    ]
}
