//! The argument buffer: its numbers, and which bytes a call leaves.

use crate::partition::Partition;
use draugsten::{args, Answer, Fault};

/// An argument buffer of so many bytes, with a token and counts.
fn buffer(size: usize, token: u32, inputs: u32, outputs: u32) -> Vec<u8> {
    let head = [token, inputs, outputs].into_iter().flat_map(u32::to_be_bytes);
    head.chain(std::iter::repeat(0xee)).take(size).collect()
}

#[test]
fn numbers_leave_the_buffer() {
    let cases = [
        (buffer(0, 1, 2, 1), Fault::Short),
        (buffer(11, 1, 2, 1), Fault::Short),
        (buffer(12, 1, 17, 0), Fault::TooMany),
        (buffer(12, 1, 0, u32::MAX), Fault::TooMany),
        (buffer(12, 1, 1, 0), Fault::Short),
        (buffer(23, 1, 2, 1), Fault::Short),
        (buffer(16, 1, 1, 0), Fault::NoOutputs),
    ];
    for (before, fault) in cases {
        let mut args = before.clone();
        assert_eq!(Partition::new().call(&mut args), Err(fault));
        assert_eq!(args, before);
    }
}

#[test]
fn a_status_below_0_is_all_that_changes() {
    let before = buffer(144, 4, 16, 16);
    let mut args = before.clone();
    assert_eq!(Partition::new().call(&mut args), Err(Fault::Parameter));
    let mut expected = before;
    expected[76..80].copy_from_slice(&(-3i32).to_be_bytes());
    assert_eq!(args, expected);
}

#[test]
fn a_longer_buffer_keeps_its_end() {
    let mut args = args::update_nodes(4096, 1).to_vec();
    args.extend([0xee; 8]);
    assert_eq!(Partition::new().call(&mut args), Ok(Answer::Done));
    assert_eq!(args[20..], [0, 0, 0, 0, 0xee, 0xee, 0xee, 0xee, 0xee, 0xee, 0xee, 0xee]);
}
