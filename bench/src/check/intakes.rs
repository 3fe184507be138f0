//! The sides that take a journal in bursts.

use crate::intakes::{Received, Receiver, INDEPENDENT, PROVED};
use crate::journal;
use crate::plain::intakes as plain;
use crate::random::Xorshift;
use crate::rows::intakes::{journals, BURSTS};

/// A stream that single bytes come of is cut off here: the independent program goes over what is held with each of them.
const SHORT: usize = 20_000;

/// Journals in bursts by Rust, by the independent program and by the library: every number, tally and byte is the same. So
/// it is of journals that are damaged, that are cut off, and that find too little room.
pub fn intakes() {
    for (_, journal) in journals() {
        for burst in BURSTS {
            arrive(&journal, burst, journal.len());
        }
        arrive(&journal, 4_096, journal.len() - 1);
        arrive(&journal[..journal.len() - 1], 64, journal.len());
    }
    let nodes = journal::four_kinds(2_000);
    let mixed = [nodes.as_slice(), &journal::one_property(100), &nodes].concat();
    let mut random = Xorshift::new();
    for _ in 0..2_000 {
        let mut damaged = mixed.clone();
        let at = usize::from(random.below(damaged.len() as u64));
        damaged[at] ^= 1 << random.below(8);
        let burst = 1 + usize::from(random.below(200));
        arrive(&damaged, burst, damaged.len() - usize::from(random.below(30)));
    }
}

/// One stream on all sides, in a buffer of so many bytes; what it leaves is looked at behind a burst here and there.
fn arrive(stream: &[u8], burst: usize, size: usize) {
    let stream = if burst < 64 { &stream[..stream.len().min(SHORT)] } else { stream };
    let (mut rust, mut proved) = (plain::Received::new(size), Received::new(&PROVED, size));
    let mut told = Received::new(&INDEPENDENT, size);
    for (place, bytes) in stream.chunks(burst).enumerate() {
        let numbers = [rust.burst(bytes), proved.burst(bytes), told.burst(bytes)];
        assert!(numbers == [numbers[2]; 3], "the numbers differ: {numbers:?}");
        if place % 64 == 0 {
            assert_eq!(proved.left(), told.left(), "what is left differs");
        }
    }
    assert_eq!((rust.left(), proved.left()), (told.left(), told.left()), "what is left differs");
    assert!(proved.buffer() == told.buffer() && rust.buffer() == told.buffer(), "the buffers differ");
}
