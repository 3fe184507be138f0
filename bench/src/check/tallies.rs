//! The sides that keep a journal with its tallies.

use crate::interface::LIMIT;
use crate::journal;
use crate::plain::tallies as plain;
use crate::tallies::{records, Journal, Keeper, Kept, Operation, Recount, Tallied, Tallies, INDEPENDENT, PROVED};

/// The bytes of a buffer that the records of a journal fill several times.
const SIZE: usize = 15_001;

/// Appends, joins and recounts by Rust, by the independent program and by the library: every number, tally and byte is the
/// same, what is refused changes nothing, and the recount is what is kept.
pub fn tallies() {
    let nodes = journal::four_kinds(100_000);
    let journal = [nodes.as_slice(), &journal::one_property(100)].concat();
    appends(&journal);
    joins(&journal);
    for journal in [journal::four_kinds(LIMIT), journal::properties(100), journal::uniform(LIMIT), journal] {
        recounts(&journal);
    }
}

/// Appends each record, and what is cut off or too long; clears where there is no room.
fn appends(journal: &[u8]) {
    let (mut rust, mut proved) = (plain::Journal::new(SIZE), Journal::new(SIZE));
    for record in records(journal) {
        let longer = [record, &[0]].concat();
        for bytes in [&record[1..], &record[..record.len() - 1], &longer, &[], record] {
            let number = append(&mut rust, &mut proved, bytes);
            if bytes != record {
                assert_eq!(number, 50, "what is no record");
            } else if number == 51 {
                rust.clear();
                proved.clear();
                assert_eq!(append(&mut rust, &mut proved, record), 0);
            }
        }
    }
    let recount = (PROVED.recount)(&proved.buffer[..proved.kept.used]);
    assert_eq!(recount, Recount { number: 0, tallies: proved.kept.tallies });
}

/// The number of an append that leaves the same on all sides.
fn append(rust: &mut plain::Journal, proved: &mut Journal, record: &[u8]) -> u32 {
    let told = apply(INDEPENDENT.append, &proved.buffer, proved.kept, record);
    let number = proved.append(record);
    assert_eq!((number, proved.kept), (told.0.number, told.0.journal), "what is kept differs");
    assert_eq!((number, rust.append(record)), (told.0.number, told.0.number), "the numbers differ");
    assert_eq!((rust.used, rust.tallies), (proved.kept.used, proved.kept.tallies), "what is kept differs");
    assert!(proved.buffer == told.1 && rust.buffer == told.1, "the buffers differ");
    number
}

/// What an operation gives, and the buffer that it leaves.
fn apply(operation: Operation, buffer: &[u8], kept: Tallied, bytes: &[u8]) -> (Kept, Vec<u8>) {
    let mut own = buffer.to_vec();
    (operation(&mut own, kept, bytes), own)
}

/// The halves of a journal, joined, in a buffer of the right size and in one that is a byte short.
fn joins(journal: &[u8]) {
    let half = records(journal).iter().take(1000).map(|record| record.len()).sum();
    let (first, second) = journal.split_at(half);
    for size in [journal.len(), journal.len() - 1] {
        let (mut rust, mut proved) = (plain::Journal::new(size), Journal::new(size));
        for part in [first, second, &second[1..], &[]] {
            let told = apply(INDEPENDENT.join, &proved.buffer, proved.kept, part);
            let number = proved.join(part);
            assert_eq!((number, proved.kept), (told.0.number, told.0.journal), "what is kept differs");
            assert_eq!((rust.join(part), rust.used, rust.tallies), (number, proved.kept.used, proved.kept.tallies));
            assert!(proved.buffer == told.1 && rust.buffer == told.1, "the buffers differ");
        }
        assert_eq!(proved.kept.used, if size == journal.len() { size } else { half });
    }
}

/// The recount of a journal, and of one that is short of a byte or has one too many.
fn recounts(journal: &[u8]) {
    let longer = [journal, &[8]].concat();
    for bytes in [journal, &journal[..journal.len() - 1], &longer] {
        let told = (PROVED.recount)(bytes);
        assert_eq!(told, (INDEPENDENT.recount)(bytes));
        let rust = plain::recount(bytes);
        assert_eq!((told.number == 0, told.tallies), (rust.is_some(), rust.unwrap_or(Tallies::ZERO)));
    }
}
