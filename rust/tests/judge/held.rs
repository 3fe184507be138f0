//! The judge and the library call the same buffers well formed, and name the same record.

use crate::judge::{judge_inventory, judge_journal, Flaw};
use crate::made::{buffer, change, entry, with_head};
use crate::random::Random;
use crate::records::{record, records};
use draugsten::args::{get_indices, Flag, IndexRequest};
use draugsten::{
    call, recount, Edition, Fault, Intake, NotWhole, ReadingRecord, Refused, Registration, TalliedJournal,
};

const LIMIT: usize = 1_048_576;

/// Whether the library takes a journal.
fn is_journal(bytes: &[u8]) -> bool {
    recount(bytes).is_ok()
}

/// Whether a get-indices call does not find the inventory malformed.
fn is_inventory(bytes: &[u8]) -> bool {
    let request = IndexRequest { flag: Flag::Sensor, type_number: 9006, address: 0, size: 2048, starting_number: 1 };
    let (mut args, mut memory) = (get_indices(&request), [0; 2048]);
    let (mut registration, mut reading) = (Registration::none(), ReadingRecord::none());
    let answer = call(&mut args, &mut memory, &[], bytes, Edition(0), &mut registration, &mut reading);
    answer != Err(Fault::Malformed)
}

/// The number of the record at which the library stops taking a journal in.
fn stopped_at(bytes: &[u8]) -> Option<u64> {
    let mut journal = vec![0; LIMIT];
    let mut intake = Intake::new(TalliedJournal::new(&mut journal));
    _ = intake.burst(bytes);
    match intake.end() {
        Ok(()) => None,
        Err(NotWhole::Unfinished { record }) => Some(record),
        Err(NotWhole::Refused(Refused::Malformed { record } | Refused::NoRoom { record })) => Some(record),
    }
}

/// Holds a flaw to the library: all before it is well formed, and the record that starts there is not, or passes the limit.
fn hold_flaw(flaw: &Flaw, bytes: &[u8], is_good: fn(&[u8]) -> bool) {
    let (before, rest) = bytes.split_at(flaw.offset as usize);
    assert!(is_good(before) && flaw.record == 1 + records(before).len() as u64, "{flaw}");
    let length = rest.get(..2).map_or(0, |pair| usize::from(u16::from_le_bytes([pair[0], pair[1]])));
    let alone = &rest[..rest.len().min(2 + length)];
    assert!(!is_good(alone) || before.len() + alone.len() > LIMIT, "{flaw}");
}

fn hold_journal(bytes: &[u8]) -> bool {
    let judged = judge_journal(bytes);
    assert_eq!(judged.is_ok(), is_journal(bytes), "{judged:?} of {:?}", &bytes[..bytes.len().min(200)]);
    assert_eq!(judged.as_ref().err().map(|flaw| flaw.record), stopped_at(bytes));
    judged.as_ref().inspect_err(|flaw| hold_flaw(flaw, bytes, is_journal)).is_ok()
}

fn hold_inventory(bytes: &[u8]) -> bool {
    let judged = judge_inventory(bytes);
    assert_eq!(judged.is_ok(), is_inventory(bytes), "{judged:?} of {:?}", &bytes[..bytes.len().min(200)]);
    judged.as_ref().inspect_err(|flaw| hold_flaw(flaw, bytes, is_inventory)).is_ok()
}

#[test]
fn over_many_made_buffers() {
    let mut random = Random::new(7);
    let (mut journals, mut inventories) = (0, 0);
    for _ in 0..20_000 {
        journals += u32::from(hold_journal(&buffer(&mut random, change)));
        inventories += u32::from(hold_inventory(&buffer(&mut random, entry)));
    }
    for good in [journals, inventories] {
        assert!((4_000..16_000).contains(&good), "{good} of 20000 are good, so one side is hardly looked at");
    }
}

#[test]
fn over_each_kind_and_length() {
    let lengths = || (0..60).chain([1034, 1035, 1036, 32_805, 32_806, 32_807, 65_535]);
    let mut good = vec![];
    for kind in (0..40).chain([256, 257, 512, 4096, 65_535]) {
        for length in lengths() {
            let bytes = with_head(kind, length);
            good.extend(hold_journal(&bytes).then_some((kind, length)));
            good.extend(hold_inventory(&bytes).then_some((kind, length)));
        }
    }
    let of = |kind: u16| good.iter().filter(|found| found.0 == kind).map(|found| found.1).collect::<Vec<u16>>();
    assert_eq!([of(1), of(2), of(3), of(4)], [vec![8], vec![8], vec![12], vec![16]]);
    assert_eq!((of(5).first(), of(5).last(), of(6)), (Some(&8), Some(&32_806), (8..39).collect()));
    assert_eq!((of(16).first(), of(16).last(), of(7)), (Some(&13), Some(&1035), vec![]));
}

#[test]
fn over_each_node_type_and_flag() {
    for number in (0..20).chain([256, 257, 65_535]) {
        let number = u16::to_le_bytes(number);
        for (kind, operands) in [(1, 4), (2, 4), (3, 8), (4, 12)] {
            hold_journal(&record(kind, &[&number[..], &vec![0; operands]].concat()));
        }
        hold_inventory(&record(16, &[&number[..], &[0; 8], b"code"].concat()));
    }
}

#[test]
fn over_names_and_values_on_both_sides_of_the_limits() {
    for name in [0, 1, 30, 31, 32, 33] {
        for value in [0, 1, 32_767, 32_768, 32_769] {
            let head = [&[7; 4][..], &vec![b'n'; name], &[0]].concat();
            let good = hold_journal(&record(5, &[&head[..], &vec![0; value]].concat()));
            assert_eq!(good, (1..=31).contains(&name) && value <= 32_768, "{name} {value}");
            assert_eq!(hold_journal(&record(6, &head)), (1..=31).contains(&name));
            assert!(!hold_journal(&record(6, &[&head[..], &[1]].concat())));
            assert!(!hold_journal(&record(5, &head[..head.len() - 1])));
        }
    }
}

/// Good records that fill so many bytes.
fn filled(size: usize, record_of: fn(usize) -> Vec<u8>, longest: usize) -> Vec<u8> {
    let mut bytes = vec![];
    while size - bytes.len() > 2 * longest {
        bytes.extend(record_of(longest));
    }
    let half = (size - bytes.len()) / 2;
    bytes.extend(record_of(half));
    bytes.extend(record_of(size - bytes.len()));
    assert_eq!(bytes.len(), size);
    bytes
}

fn property_of(size: usize) -> Vec<u8> {
    record(5, &[b"\x01\0\0\0a\0", &vec![0; size - 10][..]].concat())
}

fn entry_of(size: usize) -> Vec<u8> {
    record(16, &[&[0; 10][..], &vec![b'U'; size - 14]].concat())
}

#[test]
fn over_buffers_at_the_limit() {
    for size in LIMIT - 2..LIMIT + 12 {
        let (journal, inventory) = (filled(size, property_of, 32_778), filled(size, entry_of, 1037));
        assert_eq!(hold_journal(&journal), size <= LIMIT, "{size}");
        assert_eq!(hold_inventory(&inventory), size <= LIMIT, "{size}");
        for rest in 1..8 {
            assert!(!hold_journal(&[&journal[..], &property_of(10)[..rest]].concat()));
            assert!(!hold_inventory(&[&inventory[..], &entry_of(15)[..rest]].concat()));
        }
    }
}

/// Of a file that is too long, no more may have been read than shows that.
#[test]
fn the_flaw_of_a_long_buffer_is_that_of_its_front() {
    for size in LIMIT + 1..LIMIT + 40 {
        let (journal, inventory) = (filled(size, property_of, 32_778), filled(size, entry_of, 1037));
        assert_eq!(judge_journal(&journal), judge_journal(&journal[..LIMIT + 1]));
        assert_eq!(judge_inventory(&inventory), judge_inventory(&inventory[..LIMIT + 1]));
        assert!(judge_journal(&journal).unwrap_err().what.contains("passes byte 1048576"));
    }
}
