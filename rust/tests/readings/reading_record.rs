//! The reading record: what a call of get-indices holds against it, and what each call makes of it.

use crate::indices::{get_indices, partition_of, record, REQUEST};
use crate::partition::{Partition, NODE_AREA};
use draugsten::args::{self, Command, Flag, IndexRequest};
use draugsten::{read_indices, Answer, Edition, Fault, Phase, ReadingRecord, Registration};

/// Five indicators, beside the one sensor. An area of 28 bytes holds two of them, one of 64 bytes all.
const FIVE: [&[u8]; 5] = [b"abc"; 5];

/// The edition of their inventory.
const EDITION: Edition = Edition(8);

/// A call that begins the reading of the five, and one that goes on with it.
const FIRST: IndexRequest = IndexRequest { size: 28, ..REQUEST };
const THIRD: IndexRequest = IndexRequest { starting_number: 3, ..FIRST };

/// The record that the first call leaves.
const BEGUN: ReadingRecord = ReadingRecord { flag: 0, type_number: 9006, starting_number: 3, edition: EDITION };

/// The same in the editions before and after it.
const EARLIER: ReadingRecord = ReadingRecord { edition: Edition(7), ..BEGUN };
const LATER: ReadingRecord = ReadingRecord { edition: Edition(9), ..BEGUN };

fn partition_with(reading: ReadingRecord) -> Partition {
    Partition { edition: EDITION, reading, ..partition_of(&FIVE) }
}

/// The answer of a call, and the record afterwards. A refused call leaves memory and the Next Starting Number.
fn step_in(partition: &mut Partition, request: &IndexRequest) -> (Result<Answer, Fault>, ReadingRecord) {
    let before = partition.memory.clone();
    let (answer, next) = get_indices(partition, request);
    assert!(answer.is_ok() || (next == 0 && partition.memory == before));
    (answer, partition.reading)
}

/// The same over the five, with this record.
fn step(reading: ReadingRecord, request: &IndexRequest) -> (Result<Answer, Fault>, ReadingRecord) {
    step_in(&mut partition_with(reading), request)
}

/// The same over an inventory that is malformed.
fn step_malformed(reading: ReadingRecord, request: &IndexRequest) -> (Result<Answer, Fault>, ReadingRecord) {
    let mut partition = partition_with(reading);
    partition.inventory.pop();
    partition.inventory.push(0);
    step_in(&mut partition, request)
}

/// What comes of a call that the record refuses: it is kept.
fn kept(reading: ReadingRecord) -> (Result<Answer, Fault>, ReadingRecord) {
    (Err(Fault::Parameter), reading)
}

/// What comes of a call in another edition: the record is cleared.
fn cleared() -> (Result<Answer, Fault>, ReadingRecord) {
    (Err(Fault::Changed), ReadingRecord::none())
}

#[test]
fn no_reading_is_in_progress_at_first() {
    let none = ReadingRecord { flag: 0, type_number: 0, starting_number: 1, edition: Edition(0) };
    assert_eq!(ReadingRecord::none(), none);
    assert_eq!(ReadingRecord::default(), none);
}

#[test]
fn the_record_names_the_first_entry_not_yet_handed_out() {
    let mut partition = partition_with(ReadingRecord::none());
    assert_eq!(step_in(&mut partition, &FIRST), (Ok(Answer::CallAgain), BEGUN));
    let fifth = ReadingRecord { starting_number: 5, ..BEGUN };
    assert_eq!(step_in(&mut partition, &THIRD), (Ok(Answer::CallAgain), fifth));
    let last = IndexRequest { starting_number: 5, ..FIRST };
    assert_eq!(step_in(&mut partition, &last), (Ok(Answer::Done), ReadingRecord::none()));
}

#[test]
fn the_same_number_with_another_flag_type_or_edition() {
    for reading in [ReadingRecord { flag: 1, ..BEGUN }, ReadingRecord { type_number: 9007, ..BEGUN }] {
        assert_eq!(step(reading, &THIRD), kept(reading));
    }
    for request in [IndexRequest { flag: Flag::Sensor, ..THIRD }, IndexRequest { type_number: 9007, ..THIRD }] {
        assert_eq!(step(BEGUN, &request), kept(BEGUN));
    }
    for reading in [EARLIER, LATER] {
        assert_eq!(step(reading, &THIRD), cleared());
    }
}

#[test]
fn another_number() {
    for starting_number in [0, 2, 4, u32::MAX] {
        let request = IndexRequest { starting_number, ..FIRST };
        assert_eq!(step(BEGUN, &request), kept(BEGUN));
        assert_eq!(step(ReadingRecord::none(), &request), kept(ReadingRecord::none()));
    }
    assert_eq!(step(ReadingRecord::none(), &THIRD), kept(ReadingRecord::none()));
}

#[test]
fn a_named_number_without_an_entry() {
    for starting_number in [0, 6, u32::MAX] {
        let request = IndexRequest { starting_number, ..FIRST };
        let reading = ReadingRecord { starting_number, ..BEGUN };
        assert_eq!(step(reading, &request), kept(reading));
        assert_eq!(step(ReadingRecord { edition: Edition(7), ..reading }, &request), cleared());
    }
}

#[test]
fn a_parameter_comes_before_the_edition() {
    for reading in [
        ReadingRecord { flag: 1, ..EARLIER },
        ReadingRecord { type_number: 9007, ..EARLIER },
        ReadingRecord { starting_number: 2, ..EARLIER },
    ] {
        assert_eq!(step(reading, &THIRD), kept(reading));
    }
    // A size under 4, an area past the end of memory, and a type that may not be asked for.
    assert_eq!(step(EARLIER, &IndexRequest { size: 3, ..THIRD }), kept(EARLIER));
    assert_eq!(step(EARLIER, &IndexRequest { address: 8165, ..THIRD }), kept(EARLIER));
    let unasked = ReadingRecord { type_number: 9003, ..EARLIER };
    assert_eq!(step(unasked, &IndexRequest { type_number: 9003, ..THIRD }), kept(unasked));
}

#[test]
fn an_entry_that_does_not_fit_comes_after_the_edition() {
    let narrow = IndexRequest { size: 15, ..THIRD };
    assert_eq!(step(BEGUN, &narrow), kept(BEGUN));
    assert_eq!(step(EARLIER, &narrow), cleared());
}

#[test]
fn a_malformed_inventory_comes_after_the_edition() {
    assert_eq!(step_malformed(EARLIER, &THIRD), cleared());
    assert_eq!(step_malformed(BEGUN, &THIRD), (Err(Fault::Malformed), BEGUN));
    let other = ReadingRecord { starting_number: 4, ..BEGUN };
    assert_eq!(step_malformed(other, &THIRD), kept(other));
}

#[test]
fn starting_number_1_begins_afresh() {
    let any = ReadingRecord { flag: u32::MAX, type_number: 7, starting_number: 0, edition: Edition(u32::MAX) };
    for reading in [ReadingRecord::none(), BEGUN, EARLIER, any] {
        assert_eq!(step(reading, &FIRST), (Ok(Answer::CallAgain), BEGUN));
    }
}

#[test]
fn starting_number_1_that_is_refused_keeps_the_record() {
    for reading in [BEGUN, EARLIER] {
        assert_eq!(step(reading, &IndexRequest { size: 15, ..FIRST }), kept(reading));
        assert_eq!(step(reading, &IndexRequest { type_number: 9007, ..FIRST }), kept(reading));
        assert_eq!(step_malformed(reading, &FIRST), (Err(Fault::Malformed), reading));
    }
}

#[test]
fn a_short_list_ends_another_reading() {
    let mut partition = partition_with(BEGUN);
    let sensor = IndexRequest { flag: Flag::Sensor, ..FIRST };
    assert_eq!(step_in(&mut partition, &sensor), (Ok(Answer::Done), ReadingRecord::none()));
    assert_eq!(step_in(&mut partition, &THIRD), kept(ReadingRecord::none()));
}

#[test]
fn the_edition_at_the_top() {
    let top = Edition(u32::MAX);
    assert_eq!(Edition(0).edited(), Some(Edition(1)));
    assert_eq!(Edition(u32::MAX - 1).edited(), Some(top));
    assert_eq!(top.edited(), None);

    let mut partition = partition_with(ReadingRecord { edition: top, ..BEGUN });
    partition.edition = top;
    let fifth = ReadingRecord { starting_number: 5, edition: top, ..BEGUN };
    assert_eq!(step_in(&mut partition, &THIRD), (Ok(Answer::CallAgain), fifth));
    partition.reading = ReadingRecord { edition: Edition(0), ..BEGUN };
    assert_eq!(step_in(&mut partition, &THIRD), cleared());
}

/// A partition whose journal has the deleted property "a" of node 7, whose memory begins with an area that asks for it,
/// and whose dump is active.
fn busy_partition(reading: ReadingRecord) -> Partition {
    let mut partition = partition_with(reading);
    partition.journal = vec![8, 0, 6, 0, 7, 0, 0, 0, b'a', 0];
    partition.memory[3] = 7;
    partition.registration = Registration::restore(Phase::Active as u32, 0, [0; 512]).unwrap();
    partition
}

#[test]
fn other_calls_keep_the_record() {
    let any = ReadingRecord { flag: 0x01020304, type_number: u32::MAX, starting_number: 0, edition: Edition(1 << 31) };
    for reading in [ReadingRecord::none(), BEGUN, EARLIER, any] {
        let mut partition = busy_partition(reading);
        let mut keeps = |args: &mut [u8], expected| {
            assert_eq!((partition.call(args), partition.reading), (expected, reading));
        };
        keeps(&mut args::update_nodes(NODE_AREA as u32, 1), Ok(Answer::Done));
        keeps(&mut args::update_nodes(NODE_AREA as u32, 0), Err(Fault::Parameter));
        keeps(&mut args::update_properties(0, 1), Ok(Answer::Done));
        keeps(&mut args::update_properties(0, 0), Err(Fault::Parameter));
        keeps(&mut args::configure_kernel_dump(Command::Unregister, 0, 0), Err(Fault::DumpActive));
        keeps(&mut args::configure_kernel_dump(Command::Complete, 0, 0), Ok(Answer::Done));
    }
}

#[test]
fn a_buffer_that_is_not_get_indices_own_keeps_the_record() {
    for (outputs, size, fault) in
        [(2, 39, Fault::Short), (0, 40, Fault::NoOutputs), (17, 40, Fault::TooMany), (1, 40, Fault::Parameter)]
    {
        let mut partition = partition_with(EARLIER);
        let mut args = args::get_indices(&THIRD);
        args[11] = outputs;
        assert_eq!((partition.call(&mut args[..size]), partition.reading), (Err(fault), EARLIER));
    }
}

/// Puts an indicator in front of the others.
fn edit(partition: &mut Partition, index: u32) {
    partition.edition = partition.edition.edited().unwrap();
    partition.inventory.splice(0..0, record(Flag::Indicator, 9006, index, b"new"));
}

#[test]
fn a_session_with_an_edit_in_the_middle() {
    let mut partition = partition_with(ReadingRecord::none());
    let mut request = FIRST;
    let (mut answers, mut listed) = (vec![], vec![]);
    for call in 1..=6 {
        if call == 3 {
            edit(&mut partition, 9);
        }
        let (answer, next) = get_indices(&mut partition, &request);
        answers.push(answer);
        if answer == Err(Fault::Changed) {
            listed.clear();
            request = FIRST;
            continue;
        }
        listed.extend(read_indices(&partition.memory[..28]).unwrap().iter().map(|entry| entry.index));
        request.starting_number = next;
    }
    let again = Ok(Answer::CallAgain);
    assert_eq!(answers, [again, again, Err(Fault::Changed), again, again, Ok(Answer::Done)]);
    assert_eq!(listed, [9, 0, 1, 2, 3, 4]);
    assert_eq!((partition.edition, partition.reading), (Edition(9), ReadingRecord::none()));
}
