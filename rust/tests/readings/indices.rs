//! get-indices and the reader of index areas.

use crate::partition::Partition;
use draugsten::args::{self, Flag, IndexRequest, SUFFICIENT_SIZE};
use draugsten::{read_indices, Answer, Entry, Fault, ReadingRecord, Reason, Refusal, CODE_LIMIT};

/// The entry due of indicators of type 9006, from the start of memory, in the least area that always holds it.
pub const REQUEST: IndexRequest =
    IndexRequest { flag: Flag::Indicator, type_number: 9006, address: 0, size: SUFFICIENT_SIZE, starting_number: 1 };

/// A code of the most bytes.
const LONGEST: &[u8] = &[b'x'; CODE_LIMIT];

pub fn record(flag: Flag, type_number: u32, index: u32, code: &[u8]) -> Vec<u8> {
    let head = [12 + code.len() as u16, 16, flag as u16].into_iter().flat_map(u16::to_le_bytes);
    let numbers = [type_number, index].into_iter().flat_map(u32::to_le_bytes);
    head.chain(numbers).chain(code.iter().copied()).collect()
}

/// A partition with an indicator of type 9006 for each code, numbered from 0.
pub fn partition_of(codes: &[&[u8]]) -> Partition {
    let mut partition = Partition::new();
    partition.inventory = record(Flag::Sensor, 9006, 77, b"a sensor");
    for (index, code) in codes.iter().enumerate() {
        partition.inventory.extend(record(Flag::Indicator, 9006, index as u32, code));
    }
    partition
}

/// The answer, and the Next Starting Number, which is 0 where the call did not give it.
pub fn get_indices(partition: &mut Partition, request: &IndexRequest) -> (Result<Answer, Fault>, u32) {
    let mut args = args::get_indices(request);
    let answer = partition.call(&mut args);
    (answer, args::next_starting_number(&args))
}

/// The answer for one code in an area of so many bytes.
fn alone(code: &[u8], size: u32) -> Result<Answer, Fault> {
    get_indices(&mut partition_of(&[code]), &IndexRequest { size, ..REQUEST }).0
}

#[test]
fn a_code_of_three_bytes_takes_12() {
    assert_eq!(alone(b"abc", 16), Ok(Answer::Done));
    assert_eq!(alone(b"abc", 15), Err(Fault::Parameter));
}

#[test]
fn a_code_of_four_bytes_takes_16() {
    assert_eq!(alone(b"abcd", 20), Ok(Answer::Done));
    assert_eq!(alone(b"abcd", 19), Err(Fault::Parameter));
    assert_eq!(alone(b"abcd", 16), Err(Fault::Parameter));
}

#[test]
fn a_code_of_1023_bytes_takes_1032() {
    assert_eq!(alone(LONGEST, 1036), Ok(Answer::Done));
    assert_eq!(alone(LONGEST, 1035), Err(Fault::Parameter));
}

#[test]
fn a_code_has_1_to_1023_bytes() {
    for length in [1, 79, 80, 255, 256, 1022, 1023] {
        assert_eq!(alone(&vec![b'x'; length], 4096), Ok(Answer::Done), "{length}");
    }
    for length in [0, 1024, 1025, 2048] {
        assert_eq!(alone(&vec![b'x'; length], 4096), Err(Fault::Malformed), "{length}");
    }
}

#[test]
fn no_byte_of_a_code_is_zero() {
    for nul in [0, 1, 254, 255, 256, 511, 512, 1021, 1022] {
        let mut code = LONGEST.to_vec();
        code[nul] = 0;
        assert_eq!(alone(&code, 4096), Err(Fault::Malformed), "{nul}");
    }
}

#[test]
fn bytes_behind_the_entries_stay() {
    let mut partition = partition_of(&[b"abc"]);
    partition.memory.fill(0xff);
    assert_eq!(get_indices(&mut partition, &REQUEST), (Ok(Answer::Done), 1));
    assert_eq!(partition.memory[..16], *b"\0\0\0\x01\0\0\0\0\0\0\0\x04abc\0");
    assert!(partition.memory[16..].iter().all(|&byte| byte == 0xff));
}

#[test]
fn starting_numbers() {
    for starting_number in [0, 2, 0x80000000] {
        let mut partition = partition_of(&[b"abc"]);
        let request = IndexRequest { starting_number, ..REQUEST };
        assert_eq!(get_indices(&mut partition, &request), (Err(Fault::Parameter), 0));
        // The same where the record names this number.
        partition.reading = ReadingRecord { type_number: 9006, starting_number, ..ReadingRecord::none() };
        assert_eq!(get_indices(&mut partition, &request), (Err(Fault::Parameter), 0));
    }
}

#[test]
fn a_session_lists_every_entry_once() {
    // Areas of 92 bytes hold each of these; those of 1,036 hold any code, and four of these to the last byte.
    session(92, &[&[b'x'; 79], b"y", &[b'z'; 40], b"abcd", &[b'w'; 79]], &[1, 3, 1]);
    session(1036, &[LONGEST, LONGEST, b"y", &[b'z'; 500], &[b'w'; 480], b"abcd", LONGEST], &[1, 1, 4, 1]);
}

/// Runs a session over these codes with areas of this size: it lists them all, so many by each call.
fn session(size: u32, codes: &[&[u8]], entries_of_calls: &[usize]) {
    let mut partition = partition_of(codes);
    let mut request = IndexRequest { size, ..REQUEST };
    let mut calls = vec![];
    let mut listed: Vec<Vec<u8>> = vec![];
    loop {
        let (answer, next) = get_indices(&mut partition, &request);
        let entries = read_indices(&partition.memory[..size as usize]).unwrap();
        calls.push(entries.len());
        listed.extend(entries.iter().map(|entry| entry.code.to_vec()));
        request.starting_number = next;
        if answer == Ok(Answer::Done) {
            break;
        }
        assert_eq!((answer, next as usize), (Ok(Answer::CallAgain), listed.len() + 1));
    }
    assert_eq!(listed, codes);
    assert_eq!(calls, entries_of_calls);
    assert_eq!(request.starting_number, 1);
}

#[test]
fn index_areas_are_read() {
    let area = b"\0\0\0\x02\0\0\0\x05\0\0\0\x04abc\0\0\0\0\x06\0\0\0\x08abcd\0\0\0\0 not looked at";
    let entries = [Entry { index: 5, code: b"abc" }, Entry { index: 6, code: b"abcd" }];
    assert_eq!(read_indices(area).unwrap(), entries);
    assert_eq!(read_indices(&[0; 4]), Ok(vec![]));
    let longest = [b"\0\0\0\x01\0\0\0\x05\0\0\x04\0", LONGEST, b"\0"].concat();
    assert_eq!(read_indices(&longest).unwrap(), [Entry { index: 5, code: LONGEST }]);
}

#[test]
fn index_areas_are_refused() {
    let refused = |reason, offset| Err(Refusal { reason, offset });
    assert_eq!(read_indices(b"\0\0\0"), refused(Reason::NoCount, 0));
    assert_eq!(read_indices(b"\0\0\0\x01\0\0\0\x05\0\0\0"), refused(Reason::SetPastEnd, 4));
    assert_eq!(read_indices(b"\0\0\0\x01\0\0\0\x05\0\0\x04\0"), refused(Reason::SetPastEnd, 4));
    assert_eq!(read_indices(b"\0\0\0\x01\0\0\0\x05\0\0\x04\x04"), refused(Reason::CodeLength, 4));
    assert_eq!(read_indices(b"\0\0\0\x01\0\0\0\x05\0\0\0\x04abcd"), refused(Reason::Code, 4));
    let count_above_the_sets = b"\xff\xff\xff\xff\0\0\0\x05\0\0\0\x04abc\0";
    assert_eq!(read_indices(count_above_the_sets), refused(Reason::SetPastEnd, 16));
}
