//! Calls that another firmware made, written as a trace and replayed.

use crate::disk::{Disk, File};
use crate::random::Random;
use crate::records::{records, trace};
use crate::session::{Platform, Session};
use draugsten::{args, Edition, RecordError, Replay, Report, TraceWriter};
use std::cell::RefCell;
use std::io::{ErrorKind, Write};
use std::rc::Rc;

const SESSIONS: u64 = 40;
const DEEDS: usize = 60;
const MEMORY: usize = 16_384;

fn session(seed: u64) -> (Random, Platform, Session) {
    let mut random = Random::new(2000 + seed);
    let platform = Platform::random(&mut random);
    let session = platform.record(&mut random, DEEDS);
    (random, platform, session)
}

/// Gives a writer all that the records of a trace tell: a call by its two buffers, a setting by its address and bytes.
fn tell<W: Write>(writer: &mut TraceWriter<W>, told: &[(u16, Vec<u8>)]) {
    for (place, (kind, body)) in told.iter().enumerate() {
        match kind {
            32 => writer.record(body, &told[place + 1].1).unwrap(),
            33 => {}
            _ => writer.set_memory(u32::from_le_bytes(body[..4].try_into().unwrap()), &body[4..]).unwrap(),
        }
    }
}

fn written(told: &[(u16, Vec<u8>)]) -> Vec<u8> {
    let mut bytes = vec![];
    let mut writer = TraceWriter::new(&mut bytes, MEMORY);
    tell(&mut writer, told);
    assert_eq!((writer.records() as usize, writer.is_whole()), (told.len(), true));
    bytes
}

fn replayed(platform: &Platform, trace: &[u8]) -> Report {
    let mut memory = platform.memory.clone();
    Replay::new(&mut memory, &platform.journal, &platform.inventory, platform.edition).read(trace).unwrap()
}

#[test]
fn a_firmware_that_answers_as_the_library_does_agrees() {
    for seed in 0..SESSIONS {
        let (_, platform, session) = session(seed);
        let bytes = written(&records(&session.trace));
        assert!(bytes == session.trace, "seed {seed}");
        assert_eq!(replayed(&platform, &bytes), Report::Agreed { calls: session.calls.len() as u32 });
    }
}

#[test]
fn a_firmware_that_answers_otherwise_differs_at_its_first_such_call() {
    for seed in 0..SESSIONS {
        let (mut random, platform, session) = session(seed);
        let mut told = records(&session.trace);
        let calls: Vec<usize> = (0..told.len()).filter(|place| told[*place].0 == 33).collect();
        let first = random.below(calls.len());
        let Some(offset) = told[calls[first]].1.len().checked_sub(1) else { continue };
        for place in &calls[first..] {
            told[*place].1.last_mut().into_iter().for_each(|byte| *byte ^= 1);
        }
        let expected = Report::Differs { call: first as u32 + 1, offset: offset as u32 };
        assert_eq!(replayed(&platform, &written(&told)), expected, "seed {seed}");
    }
}

/// What a replay says of one call over no buffers, which is refused with -3, where another firmware left this buffer.
fn report_of(after: &[u8]) -> String {
    let mut bytes = vec![];
    TraceWriter::new(&mut bytes, 0).record(&args::update_nodes(0, 1), after).unwrap();
    Replay::new(&mut [], &[], &[], Edition(0)).read(&bytes[..]).unwrap().to_string()
}

#[test]
fn buffers_of_two_lengths_differ() {
    let mut ours = args::update_nodes(0, 1);
    ours[20..].copy_from_slice(&(-3i32).to_be_bytes());
    assert_eq!(report_of(&ours), "agreed 1");
    for length in 0..ours.len() {
        assert_eq!(report_of(&ours[..length]), format!("differs call 1 at {length}"));
    }
    assert_eq!(report_of(&[&ours[..], &[0]].concat()), "differs call 1 at 24");
    assert_eq!(report_of(&[&ours[..], &[0; 4076]].concat()), "differs call 1 at 24");
}

/// A writer after something that no record holds: nothing is recorded, and it goes on.
fn refused(memory: usize, expected: &str, attempt: impl FnOnce(&mut TraceWriter<&mut Vec<u8>>) -> RecordError) {
    let mut bytes = vec![];
    let mut writer = TraceWriter::new(&mut bytes, memory);
    assert_eq!(attempt(&mut writer).to_string(), expected);
    assert_eq!((writer.records(), writer.is_whole()), (0, true));
    writer.record(&[], &[]).unwrap();
    assert_eq!(bytes, [2, 0, 32, 0, 2, 0, 33, 0]);
}

#[test]
fn a_buffer_that_no_record_holds_is_not_recorded() {
    let expected = "not done: an argument buffer of 4101 bytes; a record holds 4100";
    let (long, good) = ([7; 4101], [7; 4100]);
    refused(0, expected, |writer| writer.record(&long, &good).unwrap_err());
    refused(0, expected, |writer| writer.record(&good, &long).unwrap_err());
    refused(0, expected, |writer| writer.record(&long[..4100], &long).unwrap_err());
    let mut bytes = vec![];
    TraceWriter::new(&mut bytes, 0).record(&good, &good[..9]).unwrap();
    assert_eq!(records(&bytes), [(32, good.to_vec()), (33, good[..9].to_vec())]);
}

#[test]
fn bytes_past_the_end_of_memory_are_not_recorded() {
    let end = MEMORY as u32;
    for (address, length) in [(end, 1), (end - 1, 2), (0, end + 1), (u32::MAX, 1), (u32::MAX, 0), (end + 1, 0)] {
        let text = format!("not done: {length} bytes at address {address:#010x}, which do not lie inside memory");
        refused(MEMORY, &text, |writer| writer.set_memory(address, &vec![9; length as usize]).unwrap_err());
    }
    let text = "not done: 2 bytes at address 0xffffffff, which do not lie inside memory";
    refused(usize::MAX, text, |writer| writer.set_memory(u32::MAX, &[9; 2]).unwrap_err());
}

#[test]
fn bytes_are_recorded_up_to_the_end_of_memory() {
    let mut bytes = vec![];
    let mut writer = TraceWriter::new(&mut bytes, MEMORY);
    writer.set_memory(MEMORY as u32, &[]).unwrap();
    writer.set_memory(MEMORY as u32 - 4098, &[9; 4098]).unwrap();
    let bodies = [[&12286u32.to_le_bytes()[..], &[9; 4096]].concat(), [&16382u32.to_le_bytes()[..], &[9; 2]].concat()];
    assert_eq!(records(&bytes), bodies.map(|body| (34, body)));
    let mut bytes = vec![];
    TraceWriter::new(&mut bytes, usize::MAX).set_memory(u32::MAX, &[9]).unwrap();
    assert_eq!(records(&bytes), [(34, vec![0xff, 0xff, 0xff, 0xff, 9])]);
}

/// What another firmware did: it set bytes of three records, and none, and made two calls.
fn told() -> Vec<(u16, Vec<u8>)> {
    let setting = |address: u32, length| (34, [&address.to_le_bytes()[..], &vec![5; length]].concat());
    let call = |byte: u8| [(32, vec![byte; 24]), (33, vec![byte + 1; 24])];
    [&[setting(0, 4096), setting(4096, 4096), setting(8192, 808)], &call(1)[..], &call(3)].concat()
}

/// A deed of another firmware, recorded, and how many records the trace then has.
type Deed = (fn(&mut TraceWriter<File>) -> Result<(), RecordError>, u32);

const DID: [Deed; 4] = [
    (|writer| writer.set_memory(0, &[5; 9000]), 3),
    (|writer| writer.record(&[1; 24], &[2; 24]), 5),
    (|writer| writer.set_memory(0, &[]), 5),
    (|writer| writer.record(&[3; 24], &[4; 24]), 7),
];

/// Whatever the writer takes, each deed is recorded, and an error tells that its records, or earlier ones, wait.
fn do_all(writer: &mut TraceWriter<File>, disk: &Rc<RefCell<Disk>>) {
    for (deed, count) in DID {
        match deed(writer) {
            Ok(()) => assert!(writer.is_whole()),
            Err(RecordError::Unwritten { answer: None, error }) => {
                assert_eq!((error.kind(), writer.is_whole()), (ErrorKind::StorageFull, false));
                assert_eq!(disk.borrow().room, 0);
            }
            Err(error) => panic!("{error}"),
        }
        assert_eq!(writer.records(), count);
    }
}

#[test]
fn a_full_disk_loses_no_call_wherever_it_is_full() {
    let expected = trace(&told());
    for room in 0..expected.len() {
        let disk = Disk::with_room(room);
        let mut writer = TraceWriter::new(File(disk.clone()), MEMORY);
        do_all(&mut writer, &disk);
        assert!(disk.borrow().bytes == expected[..room], "room for {room}");
        assert_eq!(writer.flush().unwrap_err().kind(), ErrorKind::StorageFull);
        assert!(!disk.borrow().flushed);
        disk.borrow_mut().room = usize::MAX;
        writer.flush().unwrap();
        assert!(writer.is_whole() && disk.borrow().flushed);
        assert!(disk.borrow().bytes == expected, "room for {room}");
    }
}

#[test]
fn the_next_call_writes_what_waits() {
    let disk = Disk::with_room(100);
    let mut writer = TraceWriter::new(File(disk.clone()), MEMORY);
    do_all(&mut writer, &disk);
    disk.borrow_mut().room = usize::MAX;
    writer.record(&[6], &[7]).unwrap();
    let last = [(32, vec![6]), (33, vec![7])];
    assert!(disk.borrow().bytes == trace(&[&told()[..], &last].concat()));
}

#[test]
fn what_waits_is_handed_back() {
    let disk = Disk::with_room(100);
    let mut writer = TraceWriter::new(File(disk.clone()), MEMORY);
    do_all(&mut writer, &disk);
    let (_, unwritten) = writer.into_parts();
    assert!([&disk.borrow().bytes[..], &unwritten].concat() == trace(&told()));
    assert_eq!(disk.borrow().bytes.len(), 100);
}
