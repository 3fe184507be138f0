//! What comes of writers and readers that fail, and of what cannot be recorded.

use crate::disk::{Disk, File};
use crate::records::records;
use draugsten::{args, Answer, Edition, Fault, RecordError, Recorder, Replay, Report};
use std::cell::RefCell;
use std::error::Error;
use std::io::{self, ErrorKind, Read, Write};
use std::rc::Rc;

/// What is done in these tests: three records are set, a call is answered, one is refused.
#[derive(Clone, Copy)]
enum Deed {
    Set,
    Call(i32),
}

/// What a call answers; a deed that is none answers nothing.
type Said = Option<Result<Answer, Fault>>;

const DEEDS: [Deed; 3] = [Deed::Set, Deed::Call(1), Deed::Call(0)];

/// A deed, with what its call answers.
fn run<W: Write>(recorder: &mut Recorder<'_, W>, deed: Deed) -> Result<Said, RecordError> {
    match deed {
        Deed::Set => recorder.set_memory(4096, &[0; 9000]).map(|()| None),
        Deed::Call(scope) => recorder.call(&mut args::update_nodes(4096, scope)).map(Some),
    }
}

/// Memory of ones, so that every deed but the last is seen in it.
fn memory() -> Vec<u8> {
    vec![1; 4 * 4096]
}

/// The trace where nothing fails, what the calls answer, and memory after each deed.
fn unhindered() -> (Vec<u8>, Vec<Said>, Vec<Vec<u8>>) {
    let (mut trace, mut memory) = (vec![], memory());
    let mut recorder = Recorder::new(&mut trace, &mut memory, &[], &[], Edition(0));
    let mut left = vec![];
    let answers = DEEDS.map(|deed| {
        let answer = run(&mut recorder, deed).unwrap();
        left.push(recorder.memory().to_vec());
        answer
    });
    (trace, answers.to_vec(), left)
}

#[test]
fn a_full_disk_loses_nothing_wherever_it_is_full() {
    let (trace, answers, left) = unhindered();
    assert_eq!(answers, [None, Some(Ok(Answer::Done)), Some(Err(Fault::Parameter))]);
    for room in 0..trace.len() {
        let disk = Disk::with_room(room);
        let mut memory = memory();
        let mut recorder = Recorder::new(File(disk.clone()), &mut memory, &[], &[], Edition(0));
        for (number, deed) in DEEDS.into_iter().enumerate() {
            match run(&mut recorder, deed) {
                Ok(answer) => assert_eq!((answer, recorder.is_whole()), (answers[number], true)),
                Err(RecordError::Unwritten { answer, error }) => {
                    assert_eq!((answer, error.kind()), (answers[number], ErrorKind::StorageFull));
                    assert!(recorder.memory() == left[number]);
                    stays_behind(&mut recorder, &disk);
                }
                Err(error) => panic!("{error}"),
            }
        }
        assert!(disk.borrow().bytes == trace, "room for {room}");
        assert_eq!(recorder.records(), 7);
    }
}

/// While the disk is full, nothing is done; then there is room, and what waited is written.
fn stays_behind(recorder: &mut Recorder<'_, File>, disk: &Rc<RefCell<Disk>>) {
    let (memory, records, written) = (recorder.memory().to_vec(), recorder.records(), disk.borrow().bytes.len());
    assert!(!recorder.is_whole());
    for deed in DEEDS {
        let error = run(recorder, deed).unwrap_err();
        assert!(matches!(error, RecordError::Behind(_)), "{error}");
    }
    assert_eq!(recorder.flush().unwrap_err().kind(), ErrorKind::StorageFull);
    assert!(recorder.memory() == memory);
    assert_eq!((recorder.records(), disk.borrow().bytes.len()), (records, written));
    disk.borrow_mut().room = usize::MAX;
    recorder.flush().unwrap();
    assert!(recorder.is_whole() && disk.borrow().flushed);
}

#[test]
fn what_waits_is_handed_back() {
    let (trace, ..) = unhindered();
    let disk = Disk::with_room(100);
    let mut memory = memory();
    let mut recorder = Recorder::new(File(disk.clone()), &mut memory, &[], &[], Edition(0));
    run(&mut recorder, Deed::Set).unwrap_err();
    let recorded = recorder.into_parts();
    let length = 3 * 8 + 9000;
    assert!([&disk.borrow().bytes[..], &recorded.unwritten].concat() == trace[..length]);
    assert_eq!(recorded.unwritten.len(), length - 100);
}

#[test]
fn a_writer_that_takes_nothing() {
    let mut memory = memory();
    let mut recorder = Recorder::new(&mut [][..], &mut memory, &[], &[], Edition(0));
    match recorder.call(&mut args::update_nodes(4097, 1)) {
        Err(RecordError::Unwritten { answer: Some(Err(Fault::Parameter)), error }) => {
            assert_eq!(error.kind(), ErrorKind::WriteZero);
        }
        other => panic!("{other:?}"),
    }
}

/// A recorder of a trace in memory, after something that cannot be recorded: nothing was done.
fn refused(expected: &str, attempt: impl FnOnce(&mut Recorder<'_, &mut Vec<u8>>) -> RecordError) {
    let (mut trace, mut memory) = (vec![], memory());
    let mut recorder = Recorder::new(&mut trace, &mut memory, &[], &[], Edition(0));
    assert_eq!(attempt(&mut recorder).to_string(), expected);
    assert_eq!((recorder.records(), recorder.is_whole()), (0, true));
    recorder.call(&mut []).unwrap().unwrap_err();
    assert_eq!(trace, [2, 0, 32, 0, 2, 0, 33, 0]);
    assert!(memory == self::memory());
}

#[test]
fn a_buffer_that_no_record_holds_is_not_called() {
    let mut args = [&args::update_nodes(4096, 1)[..], &[0xee; 4077]].concat();
    let before = args.clone();
    refused("not done: an argument buffer of 4101 bytes; a record holds 4100", |recorder| {
        recorder.call(&mut args).unwrap_err()
    });
    assert_eq!(args, before);

    let (mut trace, mut memory) = (vec![], memory());
    let mut recorder = Recorder::new(&mut trace, &mut memory, &[], &[], Edition(0));
    assert_eq!(recorder.call(&mut args[..4100]).unwrap(), Err(Fault::Parameter));
    assert_eq!(trace.len(), 2 * 4104);
}

#[test]
fn bytes_past_the_end_of_memory_are_not_set() {
    let end = 4 * 4096;
    for (address, length) in [(end, 1), (end - 1, 2), (0, end + 1), (u32::MAX, 1), (u32::MAX, 0), (end + 1, 0)] {
        let text = format!("not done: {length} bytes at address {address:#010x}, which do not lie inside memory");
        refused(&text, |recorder| recorder.set_memory(address, &vec![9; length as usize]).unwrap_err());
    }
}

#[test]
fn bytes_are_set_up_to_the_end_of_memory() {
    let (mut trace, mut memory) = (vec![], memory());
    let mut recorder = Recorder::new(&mut trace, &mut memory, &[], &[], Edition(0));
    recorder.set_memory(4 * 4096, &[]).unwrap();
    assert_eq!(recorder.records(), 0);
    recorder.set_memory(4 * 4096 - 4098, &[9; 4098]).unwrap();
    assert_eq!(memory[4 * 4096 - 4099..4 * 4096 - 4096], [1, 9, 9]);
    let bodies = [[&12286u32.to_le_bytes()[..], &[9; 4096]].concat(), [&16382u32.to_le_bytes()[..], &[9; 2]].concat()];
    assert_eq!(records(&trace), bodies.map(|body| (34, body)));
}

#[test]
fn errors_tell_what_was_done_and_why() {
    let full = || io::Error::from(ErrorKind::StorageFull);
    let behind = RecordError::Behind(full());
    let unwritten = RecordError::Unwritten { answer: None, error: full() };
    assert!(behind.to_string().starts_with("not done: the trace is not whole, earlier records cannot be written: "));
    assert!(unwritten.to_string().starts_with("done, but the trace is not whole, its records cannot be written: "));
    assert!(behind.source().is_some() && unwritten.source().is_some());
    assert!(RecordError::Full.source().is_none());
    assert_eq!(RecordError::Full.to_string(), "not done: the trace has no room after record 4294967295");
}

/// A reader that is interrupted before each read, and fails once behind so many bytes.
struct Line<'a> {
    bytes: &'a [u8],
    fails_behind: usize,
    failed: bool,
    interrupted: bool,
}

impl Read for Line<'_> {
    fn read(&mut self, to: &mut [u8]) -> io::Result<usize> {
        self.interrupted = !self.interrupted;
        if self.interrupted {
            return Err(ErrorKind::Interrupted.into());
        }
        if self.fails_behind == 0 && !self.failed {
            self.failed = true;
            return Err(ErrorKind::TimedOut.into());
        }
        let size = if self.failed { self.bytes.len() } else { self.fails_behind.min(700) };
        let size = self.bytes.read(&mut to[..size])?;
        self.fails_behind -= size.min(self.fails_behind);
        Ok(size)
    }
}

#[test]
fn a_read_that_fails_loses_nothing_wherever_it_fails() {
    let (trace, ..) = unhindered();
    for fails_behind in 0..=trace.len() {
        let mut line = Line { bytes: &trace, fails_behind, failed: false, interrupted: false };
        let mut memory = memory();
        let mut replay = Replay::new(&mut memory, &[], &[], Edition(0));
        assert_eq!(replay.read(&mut line).unwrap_err().kind(), ErrorKind::TimedOut);
        assert_eq!(replay.read(&mut line).unwrap(), Report::Agreed { calls: 2 });
        assert_eq!(replay.records(), 7);
    }
}
