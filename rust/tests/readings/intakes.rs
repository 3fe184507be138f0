//! A journal that arrives in bursts (M-109), by bursts and by writes.

use draugsten::{recount, Intake, NotWhole, Refused, TalliedJournal};
use std::io::{self, BufWriter, ErrorKind, Write};

/// Bytes of a journal's buffer.
const SIZE: usize = 64;

const DELETE: [u8; 10] = [8, 0, 1, 0, 10, 0, 7, 0, 0, 0];
const ADDITION: [u8; 14] = [12, 0, 3, 0, 10, 0, 7, 0, 0, 0, 8, 0, 0, 0];
const DELETED: [u8; 10] = [8, 0, 6, 0, 7, 0, 0, 0, b'a', 0];
/// Complete, of a node type that there is not.
const WRONG_TYPE: [u8; 10] = [8, 0, 1, 0, 15, 0, 7, 0, 0, 0];
/// Refused at its fourth byte.
const KIND_7: [u8; 4] = [8, 0, 7, 0];

fn value(length: usize) -> Vec<u8> {
    let mut record = (8 + length as u16).to_le_bytes().to_vec();
    record.extend(b"\x05\0\x01\0\0\0a\0");
    record.extend(vec![1; length]);
    record
}

/// A stream as these tests make them: good records, then what ends it. How many bytes of it a buffer takes, and how many
/// records come before the one that does not fit or that `last` is.
struct Stream {
    bytes: Vec<u8>,
    taken: usize,
    number: u64,
    refused: Option<Refused>,
    whole: bool,
}

/// What ends a stream.
#[derive(Clone, Copy, PartialEq)]
enum Last {
    Nothing,
    Malformed(&'static [u8]),
    CutOff(&'static [u8]),
}

fn stream(records: &[&[u8]], last: Last, size: usize) -> Stream {
    let (mut taken, mut number) = (0, 1);
    let fits = records.iter().take_while(|record| {
        let fits = taken + record.len() <= size;
        (taken, number) = (taken + if fits { record.len() } else { 0 }, number + u64::from(fits));
        fits
    });
    let stored = fits.count();
    let tail = match last {
        Last::Nothing => &[],
        Last::Malformed(bytes) | Last::CutOff(bytes) => bytes,
    };
    let refused = match last {
        _ if stored < records.len() => Some(Refused::NoRoom { record: number }),
        Last::Malformed(_) => Some(Refused::Malformed { record: number }),
        _ => None,
    };
    let whole = refused.is_none() && !matches!(last, Last::CutOff(_));
    Stream { bytes: [&records.concat(), tail].concat(), taken, number, refused, whole }
}

impl Stream {
    fn end(&self) -> Result<(), NotWhole> {
        match self.refused {
            Some(refused) => Err(NotWhole::Refused(refused)),
            None if self.whole => Ok(()),
            None => Err(NotWhole::Unfinished { record: self.number }),
        }
    }

    /// What is left once all of it has arrived.
    fn expect_left(&self, intake: &Intake) {
        assert_eq!(intake.journal().bytes(), &self.bytes[..self.taken]);
        assert_eq!(recount(intake.journal().bytes()), Ok(intake.journal().tallies()));
        assert_eq!((intake.record(), intake.refused(), intake.end()), (self.number, self.refused, self.end()));
        let held = if self.refused.is_some() { &[] } else { &self.bytes[self.taken..] };
        assert_eq!(intake.held(), held);
    }
}

/// Streams that end in every way, each with the size of its buffer.
fn streams() -> Vec<(Stream, usize)> {
    let lists: [&[&[u8]]; 4] = [&[], &[&DELETE], &[&DELETED, &ADDITION], &[&DELETE, &DELETED, &DELETE]];
    let ends = [
        Last::Nothing,
        Last::Malformed(&WRONG_TYPE),
        Last::Malformed(&KIND_7),
        Last::Malformed(&[1, 0, 1, 0, 9, 9]),
        Last::CutOff(&[0, 0, 1]),
        Last::CutOff(&DELETE[..9]),
    ];
    let mut streams = Vec::new();
    for records in lists {
        for last in ends {
            streams.push((stream(records, last, SIZE), SIZE));
        }
        let size = records.concat().len().saturating_sub(1);
        streams.push((stream(records, Last::Nothing, size), size));
    }
    streams
}

/// The bytes between three cuts, in order.
fn parts(bytes: &[u8], [first, second]: [usize; 2]) -> [&[u8]; 3] {
    [&bytes[..first], &bytes[first..second], &bytes[second..]]
}

/// Every cutting of a stream in three.
fn cuttings(length: usize) -> impl Iterator<Item = [usize; 2]> {
    (0..=length).flat_map(move |first| (first..=length).map(move |second| [first, second]))
}

#[test]
fn every_cutting_in_three_comes_to_the_same() {
    for (stream, size) in streams() {
        for cutting in cuttings(stream.bytes.len()) {
            let mut buffer = [0x5a; SIZE];
            let mut intake = Intake::new(TalliedJournal::new(&mut buffer[..size]));
            let mut told = Ok(());
            for part in parts(&stream.bytes, cutting) {
                told = intake.burst(part);
            }
            assert_eq!(told.err(), stream.refused, "{:?} {cutting:?}", stream.bytes);
            stream.expect_left(&intake);
            assert!(buffer[stream.taken..].iter().all(|&byte| byte == 0x5a));
        }
    }
}

/// What a write of the bytes from a place on has to give: those before the refused record, or its refusal at once.
fn expect_write(stream: &Stream, from: usize, part: &[u8], told: io::Result<usize>, stopped: bool) {
    let Some(refused) = stream.refused.filter(|_| stopped) else {
        assert_eq!(told.unwrap(), part.len());
        return;
    };
    match stream.taken.saturating_sub(from) {
        0 => assert_eq!(told.unwrap_err().downcast::<Refused>().unwrap(), refused),
        before => assert_eq!(told.unwrap(), before),
    }
}

#[test]
fn a_write_takes_the_bytes_before_the_refused_record() {
    for (stream, size) in streams() {
        for cutting in cuttings(stream.bytes.len()) {
            let mut buffer = [0x5a; SIZE];
            let mut intake = Intake::new(TalliedJournal::new(&mut buffer[..size]));
            let mut from = 0;
            for part in parts(&stream.bytes, cutting) {
                let told = intake.write(part);
                let stopped = intake.refused().is_some();
                expect_write(&stream, from, part, told, stopped);
                assert_eq!(intake.flush().is_err(), stopped);
                if stopped {
                    assert_eq!(intake.write(part).unwrap_err().downcast::<Refused>().ok(), stream.refused);
                    break;
                }
                from += part.len();
            }
            stream.expect_left(&intake);
        }
    }
}

#[test]
fn a_stream_is_copied_in() {
    for (stream, size) in streams() {
        let mut buffer = [0; SIZE];
        let mut intake = Intake::new(TalliedJournal::new(&mut buffer[..size]));
        let copied = io::copy(&mut &stream.bytes[..], &mut intake);
        match stream.refused {
            None => assert_eq!(copied.unwrap(), stream.bytes.len() as u64),
            Some(refused) => assert_eq!(copied.unwrap_err().downcast::<Refused>().unwrap(), refused),
        }
        stream.expect_left(&intake);
        let mut again = [0; SIZE];
        let mut writer = BufWriter::with_capacity(7, Intake::new(TalliedJournal::new(&mut again[..size])));
        let written = stream.bytes.chunks(3).try_for_each(|part| writer.write_all(part)).and_then(|()| writer.flush());
        assert_eq!(written.err().map(|error| error.downcast::<Refused>().unwrap()), stream.refused);
    }
}

#[test]
fn errors_of_a_write() {
    let mut buffer = [0; 15];
    let mut intake = Intake::new(TalliedJournal::new(&mut buffer));
    assert_eq!(intake.write(&[DELETE, DELETE].concat()).unwrap(), 10);
    let error = intake.write(&[]).unwrap_err();
    assert_eq!((error.kind(), error.to_string().contains("record 2")), (ErrorKind::StorageFull, true));
    let mut buffer = [0; 15];
    let mut intake = Intake::new(TalliedJournal::new(&mut buffer));
    assert_eq!(intake.write(&WRONG_TYPE[..9]).unwrap(), 9);
    assert_eq!(intake.write(&WRONG_TYPE[9..]).unwrap_err().kind(), ErrorKind::InvalidData);
    assert_eq!(intake.flush().unwrap_err().kind(), ErrorKind::InvalidData);
    assert_eq!(Refused::Malformed { record: 1 }.number(), 50);
    assert_eq!((Refused::NoRoom { record: 9 }.number(), Refused::NoRoom { record: 9 }.record()), (51, 9));
}

/// An append between does not count among the stream's records, and what is stored of it is no part of a write.
#[test]
fn the_journal_changes_between_bursts() {
    let mut buffer = [0; SIZE];
    let mut intake = Intake::new(TalliedJournal::new(&mut buffer));
    assert_eq!(intake.write(&[&DELETE[..], &ADDITION[..5]].concat()).unwrap(), 15);
    intake.journal_mut().append(&DELETED).unwrap();
    intake.journal_mut().join(&DELETE).unwrap();
    assert_eq!((intake.held(), intake.record()), (&ADDITION[..5], 2));
    assert_eq!(intake.write(&[&ADDITION[5..], &DELETE[..], &KIND_7].concat()).unwrap(), 19);
    assert_eq!(intake.refused(), Some(Refused::Malformed { record: 4 }));
    let stored = [&DELETE[..], &DELETED, &DELETE, &ADDITION, &DELETE].concat();
    assert_eq!(intake.journal().bytes(), stored);
    intake.journal_mut().clear();
    assert_eq!(intake.burst(&DELETE), Err(Refused::Malformed { record: 4 }));
    let mut journal = intake.into_journal();
    assert_eq!((journal.used(), journal.append(&DELETE)), (0, Ok(())));
}

#[test]
fn a_held_record_outlives_a_clear() {
    let mut buffer = [0; 10];
    let mut intake = Intake::new(TalliedJournal::new(&mut buffer));
    assert_eq!(intake.burst(&[&DELETE[..], &DELETED[..9]].concat()), Ok(()));
    intake.journal_mut().clear();
    assert_eq!(intake.burst(&DELETED[9..]), Ok(()));
    assert_eq!((intake.journal().bytes(), intake.record()), (&DELETED[..], 3));
}

#[test]
fn the_longest_record_in_single_bytes() {
    let record = [value(32_767), value(32_768), value(0)].concat();
    let mut buffer = vec![0; record.len()];
    let mut intake = Intake::new(TalliedJournal::new(&mut buffer));
    assert!(record.iter().all(|&byte| intake.burst(&[byte]).is_ok()));
    assert_eq!((intake.end(), intake.record()), (Ok(()), 4));
    assert_eq!(buffer, record);
}
