//! A journal that arrives in bursts.

use crate::ffi::intakes as ffi;
use crate::tallies::TalliedJournal;
use crate::text::words;
use std::fmt;
use std::io::{self, ErrorKind, Write};

/// The bytes of the longest record, which an intake has to be able to hold.
pub const LONGEST_RECORD: usize = 32_808;

/// Why an intake takes nothing more. The record has its number in the stream, from 1 on.
#[derive(Clone, Copy, PartialEq, Eq, Debug)]
pub enum Refused {
    /// Number 50: a record is malformed. Its length and kind are judged when its first four bytes are in, the rest when it is
    /// complete.
    Malformed {
        /// Which record.
        record: u64,
    },
    /// Number 51: a good and complete record would pass the end of the journal's buffer, or 1,048,576 bytes.
    NoRoom {
        /// Which record.
        record: u64,
    },
}

impl Refused {
    fn of(number: u32, record: u64) -> Option<Refused> {
        match number {
            0 => None,
            50 => Some(Refused::Malformed { record }),
            51 => Some(Refused::NoRoom { record }),
            _ => unreachable!("the library gives no number {number} for what a start and bursts leave"),
        }
    }

    /// The number of the record.
    pub fn record(self) -> u64 {
        match self {
            Refused::Malformed { record } | Refused::NoRoom { record } => record,
        }
    }

    /// The library's number.
    pub fn number(self) -> u32 {
        match self {
            Refused::Malformed { .. } => 50,
            Refused::NoRoom { .. } => 51,
        }
    }
}

impl fmt::Display for Refused {
    fn fmt(&self, f: &mut fmt::Formatter<'_>) -> fmt::Result {
        write_refused(f, self.number(), self.record())
    }
}

/// What is told of a record that stops an intake, or that an end cuts off.
fn write_refused(f: &mut fmt::Formatter<'_>, number: u32, record: u64) -> fmt::Result {
    write!(f, "refused {number} at record {record}: {}", words("INTAKE_NUMBER", number as i32))
}

impl std::error::Error for Refused {}

/// The error of [`Write`], which holds the refusal: `InvalidData` for a malformed record, `StorageFull` for one without room.
impl From<Refused> for io::Error {
    fn from(refused: Refused) -> io::Error {
        let kind = match refused {
            Refused::Malformed { .. } => ErrorKind::InvalidData,
            Refused::NoRoom { .. } => ErrorKind::StorageFull,
        };
        io::Error::new(kind, refused)
    }
}

/// Why a stream that ends here is not whole.
#[derive(Clone, Copy, PartialEq, Eq, Debug)]
pub enum NotWhole {
    /// The intake had stopped before.
    Refused(Refused),
    /// Number 53: the end came inside a record.
    Unfinished {
        /// Which record.
        record: u64,
    },
}

impl fmt::Display for NotWhole {
    fn fmt(&self, f: &mut fmt::Formatter<'_>) -> fmt::Result {
        match self {
            NotWhole::Refused(refused) => refused.fmt(f),
            NotWhole::Unfinished { record } => write_refused(f, 53, *record),
        }
    }
}

impl std::error::Error for NotWhole {
    fn source(&self) -> Option<&(dyn std::error::Error + 'static)> {
        match self {
            NotWhole::Refused(refused) => Some(refused),
            NotWhole::Unfinished { .. } => None,
        }
    }
}

/// A journal that arrives in bursts, which may break anywhere. Each record goes to the journal when its last byte is in; the
/// bytes of one that is not finished are held. However a stream is cut, it comes to the same.
///
/// The first record that is refused stops an intake. The good ones before it are stored, also those of the same burst, and
/// every later burst is refused in the same way and changes nothing. Between bursts the journal may be appended to, joined to
/// and cleared, which leaves the held bytes, the number of the next record and the refusal as they are.
///
/// ```
/// use draugsten::{Intake, NotWhole, Refused, TalliedJournal};
///
/// let mut buffer = [0; 64];
/// let mut intake = Intake::new(TalliedJournal::new(&mut buffer));
///
/// // A node of type 11 was deleted, and one of type 3 updated. The bursts break inside both records.
/// let delete = [8, 0, 1, 0, 11, 0, 0x2a, 0, 0, 0];
/// let update = [8, 0, 2, 0, 3, 0, 0x2b, 0, 0, 0];
/// let stream = [delete, update].concat();
/// intake.burst(&stream[..3]).unwrap();
/// intake.burst(&stream[3..17]).unwrap();
/// assert_eq!((intake.journal().bytes(), intake.held()), (&delete[..], &update[..7]));
/// assert_eq!(intake.end(), Err(NotWhole::Unfinished { record: 2 }));
///
/// // The end changed nothing.
/// intake.burst(&stream[17..]).unwrap();
/// assert_eq!(intake.end(), Ok(()));
/// assert_eq!(intake.journal().tallies().first.updates, 1);
///
/// // A record of kind 7 stops it; the delete before that is stored.
/// let refused = Refused::Malformed { record: 4 };
/// assert_eq!(intake.burst(&[&delete[..], &[8, 0, 7, 0]].concat()), Err(refused));
/// assert_eq!(intake.burst(&delete), Err(refused));
/// assert_eq!(intake.end(), Err(NotWhole::Refused(refused)));
/// assert_eq!(intake.into_journal().used(), 30);
/// ```
///
/// It is also a writer, so that a stream can be copied into it. A `write` takes the bytes before the record that is refused,
/// and the next one gives the error; where no byte of a `write` comes before that record, it gives the error at once. A
/// `flush` is not an end: inside a record there is nothing to flush, and after a refusal it gives the error. Ask
/// [`end`](Intake::end) when the stream is over.
///
/// ```
/// use draugsten::{Intake, Refused, TalliedJournal};
/// use std::io::{self, ErrorKind, Write};
///
/// let delete = [8, 0, 1, 0, 11, 0, 0x2a, 0, 0, 0];
/// let mut buffer = [0; 25];
/// let mut intake = Intake::new(TalliedJournal::new(&mut buffer));
///
/// let two = delete.repeat(2);
/// assert_eq!(io::copy(&mut &two[..], &mut intake).unwrap(), 20);
/// assert_eq!(intake.end(), Ok(()));
///
/// // There is no room for a third.
/// let error = intake.write(&delete).unwrap_err();
/// assert_eq!(error.kind(), ErrorKind::StorageFull);
/// assert_eq!(error.downcast::<Refused>().unwrap(), Refused::NoRoom { record: 3 });
/// ```
#[derive(Debug)]
pub struct Intake<'a> {
    journal: TalliedJournal<'a>,
    store: Box<[u8]>,
    number: u64,
    held: usize,
    fault: u32,
}

impl<'a> Intake<'a> {
    /// An intake over a journal, which may hold records already: those of the stream are counted from 1.
    pub fn new(journal: TalliedJournal<'a>) -> Intake<'a> {
        let ffi::Intake { number, held, fault, .. } = ffi::start(journal.kept);
        Intake { journal, store: vec![0; LONGEST_RECORD].into_boxed_slice(), number, held, fault }
    }

    /// Takes the next bytes of the stream, none or more.
    pub fn burst(&mut self, bytes: &[u8]) -> Result<(), Refused> {
        let state = self.state();
        let ffi::Burst { number, in_record, intake } = ffi::burst(self.journal.buffer, &mut self.store, state, bytes);
        self.journal.kept = intake.journal;
        (self.number, self.held, self.fault) = (intake.number, intake.held, intake.fault);
        Refused::of(number, in_record).map_or(Ok(()), Err)
    }

    /// What there is to say if the stream ends here. It changes nothing: a later burst goes on where the record stopped.
    pub fn end(&self) -> Result<(), NotWhole> {
        let ffi::End { number, in_record } = ffi::end(self.journal.buffer, &self.store, self.state());
        match number {
            53 => Err(NotWhole::Unfinished { record: in_record }),
            _ => Refused::of(number, in_record).map_or(Ok(()), |refused| Err(NotWhole::Refused(refused))),
        }
    }

    /// The journal: the records that have arrived, and those that it held before.
    pub fn journal(&self) -> &TalliedJournal<'a> {
        &self.journal
    }

    /// The journal, for appends, joins and clears between bursts.
    pub fn journal_mut(&mut self) -> &mut TalliedJournal<'a> {
        &mut self.journal
    }

    /// The journal alone. Held bytes of a record that is not finished are lost.
    pub fn into_journal(self) -> TalliedJournal<'a> {
        self.journal
    }

    /// The bytes of the record that is not finished.
    pub fn held(&self) -> &[u8] {
        &self.store[..self.held]
    }

    /// The number of the record that the stream is inside, comes to, or was stopped by; it stays at 2^64 - 1.
    pub fn record(&self) -> u64 {
        self.number
    }

    /// Why it takes nothing more, where it has stopped.
    pub fn refused(&self) -> Option<Refused> {
        Refused::of(self.fault, self.number)
    }

    fn state(&self) -> ffi::Intake {
        ffi::Intake { journal: self.journal.kept, number: self.number, held: self.held, fault: self.fault }
    }
}

/// How many bytes of a burst come before the record that is refused in it. Records are stored whole and in order, the held
/// bytes at the front of the first. So where one was stored, the bytes stored are those held and then so many of the burst.
/// Where none was, the refused record is the first, and began with the held bytes or with the burst.
fn before_refused(held: usize, stored: usize) -> usize {
    stored.saturating_sub(held)
}

impl Write for Intake<'_> {
    fn write(&mut self, bytes: &[u8]) -> io::Result<usize> {
        let (held, used) = (self.held, self.journal.used());
        let Err(refused) = self.burst(bytes) else {
            return Ok(bytes.len());
        };
        match before_refused(held, self.journal.used() - used) {
            0 => Err(refused.into()),
            taken => Ok(taken),
        }
    }

    fn flush(&mut self) -> io::Result<()> {
        self.refused().map_or(Ok(()), |refused| Err(refused.into()))
    }
}
