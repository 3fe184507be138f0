//! A journal that is kept with its tallies, and forecasts from them.

use crate::ffi::tallies as ffi;
use crate::text::words;
use std::fmt;

/// How many operations of each opcode a scope holds.
#[derive(Clone, Copy, PartialEq, Eq, Debug, Default)]
pub struct Tally {
    /// Deletes.
    pub deletes: u64,
    /// Updates.
    pub updates: u64,
    /// Additions.
    pub additions: u64,
}

impl Tally {
    fn of(flat: ffi::Tally) -> Tally {
        let ffi::Tally { deletes, updates, additions } = flat;
        Tally { deletes, updates, additions }
    }

    fn flat(self) -> ffi::Tally {
        let Tally { deletes, updates, additions } = self;
        ffi::Tally { deletes, updates, additions }
    }
}

/// How many operations the scopes of a journal hold. Records of kind 4 are updates of scope 3 alone, and those of kinds 5
/// and 6 are counted nowhere.
#[derive(Clone, Copy, PartialEq, Eq, Debug, Default)]
pub struct Tallies {
    /// Any negative scope.
    pub negative: Tally,
    /// Scope 1.
    pub first: Tally,
    /// Scope 2.
    pub second: Tally,
    /// Scope 3, all units together.
    pub third: Tally,
}

impl Tallies {
    /// The tally of a scope; none, where there is no such scope.
    pub fn of_scope(&self, scope: i32) -> Option<Tally> {
        match scope {
            i32::MIN..=-1 => Some(self.negative),
            1 => Some(self.first),
            2 => Some(self.second),
            3 => Some(self.third),
            _ => None,
        }
    }

    fn of(flat: ffi::Tallies) -> Tallies {
        let ffi::Tallies { negative, first, second, third } = flat;
        let [negative, first, second, third] = [negative, first, second, third].map(Tally::of);
        Tallies { negative, first, second, third }
    }

    fn flat(self) -> ffi::Tallies {
        let Tallies { negative, first, second, third } = self;
        let [negative, first, second, third] = [negative, first, second, third].map(Tally::flat);
        ffi::Tallies { negative, first, second, third }
    }
}

/// Why something is not kept. `as u32` gives the library's number.
#[derive(Clone, Copy, PartialEq, Eq, Debug)]
pub enum NotKept {
    /// Number 50: the bytes are not exactly one good record, or not a well-formed journal.
    Malformed = 50,
    /// Number 51: the journal would pass the end of its buffer, or 1,048,576 bytes.
    NoRoom = 51,
    /// Number 52: more bytes are in use than the buffer has. [`TalliedJournal::restore`] gives it; no append and no join
    /// does.
    NoJournal = 52,
}

impl NotKept {
    fn of(number: u32) -> Result<(), NotKept> {
        match number {
            0 => Ok(()),
            50 => Err(NotKept::Malformed),
            51 => Err(NotKept::NoRoom),
            52 => Err(NotKept::NoJournal),
            _ => unreachable!("the library gives no number {number}"),
        }
    }
}

impl fmt::Display for NotKept {
    fn fmt(&self, f: &mut fmt::Formatter<'_>) -> fmt::Result {
        f.write_str(words("TALLIES_NUMBER", *self as i32))
    }
}

impl std::error::Error for NotKept {}

/// A journal in a lent buffer, with its tallies beside it. It is changed by appends, joins and clears alone, and by the bursts
/// of an [`Intake`](crate::Intake), so the bytes in use are always a well-formed journal, and the tallies those of
/// [`recount`]. What is refused changes nothing, not even a byte of the buffer after the use.
///
/// ```
/// use draugsten::{recount, Forecast, NotKept, TalliedJournal};
///
/// let mut buffer = [0; 40];
/// let mut journal = TalliedJournal::new(&mut buffer);
///
/// // A node of type 11 was deleted, and one of type 3 updated.
/// let delete = [8, 0, 1, 0, 11, 0, 0x2a, 0, 0, 0];
/// let update = [8, 0, 2, 0, 3, 0, 0x2b, 0, 0, 0];
/// journal.append(&delete).unwrap();
/// journal.append(&update).unwrap();
/// assert_eq!(journal.append(&delete[..9]), Err(NotKept::Malformed));
///
/// // The journal of a second migration is joined; a third one finds no room.
/// let second = [delete, delete].concat();
/// journal.join(&second).unwrap();
/// assert_eq!(journal.join(&second), Err(NotKept::NoRoom));
///
/// let tally = journal.tallies().first;
/// assert_eq!((tally.deletes, tally.updates, tally.additions), (3, 1, 0));
/// assert_eq!(recount(journal.bytes()), Ok(journal.tallies()));
/// assert_eq!(journal.forecast(1, 0), Forecast::Done);
/// assert_eq!(journal.forecast(1, 4), Forecast::Parameter);
///
/// journal.clear();
/// assert!(journal.bytes().is_empty());
/// ```
#[derive(Debug)]
pub struct TalliedJournal<'a> {
    pub(crate) buffer: &'a mut [u8],
    pub(crate) kept: ffi::Tallied,
}

impl<'a> TalliedJournal<'a> {
    /// An empty journal. No byte of the buffer changes.
    pub fn new(buffer: &'a mut [u8]) -> TalliedJournal<'a> {
        TalliedJournal { buffer, kept: ffi::cleared() }
    }

    /// The journal that the first bytes of a buffer are, counted anew. So a platform takes up again what it had stored.
    /// `NotKept::NoJournal` where the buffer has fewer bytes, `NotKept::Malformed` where they are no well-formed journal.
    pub fn restore(buffer: &'a mut [u8], used: usize) -> Result<TalliedJournal<'a>, NotKept> {
        let bytes = buffer.get(..used).ok_or(NotKept::NoJournal)?;
        let tallies = recount(bytes)?.flat();
        Ok(TalliedJournal { buffer, kept: ffi::Tallied { used, tallies } })
    }

    /// Appends one record: exactly its bytes. What that takes does not depend on the bytes in use.
    pub fn append(&mut self, record: &[u8]) -> Result<(), NotKept> {
        let kept = ffi::append(self.buffer, self.kept, record);
        self.keep(kept)
    }

    /// Joins a whole journal, end to end. An empty one changes nothing.
    pub fn join(&mut self, part: &[u8]) -> Result<(), NotKept> {
        let kept = ffi::join(self.buffer, self.kept, part);
        self.keep(kept)
    }

    /// Makes the journal empty. No byte of the buffer changes.
    pub fn clear(&mut self) {
        self.kept = ffi::cleared();
    }

    /// How many operations each scope holds.
    pub fn tallies(&self) -> Tallies {
        Tallies::of(self.kept.tallies)
    }

    /// The journal: the bytes in use.
    pub fn bytes(&self) -> &[u8] {
        &self.buffer[..self.kept.used]
    }

    /// How many bytes are in use.
    pub fn used(&self) -> usize {
        self.kept.used
    }

    /// What update-nodes would answer over this journal, as [`forecast`] tells it.
    pub fn forecast(&self, scope: i32, state: u32) -> Forecast {
        forecast(&self.tallies(), scope, state)
    }

    fn keep(&mut self, kept: ffi::Kept) -> Result<(), NotKept> {
        self.kept = kept.journal;
        NotKept::of(kept.number)
    }
}

/// The tallies of a journal, counted anew in one pass; `NotKept::Malformed` where it is malformed or has more than
/// 1,048,576 bytes.
pub fn recount(journal: &[u8]) -> Result<Tallies, NotKept> {
    let recount = ffi::recount(journal);
    NotKept::of(recount.number).map(|()| Tallies::of(recount.tallies))
}

/// What update-nodes would answer.
#[derive(Clone, Copy, PartialEq, Eq, Debug)]
pub enum Forecast {
    /// Status 0: nothing remains after the call.
    Done,
    /// Status 1: more remains.
    CallAgain {
        /// The state that the call would leave. Tallies that no journal has can take it past 2^32 - 1.
        next: u64,
    },
    /// Status -3: a scope other than the negative ones, 1 and 2, or a state that the scope's list does not reach.
    Parameter,
}

impl Forecast {
    /// The status, as a number.
    pub fn status(self) -> i32 {
        match self {
            Forecast::Done => 0,
            Forecast::CallAgain { .. } => 1,
            Forecast::Parameter => -3,
        }
    }

    /// The state that the call would leave; 0 but with status 1.
    pub fn next(self) -> u64 {
        match self {
            Forecast::CallAgain { next } => next,
            Forecast::Done | Forecast::Parameter => 0,
        }
    }
}

impl fmt::Display for Forecast {
    fn fmt(&self, f: &mut fmt::Formatter<'_>) -> fmt::Result {
        write!(f, "status {}: {}", self.status(), words("FORECAST", self.status()))?;
        match self {
            Forecast::CallAgain { next } => write!(f, ", next state {next}"),
            Forecast::Done | Forecast::Parameter => Ok(()),
        }
    }
}

/// What an update-nodes call would answer in a scope from a state on, told from the tallies of its journal alone: as the
/// call does on a good address and zero reserved bytes. Scope 3 gets `Forecast::Parameter`, since its tally is over all
/// units. Any tallies are taken; the answer is that of a list with so many operations.
///
/// ```
/// use draugsten::{forecast, Forecast, Tallies, Tally};
///
/// let first = Tally { deletes: 1500, updates: 0, additions: 0 };
/// let tallies = Tallies { first, ..Tallies::default() };
/// assert_eq!(forecast(&tallies, 1, 0), Forecast::CallAgain { next: 1018 });
/// assert_eq!(forecast(&tallies, 1, 1018), Forecast::Done);
/// assert_eq!(forecast(&tallies, 1, 1500), Forecast::Parameter);
/// assert_eq!(forecast(&tallies, -1, 0), Forecast::Done);
/// ```
pub fn forecast(tallies: &Tallies, scope: i32, state: u32) -> Forecast {
    let answer = ffi::forecast(tallies.flat(), scope as u32, state);
    match answer.status as i32 {
        0 => Forecast::Done,
        1 => Forecast::CallAgain { next: answer.next },
        -3 => Forecast::Parameter,
        status => unreachable!("a forecast has no status {status}"),
    }
}
