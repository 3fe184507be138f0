//! The C interface of the library under test. All that the comparison knows of the interface stands in this folder.

pub mod intakes;
pub mod locations;
pub mod month;
pub mod tables;
pub mod tallies;

#[cfg(not(feature = "without-library"))]
use crate::intakes::subject::Receiving;
#[cfg(not(feature = "without-library"))]
use crate::locations::subject::Locating;
#[cfg(not(feature = "without-library"))]
use crate::month::subject::Month;
#[cfg(not(feature = "without-library"))]
use crate::subject::{Answered, Ended, Fed, Feeding, Platform, Ran, Subject};
#[cfg(not(feature = "without-library"))]
use crate::tables::subject::Tabling;
#[cfg(not(feature = "without-library"))]
use crate::tallies::subject::Keeping;

/// The registration as it is compared: phase 0 none, 1 registered, 2 active. A phase above 2 or a length above 512
/// is no registration.
#[derive(Clone, Copy, PartialEq, Eq, Debug)]
pub struct Registration {
    pub phase: u32,
    pub length: u32,
    pub copy: [u8; 512],
}

/// The record of the reading in progress as it is compared: flag, type, next Starting Number and edition.
#[derive(Clone, Copy, PartialEq, Eq, Debug)]
pub struct ReadingRecord {
    pub flag: u32,
    pub kind: u32,
    pub number: u32,
    pub edition: u32,
}

impl ReadingRecord {
    /// No reading in progress.
    pub const NONE: ReadingRecord = ReadingRecord { flag: 0, kind: 0, number: 1, edition: 0 };

    pub fn text(&self) -> String {
        let ReadingRecord { flag, kind, number, edition } = self;
        format!("flag {flag:#x}, type {kind:#x}, number {number:#x}, edition {edition:#x}")
    }
}

/// What comes of an edit: whether it is taken (1 or 0), and the edition afterwards.
#[derive(Clone, Copy, PartialEq, Eq, Debug)]
pub struct Edit {
    pub taken: u32,
    pub edition: u32,
}

/// What a reading tells: the refusal (0, 20 to 27, 30 to 33 or 40 to 43) with its offset, or the number of all entries
/// and, for a node or property area, the state, for a property area also the phandle.
#[derive(Clone, Copy, PartialEq, Eq, Debug)]
pub struct Reading {
    pub refusal: u32,
    pub phandle_or_zero: u32,
    pub state_or_zero: u32,
    pub offset: u64,
    pub entries: u64,
}

/// What a replay came to: verdict 0 agreed, 1 differs, 2 malformed.
#[derive(Clone, Copy, PartialEq, Eq, Debug)]
pub struct Report {
    pub verdict: u32,
    pub offset: u32,
    pub number: u64,
}

/// Where a replay stands.
#[derive(Clone, Copy, PartialEq, Eq, Debug)]
pub struct Replay {
    pub records: u64,
    pub report: Report,
    pub held: u64,
    pub waiting: u32,
    pub edition: u32,
    pub registration: Registration,
    pub reading: ReadingRecord,
}

impl Replay {
    pub fn text(&self) -> String {
        let Replay { records, report, held, waiting, edition, registration, reading } = self;
        let Registration { phase, length, .. } = registration;
        let (counts, reading) = (format!("{records} records, held {held}, waiting {waiting}"), reading.text());
        let registration = format!("registration of phase {phase} and length {length}");
        format!("{counts}, {report:?}, edition {edition:#x}, {registration}, reading record: {reading}")
    }
}

/// The number of a call or a run over something that is no registration; it changes nothing.
pub const NO_REGISTRATION: u32 = 13;

/// The status -3, which a run has beside that number.
pub const PARAMETER: u32 = 0xffff_fffd;

#[cfg(not(feature = "without-library"))]
mod c {
    //! The types and functions of include/draugsten.h.

    #[repr(C)]
    pub struct Registration {
        pub phase: u32,
        pub length: usize,
        pub copy: [u8; 512],
    }

    #[repr(C)]
    pub struct Reading {
        pub flag: u32,
        pub item_type: u32,
        pub number: u32,
        pub edition: u32,
    }

    #[repr(C)]
    pub struct Edit {
        pub taken: u32,
        pub edition: u32,
    }

    #[repr(C)]
    pub struct Answer {
        pub number: u32,
        pub registration: Registration,
        pub reading: Reading,
    }

    #[repr(C)]
    pub struct Run {
        pub number: u32,
        pub status: u32,
        pub registration: Registration,
    }

    #[repr(C)]
    pub struct Report {
        pub verdict: u32,
        pub offset: u32,
        pub number: u64,
    }

    #[repr(C)]
    pub struct Replay {
        pub records: u64,
        pub report: Report,
        pub held: usize,
        pub waiting: u32,
        pub edition: u32,
        pub registration: Registration,
        pub reading: Reading,
    }

    #[repr(C)]
    pub struct Fed {
        pub number: u32,
        pub replay: Replay,
    }

    #[repr(C)]
    pub struct Ended {
        pub number: u32,
        pub report: Report,
    }

    #[repr(C)]
    pub struct NodeReading {
        pub refusal: u32,
        pub state: u32,
        pub offset: usize,
        pub entries: usize,
    }

    #[repr(C)]
    pub struct IndexReading {
        pub refusal: u32,
        pub offset: usize,
        pub entries: usize,
    }

    #[repr(C)]
    pub struct PropertyReading {
        pub refusal: u32,
        pub phandle: u32,
        pub state: u32,
        pub offset: usize,
        pub entries: usize,
    }

    extern "C" {
        pub fn draugsten_call(
            args: *mut u8,
            args_len: usize,
            memory: *mut u8,
            memory_len: usize,
            journal: *const u8,
            journal_len: usize,
            inventory: *const u8,
            inventory_len: usize,
            edition: u32,
            registration: Registration,
            reading: Reading,
        ) -> Answer;

        pub fn draugsten_run_dump(
            registration: Registration,
            memory: *mut u8,
            memory_len: usize,
            platform: *const u8,
            platform_len: usize,
        ) -> Run;

        pub fn draugsten_no_reading() -> Reading;

        pub fn draugsten_edit(edition: u32) -> Edit;

        pub fn draugsten_replay_start(edition: u32) -> Replay;

        pub fn draugsten_replay_feed(
            held: *mut u8,
            held_len: usize,
            args: *mut u8,
            args_len: usize,
            memory: *mut u8,
            memory_len: usize,
            journal: *const u8,
            journal_len: usize,
            inventory: *const u8,
            inventory_len: usize,
            replay: Replay,
            bytes: *const u8,
            len: usize,
        ) -> Fed;

        pub fn draugsten_replay_end(replay: Replay) -> Ended;

        /// Three words of `out` for each entry: opcode, first operand, second operand or 0. `out_len` counts words.
        pub fn draugsten_read_nodes(
            area: *const u8,
            area_len: usize,
            scope: u32,
            out: *mut u32,
            out_len: usize,
        ) -> NodeReading;

        /// Three numbers of `out` for each entry: index, byte offset of the code in the area, length of the code
        /// without its NULs. `out_len` counts numbers.
        pub fn draugsten_read_indices(area: *const u8, area_len: usize, out: *mut u64, out_len: usize) -> IndexReading;

        /// Five words of `out` for each property: offset and length of its name, its descriptor, offset and length of
        /// its value. `out_len` counts words.
        pub fn draugsten_read_properties(
            area: *const u8,
            area_len: usize,
            out: *mut u32,
            out_len: usize,
        ) -> PropertyReading;
    }
}

#[cfg(not(feature = "without-library"))]
impl From<Registration> for c::Registration {
    fn from(Registration { phase, length, copy }: Registration) -> c::Registration {
        c::Registration { phase, length: length as usize, copy }
    }
}

#[cfg(not(feature = "without-library"))]
impl From<c::Registration> for Registration {
    fn from(c::Registration { phase, length, copy }: c::Registration) -> Registration {
        let length = u32::try_from(length).expect("a registration's length is at most that of its copy");
        Registration { phase, length, copy }
    }
}

#[cfg(not(feature = "without-library"))]
impl From<ReadingRecord> for c::Reading {
    fn from(ReadingRecord { flag, kind, number, edition }: ReadingRecord) -> c::Reading {
        c::Reading { flag, item_type: kind, number, edition }
    }
}

#[cfg(not(feature = "without-library"))]
impl From<c::Reading> for ReadingRecord {
    fn from(c::Reading { flag, item_type, number, edition }: c::Reading) -> ReadingRecord {
        ReadingRecord { flag, kind: item_type, number, edition }
    }
}

#[cfg(not(feature = "without-library"))]
impl From<c::Report> for Report {
    fn from(c::Report { verdict, offset, number }: c::Report) -> Report {
        Report { verdict, offset, number }
    }
}

#[cfg(not(feature = "without-library"))]
impl From<Replay> for c::Replay {
    fn from(replay: Replay) -> c::Replay {
        let Report { verdict, offset, number } = replay.report;
        c::Replay {
            records: replay.records,
            report: c::Report { verdict, offset, number },
            held: replay.held as usize,
            waiting: replay.waiting,
            edition: replay.edition,
            registration: replay.registration.into(),
            reading: replay.reading.into(),
        }
    }
}

#[cfg(not(feature = "without-library"))]
impl From<c::Replay> for Replay {
    fn from(replay: c::Replay) -> Replay {
        Replay {
            records: replay.records,
            report: replay.report.into(),
            held: replay.held as u64,
            waiting: replay.waiting,
            edition: replay.edition,
            registration: replay.registration.into(),
            reading: replay.reading.into(),
        }
    }
}

/// The library under test.
#[cfg(not(feature = "without-library"))]
pub struct Library;

#[cfg(not(feature = "without-library"))]
impl Subject for Library {
    fn name(&self) -> &'static str {
        "library"
    }

    fn call(&self, args: &mut [u8], memory: &mut [u8], platform: &Platform) -> Answered {
        let Platform { journal, inventory, edition, registration, reading } = *platform;
        // SAFETY: each pointer comes with the length of the slice that it was taken from.
        let answer = unsafe {
            c::draugsten_call(
                args.as_mut_ptr(),
                args.len(),
                memory.as_mut_ptr(),
                memory.len(),
                journal.as_ptr(),
                journal.len(),
                inventory.as_ptr(),
                inventory.len(),
                edition,
                registration.into(),
                reading.into(),
            )
        };
        let (number, registration, reading) = (answer.number, answer.registration.into(), answer.reading.into());
        Answered { number, registration, reading, rule: "" }
    }

    fn run_dump(&self, registration: &Registration, memory: &mut [u8], platform: &[u8]) -> Ran {
        let (bytes, length) = (memory.as_mut_ptr(), memory.len());
        // SAFETY: each pointer comes with the length of the slice that it was taken from.
        let run =
            unsafe { c::draugsten_run_dump((*registration).into(), bytes, length, platform.as_ptr(), platform.len()) };
        Ran { number: run.number, status: run.status, registration: run.registration.into(), rule: "" }
    }

    fn no_reading(&self) -> ReadingRecord {
        // SAFETY: the function takes nothing.
        unsafe { c::draugsten_no_reading() }.into()
    }

    fn edit(&self, edition: u32) -> Edit {
        // SAFETY: the function takes a number alone.
        let c::Edit { taken, edition } = unsafe { c::draugsten_edit(edition) };
        Edit { taken, edition }
    }

    fn replay_start(&self, edition: u32) -> Replay {
        // SAFETY: the function takes a number alone.
        unsafe { c::draugsten_replay_start(edition) }.into()
    }

    fn replay_feed(&self, feeding: Feeding, replay: &Replay, bytes: &[u8]) -> Fed {
        let Feeding { held, args, memory, journal, inventory } = feeding;
        // SAFETY: each pointer comes with the length of the slice that it was taken from.
        let fed = unsafe {
            c::draugsten_replay_feed(
                held.as_mut_ptr(),
                held.len(),
                args.as_mut_ptr(),
                args.len(),
                memory.as_mut_ptr(),
                memory.len(),
                journal.as_ptr(),
                journal.len(),
                inventory.as_ptr(),
                inventory.len(),
                (*replay).into(),
                bytes.as_ptr(),
                bytes.len(),
            )
        };
        Fed { number: fed.number, replay: fed.replay.into(), rule: "" }
    }

    fn replay_end(&self, replay: &Replay) -> Ended {
        // SAFETY: the function takes a replay alone.
        let ended = unsafe { c::draugsten_replay_end((*replay).into()) };
        Ended { number: ended.number, report: ended.report.into() }
    }

    fn month(&self) -> &dyn Month {
        self
    }

    fn tabling(&self) -> &dyn Tabling {
        self
    }

    fn keeping(&self) -> &dyn Keeping {
        self
    }

    fn receiving(&self) -> &dyn Receiving {
        self
    }

    fn locating(&self) -> &dyn Locating {
        self
    }

    fn read_nodes(&self, area: &[u8], scope: u32, out: &mut [u32]) -> Reading {
        // SAFETY: as above.
        let read = unsafe { c::draugsten_read_nodes(area.as_ptr(), area.len(), scope, out.as_mut_ptr(), out.len()) };
        Reading {
            refusal: read.refusal,
            phandle_or_zero: 0,
            state_or_zero: read.state,
            offset: read.offset as u64,
            entries: read.entries as u64,
        }
    }

    fn read_indices(&self, area: &[u8], out: &mut [u64]) -> Reading {
        // SAFETY: as above.
        let read = unsafe { c::draugsten_read_indices(area.as_ptr(), area.len(), out.as_mut_ptr(), out.len()) };
        Reading {
            refusal: read.refusal,
            phandle_or_zero: 0,
            state_or_zero: 0,
            offset: read.offset as u64,
            entries: read.entries as u64,
        }
    }

    fn read_properties(&self, area: &[u8], out: &mut [u32]) -> Reading {
        // SAFETY: as above.
        let read = unsafe { c::draugsten_read_properties(area.as_ptr(), area.len(), out.as_mut_ptr(), out.len()) };
        Reading {
            refusal: read.refusal,
            phandle_or_zero: read.phandle,
            state_or_zero: read.state,
            offset: read.offset as u64,
            entries: read.entries as u64,
        }
    }
}
