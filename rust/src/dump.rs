//! The run of a registered kernel dump, and what it leaves in the copied structure.

use crate::args::word;
use crate::calling::Fault;
use crate::ffi;
use crate::registration::Registration;

/// The status flag of a dump that ran.
pub const DUMP_PERFORMED: u16 = 0x8000;

/// The status flag of a dump in which a section has an error flag.
pub const DUMP_ERROR: u16 = 0x2000;

/// The bytes of a section, and of the header in front of the sections.
const SECTION_SIZE: usize = 40;
const HEADER_SIZE: usize = 40;

/// A section of a dump structure. Before a run its actual length and its error flags are 0.
#[derive(Clone, Copy, PartialEq, Eq, Debug)]
pub struct Section {
    /// 1 where its bytes are asked for, otherwise 0.
    pub request_flags: u32,
    /// 1 and 2 read platform memory, all others partition memory.
    pub type_number: u16,
    /// What went wrong: [`Section::SOURCE`], [`Section::LENGTH`], [`Section::DESTINATION`] and [`Section::ROOM`], each
    /// where it applies.
    pub error_flags: u16,
    /// Where its bytes are read: a byte offset of platform memory, or an address in partition memory.
    pub source: u64,
    /// How many are asked for.
    pub requested: u64,
    /// How many were copied.
    pub actual: u64,
    /// Their address in partition memory.
    pub destination: u64,
}

impl Section {
    /// The source starts at or past the end of its buffer.
    pub const SOURCE: u16 = 0x4000;
    /// Start plus requested length is past that end. What there is was copied.
    pub const LENGTH: u16 = 0x2000;
    /// The destination starts at or past the end of memory.
    pub const DESTINATION: u16 = 0x1000;
    /// Memory has less room from the destination on than the source has bytes. What fits was copied.
    pub const ROOM: u16 = 0x0800;

    /// Of a section's 40 bytes.
    fn of(bytes: &[u8]) -> Section {
        Section {
            request_flags: word(bytes, 0),
            type_number: half(bytes, 4),
            error_flags: half(bytes, 6),
            source: double(bytes, 8),
            requested: double(bytes, 16),
            actual: double(bytes, 24),
            destination: double(bytes, 32),
        }
    }
}

impl Registration {
    /// Runs the registered dump: each section with request flag 1, in order, copies its bytes to its destination in
    /// `memory`, which is the partition's. The registration becomes active, and its copy tells the actual length and the
    /// error flags of each section. `Fault::DumpActive` where it is active already; `Fault::Parameter` where nothing is
    /// registered, or no good structure. Nothing changes then.
    ///
    /// ```
    /// use draugsten::{Fault, Phase, Registration, Section, DUMP_ERROR, DUMP_PERFORMED};
    ///
    /// // One section, of type 1: eight bytes from offset 4 of platform memory on, to address 2.
    /// let mut copy = [0; 512];
    /// (copy[3], copy[5], copy[11]) = (1, 1, 40);
    /// (copy[43], copy[45], copy[55], copy[63], copy[79]) = (1, 1, 4, 8, 2);
    /// let mut registration = Registration::restore(Phase::Registered as u32, 80, copy).unwrap();
    /// let mut memory = [0; 8];
    ///
    /// assert_eq!(registration.run(&mut memory, b"platform"), Ok(()));
    /// assert_eq!(&memory, b"\0\0form\0\0");
    /// assert_eq!(registration.phase(), Phase::Active);
    ///
    /// // The platform had four bytes of the eight.
    /// assert_eq!(registration.status_flags(), DUMP_PERFORMED | DUMP_ERROR);
    /// let [section] = registration.sections()[..] else { panic!("one section") };
    /// assert_eq!((section.actual, section.error_flags), (4, Section::LENGTH));
    ///
    /// assert_eq!(registration.run(&mut memory, b"platform"), Err(Fault::DumpActive));
    /// ```
    pub fn run(&mut self, memory: &mut [u8], platform: &[u8]) -> Result<(), Fault> {
        let run = ffi::run_dump(self.flat(), memory, platform);
        self.replace(run.registration);
        match (run.number, run.status as i32) {
            (0, 0) => Ok(()),
            (0, -3) => Err(Fault::Parameter),
            (0, -10) => Err(Fault::DumpActive),
            (13, _) => Err(Fault::NoRegistration),
            (number, status) => unreachable!("the library gives no number {number} with status {status}"),
        }
    }

    /// The status flags of the copied structure: [`DUMP_PERFORMED`] after a run, with [`DUMP_ERROR`] where a section has
    /// an error flag. 0 where there is no structure.
    pub fn status_flags(&self) -> u16 {
        self.header().map_or(0, |header| half(header, 6))
    }

    /// The sections of the copied structure, in order; those that lie inside it, where it is no good one.
    pub fn sections(&self) -> Vec<Section> {
        let Some(header) = self.header() else { return vec![] };
        let (first, number) = (word(header, 8) as usize, usize::from(half(header, 4)));
        let bytes = self.structure().get(first..).unwrap_or(&[]);
        bytes.chunks_exact(SECTION_SIZE).take(number).map(Section::of).collect()
    }

    fn header(&self) -> Option<&[u8]> {
        self.structure().get(..HEADER_SIZE)
    }
}

/// The two bytes at an offset, as a number.
fn half(bytes: &[u8], at: usize) -> u16 {
    u16::from_be_bytes([bytes[at], bytes[at + 1]])
}

/// The eight bytes at an offset, as a number.
fn double(bytes: &[u8], at: usize) -> u64 {
    u64::from(word(bytes, at)) << 32 | u64::from(word(bytes, at + 4))
}
