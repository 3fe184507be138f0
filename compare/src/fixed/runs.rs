//! The readings of a dump's run (M-104).

use super::NONE;
use crate::buffers::{arguments, put_word};
use crate::case::{CallCase, RunCase};
use crate::compare::run_call;
use crate::dump::Dump;
use crate::library::{ReadingRecord, Registration};
use crate::subject::Subject;
use crate::text;

/// A run and all that it has to leave.
pub struct RunReading {
    name: String,
    case: RunCase,
    number: u32,
    status: i32,
    memory: Vec<u8>,
    registration: Registration,
}

/// What a section asks for: type, source, requested length, destination.
pub type Asked = (u16, u64, u64, u64);

/// What came of it: error flags, actual length.
pub type Came = (u16, u64);

const MEMORY: &[u8] = b"0123456789abcdef";
const PLATFORM: &[u8] = b"ABCDEFGH";

const MAX: u64 = u64::MAX;

/// A structure without a disk, and with the other parts that it is given.
fn structure(sections: &[Asked], came: &[Came], status_flags: u16) -> Vec<u8> {
    let mut bytes = vec![0; 40];
    put_word(&mut bytes, 0, 1);
    bytes[5] = sections.len() as u8;
    bytes[6..8].copy_from_slice(&status_flags.to_be_bytes());
    put_word(&mut bytes, 8, 40);
    put_word(&mut bytes, 36, 5000);
    for (&(kind, source, requested, destination), &(flags, actual)) in sections.iter().zip(came) {
        bytes.extend([0, 0, 0, 1]);
        bytes.extend([kind, flags].iter().flat_map(|number| number.to_be_bytes()));
        bytes.extend([source, requested, actual, destination].iter().flat_map(|number| number.to_be_bytes()));
    }
    bytes
}

/// The same with a disk, whose path stands behind the sections, and with request flag 0 in the first of them.
fn with_disk(mut structure: Vec<u8>) -> Vec<u8> {
    let path = structure.len() as u32;
    put_word(&mut structure, 12, 512);
    put_word(&mut structure, 32, path);
    structure[43] = 0;
    [&structure, b"/a\0".as_slice()].concat()
}

/// A registration of this structure. The bytes behind its length may be any, and are these.
pub fn of_phase(phase: u32, structure: &[u8]) -> Registration {
    let mut copy = [0xdd; 512];
    copy[..structure.len()].copy_from_slice(structure);
    Registration { phase, length: structure.len() as u32, copy }
}

/// The registrations before and after a run of these sections.
pub fn registrations(sections: &[Asked], came: &[Came], status_flags: u16) -> [Registration; 2] {
    let before = structure(sections, &vec![(0, 0); sections.len()], 0);
    [of_phase(1, &before), of_phase(2, &structure(sections, came, status_flags))]
}

fn case(registration: Registration) -> RunCase {
    let (memory, platform) = (MEMORY.to_vec(), PLATFORM.to_vec());
    RunCase { registration, memory, platform, address: 0, steps: Vec::new() }
}

/// A dump that runs.
fn ran(name: &str, sections: &[Asked], came: &[Came], status_flags: u16, memory: &[u8]) -> RunReading {
    let [before, registration] = registrations(sections, came, status_flags);
    let (name, memory) = (String::from(name), memory.to_vec());
    RunReading { name, case: case(before), number: 0, status: 0, memory, registration }
}

/// A dump of one section. Where it has no error flag, the status flags are 0x8000, otherwise 0xa000.
fn one(name: &str, section: Asked, came: Came, memory: &[u8]) -> RunReading {
    ran(name, &[section], &[came], if came.0 == 0 { 0x8000 } else { 0xa000 }, memory)
}

/// A dump of one section that copies nothing.
fn nothing(name: &str, section: Asked, flags: u16) -> RunReading {
    one(name, section, (flags, 0), MEMORY)
}

/// A run that is refused, and changes nothing.
fn refused(name: &str, number: u32, status: i32, registration: Registration) -> RunReading {
    let (name, memory) = (String::from(name), MEMORY.to_vec());
    RunReading { name, case: case(registration), number, status, memory, registration }
}

pub fn readings() -> Vec<RunReading> {
    let all = [sources(), types(), destinations(), both(), wide(), overlaps(), several(), empty(), refusals(), bad()];
    all.into_iter().flatten().collect()
}

/// "source start at or past its buffer's end 0x4000; start plus length past the source's end 0x2000, copying what there is"
fn sources() -> Vec<RunReading> {
    vec![
        one("platform start one before the end", (1, 7, 1, 0), (0, 1), b"H123456789abcdef"),
        one("platform start one before the end, two bytes", (1, 7, 2, 0), (0x2000, 1), b"H123456789abcdef"),
        nothing("platform start at the end", (1, 8, 1, 0), 0x6000),
        nothing("platform start past the end", (1, 9, 1, 0), 0x6000),
        nothing("requested 0, one before the end", (1, 7, 0, 0), 0),
        nothing("requested 0 at the end", (1, 8, 0, 0), 0x4000),
        nothing("requested 0 past the end", (1, 9, 0, 0), 0x6000),
        one("all of the platform", (2, 0, 8, 8), (0, 8), b"01234567ABCDEFGH"),
        one("all of the platform, and a byte more", (2, 0, 9, 8), (0x2000, 8), b"01234567ABCDEFGH"),
        one("partition start one before the end", (0x11, 15, 1, 0), (0, 1), b"f123456789abcdef"),
        one("partition start one before the end, two bytes", (0x11, 15, 2, 0), (0x2000, 1), b"f123456789abcdef"),
        nothing("partition start at the end", (0x11, 16, 1, 0), 0x6000),
        nothing("partition start at the end, requested 0", (0x12, 16, 0, 0), 0x4000),
        nothing("partition start past the end, requested 0", (0x100, 17, 0, 0), 0x6000),
    ]
}

/// "types 1 and 2 read platform memory at a byte offset, the others partition memory at an address"
fn types() -> Vec<RunReading> {
    vec![
        one("type 1", (1, 2, 2, 0), (0, 2), b"CD23456789abcdef"),
        one("type 2", (2, 2, 2, 0), (0, 2), b"CD23456789abcdef"),
        one("type 0x11", (0x11, 2, 2, 0), (0, 2), b"2323456789abcdef"),
        one("type 0x12", (0x12, 2, 2, 0), (0, 2), b"2323456789abcdef"),
        one("type 0x100", (0x100, 2, 2, 0), (0, 2), b"2323456789abcdef"),
        one("type 0x101", (0x101, 2, 2, 0), (0, 2), b"2323456789abcdef"),
        one("type 0xffff", (0xffff, 2, 2, 0), (0, 2), b"2323456789abcdef"),
        nothing("type 1, a start inside partition memory alone", (1, 10, 2, 0), 0x6000),
        one("type 0x11, a start there", (0x11, 10, 2, 0), (0, 2), b"ab23456789abcdef"),
    ]
}

/// "destination start at or past the end of partition memory 0x1000; destination too small for the bytes that the source has
/// 0x0800, copying what fits"
fn destinations() -> Vec<RunReading> {
    vec![
        one("room exactly enough", (1, 0, 4, 12), (0, 4), b"0123456789abABCD"),
        one("room one short", (1, 0, 4, 13), (0x0800, 3), b"0123456789abcABC"),
        one("destination one before the end", (1, 0, 1, 15), (0, 1), b"0123456789abcdeA"),
        nothing("destination one before the end, requested 0", (1, 0, 0, 15), 0),
        nothing("destination at the end", (1, 0, 1, 16), 0x1800),
        nothing("destination at the end, requested 0", (1, 0, 0, 16), 0x1000),
        nothing("destination past the end", (1, 0, 1, 17), 0x1800),
        one("partition memory, room one short", (0x11, 0, 4, 13), (0x0800, 3), b"0123456789abc012"),
    ]
}

fn both() -> Vec<RunReading> {
    vec![
        one("room for what the source has", (1, 6, 8, 14), (0x2000, 2), b"0123456789abcdGH"),
        one("too much requested, and room one short", (1, 6, 8, 15), (0x2800, 1), b"0123456789abcdeG"),
        nothing("too much requested, and no room", (1, 7, 2, 16), 0x3800),
        nothing("both starts outside", (1, 8, 1, 16), 0x7000),
        nothing("both starts outside, requested 0", (1, 8, 0, 16), 0x5000),
        nothing("both starts past the end, requested 0", (1, 9, 0, 17), 0x7000),
        nothing("both starts outside, partition memory", (0x11, 16, 1, 16), 0x7000),
    ]
}

/// No sum wraps, and no number is cut to 32 bits.
fn wide() -> Vec<RunReading> {
    let word = 1 << 32;
    vec![
        nothing("2^64 - 1 plus 2", (1, MAX, 2, 0), 0x6000),
        nothing("2^64 - 1 plus 1", (0x11, MAX, 1, 0), 0x6000),
        nothing("2^64 - 1 plus 0", (1, MAX, 0, 0), 0x6000),
        nothing("2^64 - 1 plus 2^64 - 1", (1, MAX, MAX, 0), 0x6000),
        one("4 plus 2^64 - 1", (1, 4, MAX, 0), (0x2000, 4), b"EFGH456789abcdef"),
        one("4 plus 2^64 - 4", (1, 4, MAX - 3, 0), (0x2000, 4), b"EFGH456789abcdef"),
        one("4 plus 2^64 - 5", (1, 4, MAX - 4, 0), (0x2000, 4), b"EFGH456789abcdef"),
        one("all of memory to address 1", (0x11, 0, MAX, 1), (0x2800, 15), b"00123456789abcde"),
        nothing("destination 2^64 - 1", (1, 0, 2, MAX), 0x1800),
        nothing("destination 2^64 - 2", (0x11, 0, 16, MAX - 1), 0x1800),
        nothing("destination 2^64 - 1, requested 0", (1, 0, 0, MAX), 0x1000),
        nothing("all of it 2^64 - 1", (0x11, MAX, MAX, MAX), 0x7000),
        nothing("source 2^32", (1, word, 1, 0), 0x6000),
        nothing("destination 2^32", (1, 0, 1, word), 0x1800),
        one("requested 2^32 + 1", (1, 0, word + 1, 0), (0x2000, 8), b"ABCDEFGH89abcdef"),
    ]
}

/// "an overlapping destination gets what the source held before that section began"
fn overlaps() -> Vec<RunReading> {
    vec![
        one("behind by 1", (0x11, 0, 8, 1), (0, 8), b"0012345679abcdef"),
        one("behind by the length less 1", (0x11, 0, 8, 7), (0, 8), b"012345601234567f"),
        one("behind by the length", (0x11, 0, 8, 8), (0, 8), b"0123456701234567"),
        one("behind by more", (0x12, 1, 4, 6), (0, 4), b"0123451234abcdef"),
        one("before by 1", (0x11, 1, 8, 0), (0, 8), b"1234567889abcdef"),
        one("before by the length less 1", (0x11, 7, 8, 0), (0, 8), b"789abcde89abcdef"),
        one("before by the length", (0x11, 8, 8, 0), (0, 8), b"89abcdef89abcdef"),
        one("before by more", (0x12, 6, 4, 1), (0, 4), b"0678956789abcdef"),
        one("onto itself", (0x100, 0, 16, 0), (0, 16), MEMORY),
        one("behind by 3, room one short", (0x11, 0, 14, 3), (0x0800, 13), b"0120123456789abc"),
        one("before by 3, a byte too many", (0x11, 3, 14, 0), (0x2000, 13), b"3456789abcdefdef"),
    ]
}

/// Sections in order, each over the memory that those before it left.
fn several() -> Vec<RunReading> {
    let fed = [(1, 0, 2, 0), (0x11, 0, 4, 4), (0x100, 4, 3, 8)];
    let chain: Vec<Asked> = (0..10).map(|place| (0x11, place, 1, place + 1)).collect();
    let backward: Vec<Asked> = (0..10).rev().map(|place| (0x11, place, 1, place + 1)).collect();
    let second_error = [(1, 0, 1, 0), (1, 8, 0, 0), (1, 1, 1, 1)];
    vec![
        ran("each feeds the next", &fed, &[(0, 2), (0, 4), (0, 3)], 0x8000, b"AB23AB23AB2bcdef"),
        ran("a later one overwrites", &[(1, 0, 4, 0), (2, 4, 4, 2)], &[(0, 4); 2], 0x8000, b"ABEFGH6789abcdef"),
        ran("two exchange", &[(0x11, 0, 4, 8), (0x11, 8, 4, 0)], &[(0, 4); 2], 0x8000, b"012345670123cdef"),
        ran("ten, each from the one before it", &chain, &[(0, 1); 10], 0x8000, b"00000000000bcdef"),
        ran("ten, the last place first", &backward, &[(0, 1); 10], 0x8000, b"00123456789bcdef"),
        ran("an error in the second alone", &second_error, &[(0, 1), (0x4000, 0), (0, 1)], 0xa000, b"AB23456789abcdef"),
        with_flag_0("without request flag 1, all outside", (0x11, MAX, MAX, MAX)),
        with_flag_0("without request flag 1, all inside", (1, 0, 8, 0)),
    ]
}

/// With a disk: a section without request flag 1, and one that is copied.
fn with_flag_0(name: &str, section: Asked) -> RunReading {
    let sections = [section, (1, 2, 1, 3)];
    let before = with_disk(structure(&sections, &[(0, 0); 2], 0));
    let after = with_disk(structure(&sections, &[(0, 0), (0, 1)], 0x8000));
    RunReading {
        name: String::from(name),
        case: case(of_phase(1, &before)),
        number: 0,
        status: 0,
        memory: b"012C456789abcdef".to_vec(),
        registration: of_phase(2, &after),
    }
}

/// Memories without a byte.
fn empty() -> Vec<RunReading> {
    vec![
        nothing("no platform memory", (1, 0, 1, 0), 0x6000).without_platform(),
        nothing("no platform memory, requested 0", (2, 0, 0, 0), 0x4000).without_platform(),
        nothing("no partition memory", (1, 0, 1, 0), 0x1800).without_memory(),
        nothing("no partition memory, and its start", (0x11, 0, 1, 0), 0x7000).without_memory(),
        nothing("no memory, requested 0", (1, 0, 0, 0), 0x5000).without_memory().without_platform(),
    ]
}

/// A section that copies two bytes of the platform.
const TWO: Asked = (1, 0, 2, 4);

/// "Refusals: -10 when active, -3 when nothing is registered or the copy isn't a good structure." What is no registration has
/// number 13, and beside it the status -3.
fn refusals() -> Vec<RunReading> {
    let good = structure(&[TWO], &[(0, 0)], 0);
    let of_length = |phase, length| Registration { length, ..of_phase(phase, &good) };
    let ten = structure(&[TWO; 10], &[(0, 0); 10], 0);
    vec![
        refused("active", 0, -10, of_phase(2, &good)),
        refused("active, and no good structure", 0, -10, of_length(2, 0)),
        refused("active, as a run left it", 0, -10, of_phase(2, &structure(&[TWO], &[(0, 2)], 0x8000))),
        refused("none", 0, -3, NONE),
        refused("none, with a good structure", 0, -3, of_phase(0, &good)),
        refused("length 0", 0, -3, of_length(1, 0)),
        refused("length 39", 0, -3, of_length(1, 39)),
        refused("length 40", 0, -3, of_length(1, 40)),
        refused("length 79", 0, -3, of_length(1, 79)),
        refused("ten sections, length 439", 0, -3, Registration { length: 439, ..of_phase(1, &ten) }),
        refused("length 513", 13, -3, of_length(1, 513)),
        refused("length 513, active", 13, -3, of_length(2, 513)),
        refused("length 0xffffffff", 13, -3, of_length(1, 0xffff_ffff)),
        refused("phase 3", 13, -3, of_length(3, 80)),
        refused("phase 0xffffffff", 13, -3, of_length(0xffff_ffff, 80)),
    ]
}

/// Copies that are no good structures, by a byte.
fn bad() -> Vec<RunReading> {
    let edited = |name: &str, at: usize, byte: u8| {
        let mut bytes = structure(&[TWO], &[(0, 0)], 0);
        bytes[at] = byte;
        refused(name, 0, -3, of_phase(1, &bytes))
    };
    vec![
        edited("version 2", 3, 2),
        edited("no sections", 5, 0),
        edited("two sections, of which one is inside", 5, 2),
        edited("status flags 0x8000", 6, 0x80),
        edited("status flags 0x2000", 6, 0x20),
        edited("first section at 39", 11, 39),
        edited("first section at 41", 11, 41),
        edited("disk without a path", 15, 1),
        edited("no disk, blocks", 31, 1),
        edited("no disk, request flag 0", 43, 0),
        edited("request flags 3", 43, 3),
        edited("type 3", 45, 3),
        edited("error flags 0x2000", 46, 0x20),
        edited("actual length 1", 71, 1),
    ]
}

impl RunReading {
    fn without_platform(mut self) -> RunReading {
        self.case.platform.clear();
        self
    }

    fn without_memory(mut self) -> RunReading {
        self.case.memory.clear();
        self.memory.clear();
        self
    }

    /// What a side does otherwise than written: in the run, in the commands behind it, or in the run of a structure that a
    /// command registered.
    pub fn failure(&self, subject: &dyn Subject) -> Option<String> {
        let wrong = self.wrong(subject, self.case.registration, &self.registration);
        let wrong = wrong.or_else(|| self.wrong_behind(subject)).or_else(|| self.wrong_registered(subject))?;
        Some(format!("fixed reading '{}' on {}: wrong: {wrong}", self.name, subject.name()))
    }

    fn wrong(&self, subject: &dyn Subject, given: Registration, written: &Registration) -> Option<String> {
        let mut dump = Dump::new(subject, &RunCase { registration: given, ..self.case.clone() });
        let ran = dump.run();
        let wrong = [
            (ran.number != self.number, "the number"),
            (ran.status as i32 != self.status, "the status"),
            (dump.memory.content() != self.memory || !dump.memory.is_guarded(), "memory"),
            (dump.platform.content() != self.case.platform, "platform memory"),
            (ran.registration != *written, "the registration"),
        ];
        let wrong: Vec<&str> = wrong.iter().filter(|part| part.0).map(|part| part.1).collect();
        let told = || {
            let (memory, copy) = (text::hex(dump.memory.content()), text::hex(&ran.registration.copy[..120]));
            format!("{}\n  status {}, memory {memory}, copy {copy}", wrong.join(", "), ran.status as i32)
        };
        (!wrong.is_empty()).then(told)
    }

    /// Behind a run: -10 for the commands 1 and 2, and command 3 completes it.
    fn wrong_behind(&self, subject: &dyn Subject) -> Option<String> {
        let written = [(1, -10, self.registration), (2, -10, self.registration), (3, 0, NONE)];
        let behind = written.into_iter().filter(|_| self.status == 0);
        let mut wrong = behind.filter(|&(command, status, after)| {
            command_given(subject, command, &self.memory, self.registration) != (status, after)
        });
        wrong.next().map(|(command, ..)| format!("command {command} behind the run"))
    }

    /// The same structure, registered by command 1, runs alike. It has zero bytes behind its length.
    fn wrong_registered(&self, subject: &dyn Subject) -> Option<String> {
        if self.status != 0 {
            return None;
        }
        let length = self.registration.length as usize;
        let (mut before, mut after) = (self.case.registration, self.registration);
        before.copy[length..].fill(0);
        after.copy[length..].fill(0);
        if command_given(subject, 1, &before.copy[..length], NONE) != (0, before) {
            return Some(String::from("command 1 before the run"));
        }
        self.wrong(subject, before, &after)
    }
}

/// The status of a command, and the registration afterwards. Command 1 names all of memory, as far as it has 512 bytes.
fn command_given(
    subject: &dyn Subject,
    command: u32,
    memory: &[u8],
    registration: Registration,
) -> (i32, Registration) {
    let case = CallCase {
        args: arguments(3, &[command, 0, memory.len() as u32], &[0x5555_5555]),
        memory: memory.to_vec(),
        journal: Vec::new(),
        inventory: Vec::new(),
        edition: 0,
        registration,
        reading: ReadingRecord::NONE,
    };
    let result = run_call(subject, &case);
    (result.status().unwrap_or(1), result.registration)
}
