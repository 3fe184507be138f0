//! Readings in a memory above 4 GiB, where alone "at most 2^32" can be told from "inside memory". The memory is zero and
//! shared by all of them; around both ends of the first 4 GiB every byte is compared, the rest is not looked at.

use super::runs::registrations;
use super::{EDITION, NONE, READING};
use crate::buffers::{arguments, inventory_record, property_record, put_word, record, words};
use crate::compare::Sides;
use crate::library::{ReadingRecord, Registration};
use crate::subject::{Feeding, Platform, Subject};
use std::alloc::{alloc_zeroed, Layout};

const FOUR_GIB: usize = 1 << 32;
const LENGTH: usize = FOUR_GIB + 8192;

/// The parts of memory that are compared.
const PARTS: [(usize, usize); 2] = [(0, 8192), (FOUR_GIB - 8192, LENGTH)];

struct LargeReading {
    name: &'static str,
    args: Vec<u8>,
    /// What memory holds before the call.
    before: (usize, Vec<u8>),
    outputs: Vec<i32>,
    /// What the call writes.
    writes: (usize, Vec<u8>),
    registration: Registration,
    reading: ReadingRecord,
}

/// Zero bytes, as long as the system has room; pages that nobody touches take none.
fn memory() -> Option<Vec<u8>> {
    let layout = Layout::array::<u8>(LENGTH).ok()?;
    // SAFETY: the vector owns the bytes, which were reserved with its own layout and are zero.
    unsafe {
        let bytes = alloc_zeroed(layout);
        (!bytes.is_null()).then(|| Vec::from_raw_parts(bytes, LENGTH, LENGTH))
    }
}

/// The number of readings, and what was otherwise than written; nothing where there is no room.
pub fn run(sides: Sides) -> Option<(usize, Vec<String>)> {
    let mut memory = memory()?;
    let readings = readings();
    let mut failures = Vec::new();
    for subject in [sides.paper, sides.tested] {
        for reading in &readings {
            failures.extend(failure(subject, reading, &mut memory));
        }
        failures.extend(setting_failure(subject, &mut memory));
        failures.extend(run_failure(subject, &mut memory));
    }
    Some((readings.len() + 2, failures))
}

/// The run of a dump whose sections lie on both sides of 2^32: from there to there, by one place onto itself, from there to
/// the front, and from the platform, of which the last byte finds no room.
fn run_failure(subject: &dyn Subject, memory: &mut [u8]) -> Option<String> {
    let four_gib = FOUR_GIB as u64;
    let sections = [
        (0x11, four_gib - 2, 4, four_gib + 100),
        (0x12, four_gib + 100, 4, four_gib + 101),
        (0x100, four_gib + 102, 3, 1),
        (1, 0, 3, LENGTH as u64 - 2),
    ];
    let came = [(0, 4), (0, 4), (0, 3), (0x0800, 2)];
    let [given, after] = registrations(&sections, &came, 0xa000);
    PARTS.iter().for_each(|part| memory[part.0..part.1].fill(0));
    let before = (FOUR_GIB - 2, b"abcd".to_vec());
    [&before, &(FOUR_GIB + 100, b"aabcd".to_vec()), &(1, b"bcd".to_vec()), &(LENGTH - 2, b"AB".to_vec())]
        .into_iter()
        .for_each(|place| put(memory, place));
    let written = compared_parts(memory);
    PARTS.iter().for_each(|part| memory[part.0..part.1].fill(0));
    put(memory, &before);
    let ran = subject.run_dump(&given, memory, b"ABC");
    let good = (ran.number, ran.status) == (0, 0) && ran.registration == after && compared_parts(memory) == written;
    (!good).then(|| format!("fixed reading 'a dump across 2^32' in a memory above 4 GiB on {}", subject.name()))
}

/// The replay of a 34 that sets bytes on both sides of 2^32: no rule keeps them below.
fn setting_failure(subject: &dyn Subject, memory: &mut [u8]) -> Option<String> {
    let place = (0xffff_fffe, b"abc".to_vec());
    PARTS.iter().for_each(|part| memory[part.0..part.1].fill(0));
    put(memory, &place);
    let written = compared_parts(memory);
    PARTS.iter().for_each(|part| memory[part.0..part.1].fill(0));
    let (mut held, mut args) = (vec![0; 4104], vec![0; 4100]);
    let trace = record(34, &[&0xffff_fffe_u32.to_le_bytes(), place.1.as_slice()].concat());
    let feeding = Feeding { held: &mut held, args: &mut args, memory, journal: &[], inventory: &[] };
    let fed = subject.replay_feed(feeding, &subject.replay_start(EDITION), &trace);
    let ended = subject.replay_end(&fed.replay);
    let good = fed.number == 0 && ended.report.verdict == 0 && compared_parts(memory) == written;
    (!good)
        .then(|| format!("fixed reading 'a 34 across 2^32' in a memory above 4 GiB on {}: {ended:?}", subject.name()))
}

fn put(memory: &mut [u8], place: &(usize, Vec<u8>)) {
    memory[place.0..place.0 + place.1.len()].copy_from_slice(&place.1);
}

fn compared_parts(memory: &[u8]) -> Vec<Vec<u8>> {
    PARTS.iter().map(|part| memory[part.0..part.1].to_vec()).collect()
}

fn failure(subject: &dyn Subject, reading: &LargeReading, memory: &mut [u8]) -> Option<String> {
    PARTS.iter().for_each(|part| memory[part.0..part.1].fill(0));
    put(memory, &reading.before);
    put(memory, &reading.writes);
    let written = compared_parts(memory);
    PARTS.iter().for_each(|part| memory[part.0..part.1].fill(0));
    put(memory, &reading.before);
    let mut args = reading.args.clone();
    let inventory = inventory_record(1, 9, 7, b"abc");
    let journal = property_record(7, b"a", Some(b"v"));
    let (journal, inventory) = (&journal, &inventory);
    let platform = Platform { journal, inventory, edition: EDITION, registration: NONE, reading: READING };
    let answered = subject.call(&mut args, memory, &platform);
    let mut expected = reading.args.clone();
    let inputs = expected[7] as usize;
    for (place, &output) in reading.outputs.iter().enumerate() {
        put_word(&mut expected, 12 + 4 * (inputs + place), output as u32);
    }
    let good = answered.number == 0
        && args == expected
        && answered.registration == reading.registration
        && answered.reading == reading.reading
        && compared_parts(memory) == written;
    (!good).then(|| format!("fixed reading '{}' in a memory above 4 GiB on {}", reading.name, subject.name()))
}

const THREE_BYTES: &[u8] = b"\0\0\0\x01\0\0\0\x07\0\0\0\x04abc\0";

fn indices(name: &'static str, address: u32, size: u32, answered: bool) -> LargeReading {
    let writes = if answered { THREE_BYTES.to_vec() } else { Vec::new() };
    LargeReading {
        name,
        args: arguments(2, &[1, 9, address, size, 1], &[5, 6]),
        before: (0, Vec::new()),
        outputs: if answered { vec![0, 1] } else { vec![-3] },
        writes: (address as usize, writes),
        registration: NONE,
        reading: if answered { ReadingRecord::NONE } else { READING },
    }
}

fn nodes() -> LargeReading {
    LargeReading {
        name: "update-nodes, the area ends at 2^32",
        args: arguments(1, &[0xffff_f000, 1], &[5]),
        before: (0xffff_f010, words(&[9, 9])),
        outputs: vec![0],
        writes: (0xffff_f000, words(&[0, 0, 0, 0, 0])),
        registration: NONE,
        reading: READING,
    }
}

fn properties() -> LargeReading {
    LargeReading {
        name: "update-properties, the area ends at 2^32",
        args: arguments(4, &[0xffff_f000, 1], &[5]),
        before: (0xffff_f000, words(&[7, 0, 0, 0, 9, 9])),
        outputs: vec![0],
        writes: (0xffff_f010, b"\0\0\0\x01a\0\0\0\0\x01v".to_vec()),
        registration: NONE,
        reading: READING,
    }
}

/// The dump has no rule on 2^32: a structure may reach past it.
fn dump() -> LargeReading {
    let mut structure = vec![0; 80];
    put_word(&mut structure, 0, 1);
    structure[5] = 1;
    structure[11] = 40;
    structure[43] = 1;
    structure[45] = 1;
    let mut copy = [0; 512];
    copy[..80].copy_from_slice(&structure);
    LargeReading {
        name: "a dump structure across 2^32",
        args: arguments(3, &[1, 0xffff_fff0, 80], &[5]),
        before: (0xffff_fff0, structure),
        outputs: vec![0],
        writes: (0, Vec::new()),
        registration: Registration { phase: 1, length: 80, copy },
        reading: READING,
    }
}

fn readings() -> Vec<LargeReading> {
    vec![
        nodes(),
        properties(),
        indices("address + size = 2^32", 0xffff_fff0, 16, true),
        indices("address + size = 2^32 + 1", 0xffff_fff0, 17, false),
        indices("address 0xfffffff1 + 16", 0xffff_fff1, 16, false),
        indices("address 1, size 0xffffffff", 1, 0xffff_ffff, true),
        indices("address 2, size 0xffffffff", 2, 0xffff_ffff, false),
        dump(),
    ]
}
