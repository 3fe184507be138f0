//! "Run the dump." (M-104)

use super::kernel_dump::{broken_rule, header, Phase, Registration};
use super::words::{big, word};
use super::{refused, Refusal};

/// The registration afterwards, or the rule that refuses the run.
/// "Given a registered structure, partition memory and a platform memory buffer, process the sections in order"
pub fn run_dump(registration: &Registration, memory: &mut [u8], platform: &[u8]) -> Result<Registration, Refusal> {
    judge(registration)?;
    let mut copy = registration.copy;
    let places = section_places(&copy);
    let errors: Vec<bool> = places.into_iter().map(|at| run_section(&mut copy, at, memory, platform)).collect();
    // "0x8000 and, on any section error, 0x2000 of the status flags are filled in the copy"
    let error_flag = if errors.contains(&true) { 0x2000 } else { 0 };
    copy[6..8].copy_from_slice(&(0x8000_u16 | error_flag).to_be_bytes());
    // "and the registration becomes active"
    Ok(Registration { phase: Phase::Active, length: registration.length, copy })
}

/// "Refusals: -10 when active, -3 when nothing is registered or the copy isn't a good structure."
fn judge(registration: &Registration) -> Result<(), Refusal> {
    if registration.phase == Phase::Active {
        return refused(-10, "dump active");
    }
    if registration.phase == Phase::None {
        return refused(-3, "nothing registered");
    }
    if !(40..=512).contains(&registration.length) {
        return refused(-3, "length not 40 to 512");
    }
    match broken_rule(&registration.copy[..registration.length as usize]) {
        Some(rule) => refused(-3, rule),
        None => Ok(()),
    }
}

/// The offsets of the sections of a good structure.
pub fn section_places(copy: &[u8]) -> Vec<usize> {
    let header = header(copy);
    (0..header.sections).map(|number| (header.first_section + 40 * number) as usize).collect()
}

/// "A section: request flags (4) ..; type (2) ..; error flags (2) ..; source (8), requested (8); actual (8) ..;
/// destination (8)."
pub struct Section {
    pub request: u64,
    pub kind: u64,
    pub source: u128,
    pub requested: u128,
    pub destination: u128,
}

pub fn section(bytes: &[u8]) -> Section {
    Section {
        request: word(bytes, 0),
        kind: big(&bytes[4..6]),
        source: u128::from(big(&bytes[8..16])),
        requested: u128::from(big(&bytes[16..24])),
        destination: u128::from(big(&bytes[32..40])),
    }
}

impl Section {
    /// "types 1 and 2 read platform memory at a byte offset, the others partition memory at an address"
    pub fn reads_platform(&self) -> bool {
        self.kind == 1 || self.kind == 2
    }
}

/// Runs the section at an offset of the copy, and fills in what came of it; true where it has an error flag.
fn run_section(copy: &mut [u8], at: usize, memory: &mut [u8], platform: &[u8]) -> bool {
    let section = section(&copy[at..at + 40]);
    let (error_flags, actual) = process(&section, memory, platform);
    copy[at + 6..at + 8].copy_from_slice(&error_flags.to_be_bytes());
    copy[at + 24..at + 32].copy_from_slice(&actual.to_be_bytes());
    error_flags != 0
}

/// The error flags of a section and its actual length, with its bytes copied.
fn process(section: &Section, memory: &mut [u8], platform: &[u8]) -> (u16, u64) {
    // "Sections without flag 1 count zero bytes and get no error flag."
    if section.request != 1 {
        return (0, 0);
    }
    let source = if section.reads_platform() { platform } else { &*memory };
    let (source_end, memory_end) = (source.len() as u128, memory.len() as u128);
    // The bytes that the source has of those requested, and the room that memory has for them.
    let has = section.requested.min(source_end.saturating_sub(section.source));
    let room = memory_end.saturating_sub(section.destination);
    // "copying what there is", "copying what fits", "Either start outside copies nothing."
    let actual = has.min(room);
    // "an overlapping destination gets what the source held before that section began"
    let held: Vec<u8> = (0..actual).map(|place| source[(section.source + place) as usize]).collect();
    for (place, byte) in (0..).zip(held) {
        memory[(section.destination + place) as usize] = byte;
    }
    (error_flags(section, source_end, memory_end, has > room), actual as u64)
}

/// "Error flags, each set where it applies"
fn error_flags(section: &Section, source_end: u128, memory_end: u128, too_small: bool) -> u16 {
    let applying = [
        // "source start at or past its buffer's end 0x4000"
        (section.source >= source_end, 0x4000),
        // "start plus length past the source's end 0x2000"
        (section.source + section.requested > source_end, 0x2000),
        // "destination start at or past the end of partition memory 0x1000"
        (section.destination >= memory_end, 0x1000),
        // "destination too small for the bytes that the source has 0x0800"
        (too_small, 0x0800),
    ];
    applying.iter().filter(|(applies, _)| *applies).fold(0, |flags, (_, flag)| flags | flag)
}
