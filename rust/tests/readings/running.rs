//! The run of a registered dump (M-104).

use crate::partition::Partition;
use draugsten::args::{self, Command};
use draugsten::{Answer, Fault, Phase, Registration, Section, DUMP_ERROR, DUMP_PERFORMED};

/// Types that read platform memory and partition memory.
const PLATFORM: u16 = 2;
const PARTITION: u16 = 0x11;

/// The numbers of partition memory's bytes are their addresses, those of platform memory's are 128 above their offsets.
const MEMORY: usize = 64;
const PLATFORM_SIZE: usize = 32;

fn memory() -> Vec<u8> {
    (0..MEMORY as u8).collect()
}

fn platform() -> Vec<u8> {
    (128..128 + PLATFORM_SIZE as u8).collect()
}

/// A section that asks for bytes: type, source, requested length, destination.
fn asked(type_number: u16, source: u64, requested: u64, destination: u64) -> Section {
    Section { request_flags: 1, type_number, error_flags: 0, source, requested, actual: 0, destination }
}

fn section_bytes(section: &Section) -> Vec<u8> {
    let flags = [section.type_number, section.error_flags].into_iter().flat_map(u16::to_be_bytes);
    let numbers = [section.source, section.requested, section.actual, section.destination];
    let head = section.request_flags.to_be_bytes().into_iter().chain(flags);
    head.chain(numbers.into_iter().flat_map(u64::to_be_bytes)).collect()
}

/// A structure of these sections, with a disk and its path behind them.
fn structure(sections: &[Section]) -> Vec<u8> {
    let end = 40 + 40 * sections.len();
    let mut bytes = vec![0; 40];
    (bytes[3], bytes[5], bytes[11], bytes[14]) = (1, sections.len() as u8, 40, 2);
    bytes[32..36].copy_from_slice(&(end as u32).to_be_bytes());
    bytes.extend(sections.iter().flat_map(section_bytes));
    bytes.extend(b"/vdevice/v-scsi\0");
    bytes
}

fn registered(structure: &[u8]) -> Registration {
    let mut copy = [0; 512];
    copy[..structure.len()].copy_from_slice(structure);
    Registration::restore(Phase::Registered as u32, structure.len(), copy).unwrap()
}

/// Runs these sections; gives the registration and memory.
fn run(sections: &[Section]) -> (Registration, Vec<u8>) {
    let (mut registration, mut memory) = (registered(&structure(sections)), memory());
    assert_eq!(registration.run(&mut memory, &platform()), Ok(()));
    (registration, memory)
}

/// What one section came to: error flags and actual length.
fn came(section: Section) -> (u16, u64) {
    let (registration, _) = run(&[section]);
    let section = registration.sections()[0];
    (section.error_flags, section.actual)
}

#[test]
fn a_run_copies_in_order_and_fills_in_the_copy() {
    let sections = [
        asked(PLATFORM, 30, 2, 0),
        asked(PARTITION, 0, 4, 2),
        Section { request_flags: 0, ..asked(PARTITION, 99, 99, 99) },
        asked(1, 31, 2, 60),
    ];
    let (registration, memory) = run(&sections);
    let mut expected = self::memory();
    expected[..6].copy_from_slice(&[158, 159, 158, 159, 2, 3]);
    expected[60] = 159;
    assert_eq!(memory, expected);

    let mut filled = sections;
    (filled[0].actual, filled[1].actual, filled[3].actual) = (2, 4, 1);
    filled[3].error_flags = Section::LENGTH;
    let mut structure = structure(&filled);
    structure[6] = 0xa0;
    assert_eq!((registration.phase(), registration.structure()), (Phase::Active, &structure[..]));
    assert_eq!(registration.status_flags(), DUMP_PERFORMED | DUMP_ERROR);
    assert_eq!(registration.sections(), filled);
}

#[test]
fn a_run_without_an_error() {
    let (registration, _) = run(&[asked(PARTITION, 0, MEMORY as u64, 0)]);
    assert_eq!(registration.status_flags(), DUMP_PERFORMED);
    assert_eq!((registration.sections()[0].error_flags, registration.sections()[0].actual), (0, 64));
}

#[test]
fn the_source_and_its_end() {
    let of = |source, requested| came(asked(PLATFORM, source, requested, 0));
    assert_eq!(of(31, 1), (0, 1));
    assert_eq!(of(31, 2), (Section::LENGTH, 1));
    assert_eq!(of(32, 0), (Section::SOURCE, 0));
    assert_eq!(of(32, 1), (Section::SOURCE | Section::LENGTH, 0));
    assert_eq!(of(33, 0), (Section::SOURCE | Section::LENGTH, 0));
    assert_eq!(of(u64::MAX, 2), (Section::SOURCE | Section::LENGTH, 0));
    assert_eq!(of(0, u64::MAX), (Section::LENGTH, 32));
}

#[test]
fn the_destination_and_its_room() {
    let of = |requested, destination| came(asked(PARTITION, 0, requested, destination));
    assert_eq!(of(4, 60), (0, 4));
    assert_eq!(of(4, 61), (Section::ROOM, 3));
    assert_eq!(of(0, 63), (0, 0));
    assert_eq!(of(0, 64), (Section::DESTINATION, 0));
    assert_eq!(of(1, 64), (Section::DESTINATION | Section::ROOM, 0));
    assert_eq!(of(u64::MAX, 63), (Section::LENGTH | Section::ROOM, 1));
    let both = asked(PLATFORM, 32, 1, u64::MAX);
    assert_eq!(came(both), (Section::SOURCE | Section::LENGTH | Section::DESTINATION, 0));
}

#[test]
fn an_overlap_gets_what_the_source_held() {
    for (from, to) in [(8, 9), (9, 8), (0, 31), (31, 0)] {
        let (_, memory) = run(&[asked(PARTITION, from, 32, to)]);
        let mut expected = self::memory();
        expected.copy_within(from as usize..from as usize + 32, to as usize);
        assert_eq!(memory, expected);
    }
}

#[test]
fn what_is_refused_changes_nothing() {
    let good = registered(&structure(&[asked(PARTITION, 0, 4, 8)]));
    let of_phase = |phase: Phase| Registration::restore(phase as u32, good.length(), *good.copy()).unwrap();
    let mut bad = *good.copy();
    bad[46] = 0x20; // an error flag
    let bad = Registration::restore(Phase::Registered as u32, good.length(), bad).unwrap();
    let short = Registration::restore(Phase::Registered as u32, 79, *good.copy()).unwrap();
    for (given, fault) in [
        (Registration::none(), Fault::Parameter),
        (of_phase(Phase::None), Fault::Parameter),
        (bad, Fault::Parameter),
        (short, Fault::Parameter),
        (of_phase(Phase::Active), Fault::DumpActive),
    ] {
        let (mut registration, mut memory) = (given.clone(), memory());
        assert_eq!(registration.run(&mut memory, &platform()), Err(fault));
        assert_eq!((registration, memory), (given, self::memory()));
    }
}

#[test]
fn a_dump_from_its_registration_to_its_end() {
    let structure = structure(&[asked(PLATFORM, 0, 32, 0)]);
    let mut partition = Partition::new();
    partition.memory[4096..4096 + structure.len()].copy_from_slice(&structure);
    let command = |partition: &mut Partition, command| {
        partition.call(&mut args::configure_kernel_dump(command, 4096, structure.len() as u32))
    };
    assert_eq!(command(&mut partition, Command::Register), Ok(Answer::Done));
    assert_eq!(partition.registration.run(&mut partition.memory, &platform()), Ok(()));
    assert_eq!(partition.memory[..32], platform());
    assert_eq!(partition.memory[4096..4096 + structure.len()], structure);
    let active = partition.registration.clone();
    for refused in [Command::Register, Command::Unregister] {
        assert_eq!(command(&mut partition, refused), Err(Fault::DumpActive));
        assert_eq!(partition.registration, active);
    }
    assert_eq!(command(&mut partition, Command::Complete), Ok(Answer::Done));
    assert_eq!(partition.registration, Registration::none());
    assert_eq!(partition.registration.run(&mut partition.memory, &platform()), Err(Fault::Parameter));
}

#[test]
fn what_a_copy_tells_of_any_bytes() {
    let of = |length: usize, copy: [u8; 512]| Registration::restore(1, length, copy).unwrap();
    assert_eq!((Registration::none().status_flags(), Registration::none().sections()), (0, vec![]));
    assert!(of(39, [0xff; 512]).sections().is_empty());
    assert!(of(512, [0xff; 512]).sections().is_empty());
    assert_eq!(of(512, [0xff; 512]).status_flags(), 0xffff);
    let mut copy = [0; 512];
    (copy[4], copy[5], copy[10], copy[11]) = (0xff, 0xff, 1, 0x90);
    assert_eq!(of(512, copy).sections().len(), 2);
    assert_eq!(of(479, copy).sections().len(), 1);
}
