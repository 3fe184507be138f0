//! The kernel dump registration.

use crate::partition::Partition;
use draugsten::args::{self, Command};
use draugsten::{Answer, Fault, Phase, Registration};

/// Where the structure starts in memory.
const ADDRESS: usize = 8192 - 512;

/// A structure of 512 bytes with ten sections from an offset on, as far as they are inside, and no disk.
fn structure(first: usize) -> Vec<u8> {
    let mut bytes = vec![0; 512];
    bytes[3] = 1; // version
    bytes[5] = 10; // number of sections
    bytes[11] = first as u8;
    for at in (0..10).map(|section| first + 40 * section) {
        bytes[at + 3] = 1; // request flag
        bytes[at + 5] = 1; // type
    }
    bytes
}

fn partition_with(structure: &[u8]) -> Partition {
    let mut partition = Partition::new();
    partition.memory[ADDRESS..].copy_from_slice(structure);
    partition
}

fn command(partition: &mut Partition, command: Command) -> Result<Answer, Fault> {
    partition.call(&mut args::configure_kernel_dump(command, ADDRESS as u32, 512))
}

#[test]
fn ten_sections_end_at_512() {
    let good = structure(112);
    let mut partition = partition_with(&good);
    assert_eq!(command(&mut partition, Command::Register), Ok(Answer::Done));
    assert_eq!(partition.registration.phase(), Phase::Registered);
    assert_eq!(partition.registration.structure(), good);

    let mut partition = partition_with(&structure(113));
    assert_eq!(command(&mut partition, Command::Register), Err(Fault::Parameter));
    assert_eq!(partition.registration, Registration::none());
}

#[test]
fn commands_take_turns() {
    let mut partition = partition_with(&structure(112));
    assert_eq!(command(&mut partition, Command::Unregister), Err(Fault::Parameter));
    assert_eq!(command(&mut partition, Command::Register), Ok(Answer::Done));
    assert_eq!(command(&mut partition, Command::Register), Err(Fault::AlreadyRegistered));
    assert_eq!(command(&mut partition, Command::Complete), Err(Fault::Parameter));
    assert_eq!(partition.registration.phase(), Phase::Registered);
    assert_eq!(command(&mut partition, Command::Unregister), Ok(Answer::Done));
    assert_eq!(partition.registration, Registration::none());
}

/// The same copy in another phase.
fn in_phase(phase: Phase, from: &Registration) -> Registration {
    Registration::restore(phase as u32, from.length(), *from.copy()).unwrap()
}

#[test]
fn an_active_dump_is_completed() {
    let good = structure(112);
    let mut partition = partition_with(&good);
    assert_eq!(command(&mut partition, Command::Register), Ok(Answer::Done));
    partition.registration = in_phase(Phase::Active, &partition.registration);
    assert_eq!(partition.registration.structure(), good);
    let active = partition.registration.clone();
    for refused in [Command::Register, Command::Unregister] {
        assert_eq!(command(&mut partition, refused), Err(Fault::DumpActive));
        assert_eq!(partition.registration, active);
    }
    assert_eq!(command(&mut partition, Command::Complete), Ok(Answer::Done));
    assert_eq!(partition.registration, Registration::none());
}

#[test]
fn every_registration_is_restored_as_it_was() {
    for phase in [Phase::None, Phase::Registered, Phase::Active] {
        for (length, byte) in [(0, 0), (40, 1), (512, 0xff)] {
            let restored = Registration::restore(phase as u32, length, [byte; 512]).unwrap();
            assert_eq!((restored.phase(), restored.length(), restored.copy()), (phase, length, &[byte; 512]));
            assert_eq!(restored.structure(), vec![byte; length]);
            assert_eq!(in_phase(phase, &restored), restored);
        }
    }
}

#[test]
fn what_is_no_registration_is_not_restored() {
    for (phase, length) in [(3, 0), (u32::MAX, 0), (0, 513), (1, usize::MAX), (3, 513)] {
        assert_eq!(Registration::restore(phase, length, [0; 512]), Err(Fault::NoRegistration));
    }
}

#[test]
fn nothing_is_registered_at_first() {
    let registration = Registration::default();
    assert_eq!(registration.phase(), Phase::None);
    assert!(registration.structure().is_empty());
}
