//! Registrations: of all phases, clean and unclean, and such as are none.

use crate::library::Registration;
use crate::random::Random;

/// A registration of this phase with a copy of any length. An unclean one has bytes past its copy, or a copy where
/// none belongs.
pub fn of_phase(random: &mut Random, phase: u32) -> Registration {
    let clean = !random.one_in(3);
    let length = match random.below(4) {
        _ if phase == 0 && clean => 0,
        0 => random.pick(&[0, 1, 40, 80, 511, 512]),
        _ => random.between(0, 512),
    };
    let mut copy = [0; 512];
    let filled = if clean { length } else { 512 };
    random.fill(&mut copy[..filled]);
    Registration { phase, length: length as u32, copy }
}

pub fn any(random: &mut Random) -> Registration {
    let phase = random.below(3) as u32;
    of_phase(random, phase)
}

/// Makes it no registration: a phase above 2 or a length above 512.
pub fn spoil(random: &mut Random, registration: &mut Registration) {
    match random.below(3) {
        0 => registration.phase = random.pick(&[3, 4, 256, 0x0100_0001, 0x8000_0000, 0xffff_ffff]),
        _ => registration.length = random.pick(&[513, 514, 1024, 0x1_0000, 0x8000_0000, 0xffff_ffff]),
    }
}
