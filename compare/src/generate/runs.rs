//! Runs of a dump (M-104): sections about the ends of their buffers, sections that overlap or feed each other, and numbers
//! near 2^64.

use super::memories;
use super::registrations;
use super::structures::{self, Structure};
use crate::case::{RunCase, Step};
use crate::library::Registration;
use crate::random::Random;

/// What a section asks for, and how many bytes its source has of them.
#[derive(Clone, Copy)]
struct Plan {
    start: u64,
    requested: u64,
    destination: u64,
    has: u64,
}

/// The bytes of partition memory and of platform memory.
#[derive(Clone, Copy)]
struct Ends {
    memory: u64,
    platform: u64,
}

pub fn case(random: &mut Random) -> RunCase {
    let ends = ends(random);
    let mut structure = structures::good(random);
    plan_sections(random, &mut structure, ends);
    let registration = registration(random, &mut structure);
    let mut memory = bytes(random, ends.memory);
    let address = place(random, &structure, &mut memory);
    let steps = steps(random);
    let mut case = RunCase { registration, memory, platform: bytes(random, ends.platform), address, steps };
    if case.steps[0] == Step::Command(1) {
        case.registration.phase = 0;
    }
    case
}

/// Most memories are small, so that sections meet. Where one is long, so is the other in most cases.
fn ends(random: &mut Random) -> Ends {
    let most = if random.one_in(6) { 20_000 } else { 600 };
    let mut end = || match random.below(16) {
        0 => random.below(4),
        1..=5 => random.between(1, 40),
        _ => random.between(most / 40, most),
    };
    Ends { memory: end() as u64, platform: end() as u64 }
}

fn bytes(random: &mut Random, length: u64) -> Vec<u8> {
    let mut bytes = vec![0; length as usize];
    random.fill(&mut bytes);
    bytes
}

/// Draws what the sections ask for, each with a look at those before it.
fn plan_sections(random: &mut Random, structure: &mut Structure, ends: Ends) {
    let mut plans: Vec<Plan> = Vec::new();
    let well = random.one_in(3);
    for place in structure.section_places() {
        let kind = random.pick(&[1, 2, 0x11, 0x11, 0x12, 0x100, 0xffff]);
        let plan = plan(random, kind, ends, &plans, well);
        structure.put_section(place, kind, [plan.start, plan.requested, plan.destination]);
        plans.push(plan);
    }
}

/// A section; where all is well, one that lies inside.
fn plan(random: &mut Random, kind: u16, ends: Ends, earlier: &[Plan], well: bool) -> Plan {
    let source = if kind <= 2 { ends.platform } else { ends.memory };
    let (start, requested) = match random.below(10) {
        0..=3 => inside(random, source),
        4 if kind > 2 && !earlier.is_empty() => fed(random, earlier),
        _ if well => inside(random, source),
        4 | 5 => (about(random, source), random.pick(&[0, 1, 1, 2, 3])),
        6 => to_the_end(random, source),
        7 => long(random, source),
        8 => (far(random, source), random.pick(&[0, 1, 2, 2, 3, u64::MAX, u64::MAX - 1])),
        _ => (below(random, source), 0),
    };
    let has = requested.min(source.saturating_sub(start));
    let destination = match random.below(10) {
        0..=2 => below(random, ends.memory),
        3 | 4 => apart(random, start, has),
        5 => start,
        6 if !earlier.is_empty() => random.pick(earlier).destination,
        7 if !earlier.is_empty() => random.pick(earlier).start,
        _ if well => ends.memory.saturating_sub(has + random.below(3) as u64),
        8 => ends.memory.wrapping_sub(has).wrapping_add(random.pick(&[0, 0, 1, 1, 2])),
        _ if random.one_in(2) => about(random, ends.memory),
        _ => far(random, ends.memory),
    };
    Plan { start, requested, destination, has }
}

/// A place of a buffer; 0 where it has none.
fn below(random: &mut Random, end: u64) -> u64 {
    random.below(end.max(1) as usize) as u64
}

/// A part that lies inside. Of long buffers it is often one that takes more than 4,096 bytes.
fn inside(random: &mut Random, end: u64) -> (u64, u64) {
    let start = if random.one_in(3) { below(random, end) } else { below(random, end / 3) };
    let left = end - start.min(end);
    let length = match random.below(4) {
        0 => below(random, 20).min(left),
        1 => left.min(random.pick(&[4_095, 4_096, 4_097, 8_191, 8_192, 8_193])),
        _ => below(random, left + 1),
    };
    (start, length)
}

/// A place at an end, or up to two before or behind it.
fn about(random: &mut Random, end: u64) -> u64 {
    random.pick(&[end, end, end + 1, end + 2, end.saturating_sub(1), end.saturating_sub(1), end.saturating_sub(2)])
}

/// A start inside, with a length that comes to the end, or to one before or behind it.
fn to_the_end(random: &mut Random, end: u64) -> (u64, u64) {
    let start = below(random, end);
    let left = end.saturating_sub(start);
    (start, random.pick(&[left, left, left + 1, left + 1, left.saturating_sub(1)]))
}

/// A start inside, with a length that is near 2^64, wraps, or is short in its low 32 bits alone.
fn long(random: &mut Random, end: u64) -> (u64, u64) {
    let start = below(random, end);
    let left = end.saturating_sub(start);
    let wrapped = 0_u64.wrapping_sub(start).wrapping_add(below(random, end + 1));
    let low = below(random, left + 1);
    let length = random.pick(&[
        u64::MAX,
        u64::MAX - start,
        0_u64.wrapping_sub(start),
        wrapped,
        wrapped,
        low + (1 << 32),
        low + (1 << 63),
        u64::MAX - low,
    ]);
    (start, length)
}

/// A place near 2^64, or one that lies inside by its low 32 bits or but for its highest bit.
fn far(random: &mut Random, end: u64) -> u64 {
    let inside = below(random, end);
    random.pick(&[u64::MAX, u64::MAX - 1, u64::MAX - inside, inside + (1 << 32), inside + (1 << 63), 1 << 32])
}

/// What an earlier section wrote, about.
fn fed(random: &mut Random, earlier: &[Plan]) -> (u64, u64) {
    let Plan { destination, has, .. } = random.pick(earlier);
    let start = random.pick(&[destination, destination.wrapping_add(1), destination.saturating_sub(1)]);
    (start, random.pick(&[has, has, has.saturating_add(1), has.saturating_sub(1), has / 2]))
}

/// A destination behind or before its source by 1, by less than the length, by about the length, or by more.
fn apart(random: &mut Random, start: u64, length: u64) -> u64 {
    let less = below(random, length);
    let more = length + 1 + random.below(20) as u64;
    let distances = [1, 1, 2, less, less, length.saturating_sub(1), length, length + 1, more, 4_095, 4_097];
    let distance = random.pick(&distances[..if length > 4_096 { 11 } else { 9 }]);
    if random.one_in(2) {
        start.wrapping_add(distance)
    } else {
        start.saturating_sub(distance)
    }
}

/// The structure registered; some are of another phase, some damaged, some no registration.
fn registration(random: &mut Random, structure: &mut Structure) -> Registration {
    if random.one_in(8) {
        structures::break_one_rule(random, structure);
    }
    let bytes = &structure.bytes;
    let mut copy = [0; 512];
    if random.one_in(3) {
        random.fill(&mut copy);
    }
    copy[..bytes.len()].copy_from_slice(bytes);
    let mut registration = Registration { phase: 1, length: bytes.len() as u32, copy };
    match random.below(40) {
        0 | 1 => registration.phase = 0,
        2 | 3 => registration.phase = 2,
        4 => registrations::spoil(random, &mut registration),
        5 => registration.length = random.pick(&[0, 1, 39, 40, 79, 80, 511, 512]),
        6 => registration.length -= 1,
        7 => copy_damaged(random, &mut registration),
        _ => {}
    }
    registration
}

/// Changes one byte of the structure.
fn copy_damaged(random: &mut Random, registration: &mut Registration) {
    let at = random.below(registration.length as usize);
    registration.copy[at] ^= random.nonzero_byte();
}

/// Puts the structure into memory, where there is room and in some cases; gives its address.
fn place(random: &mut Random, structure: &Structure, memory: &mut [u8]) -> u32 {
    let length = structure.bytes.len();
    if memory.len() < length || random.one_in(3) {
        return memories::gap(random, 100) as u32;
    }
    let address = random.between(0, memory.len() - length);
    memory[address..address + length].copy_from_slice(&structure.bytes);
    address as u32
}

fn steps(random: &mut Random) -> Vec<Step> {
    match random.below(10) {
        0..=4 => vec![Step::Run],
        5 => vec![Step::Run, Step::Command(1), Step::Command(2), Step::Command(3), Step::Run],
        6 => vec![Step::Run, Step::Run],
        7 => vec![Step::Command(1), Step::Run, Step::Command(3)],
        _ => (0..random.between(1, 6)).map(|_| step(random)).collect(),
    }
}

fn step(random: &mut Random) -> Step {
    match random.below(5) {
        0 | 1 => Step::Run,
        4 if random.one_in(4) => Step::Command(random.pick(&[0, 4, 0x8000_0001])),
        _ => Step::Command(random.between(1, 3) as u32),
    }
}
