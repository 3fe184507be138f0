//! Calls of configure-kernel-dump.

use super::{arguments, faults, memories, reading_records, registrations, structures};
use crate::case::CallCase;
use crate::random::Random;

struct Plan {
    command: u32,
    phase: u32,
    address: u32,
    length: u32,
    structure: structures::Structure,
    memory: usize,
}

pub fn call(random: &mut Random) -> CallCase {
    let mut plan = good_plan(random);
    for _ in 0..faults(random) {
        spoil(random, &mut plan);
    }
    write(random, plan)
}

fn good_plan(random: &mut Random) -> Plan {
    let (phase, command) = match random.below(12) {
        0 => (1, 2),
        1 => (2, 3),
        2 => (random.below(3) as u32, random.below(5) as u32),
        _ => (0, 1),
    };
    let structure = structures::good(random);
    let address = memories::gap(random, 200) as u32;
    let length = structure.bytes.len() as u32;
    let memory = (address + length) as usize + memories::gap(random, 100);
    Plan { command, phase, address, length, structure, memory }
}

fn spoil(random: &mut Random, plan: &mut Plan) {
    match random.below(14) {
        0 => plan.command = random.pick(&[0, 2, 3, 4, 0x101, 0x1_0001, 0x8000_0001, 0xffff_ffff]),
        1 => plan.phase = random.below(3) as u32,
        2 | 3 => spoil_length(random, plan),
        4 => spoil_address(random, plan),
        5 => {
            let at = random.below(plan.structure.bytes.len());
            plan.structure.bytes[at] ^= random.nonzero_byte();
        }
        _ => {
            structures::break_one_rule(random, &mut plan.structure);
            plan.length = plan.structure.bytes.len() as u32;
        }
    }
}

fn spoil_length(random: &mut Random, plan: &mut Plan) {
    plan.length = match random.below(5) {
        0 => random.pick(&[0, 1, 41, 80, 511, 512, 514, 600]),
        1 | 2 => random.pick(&[39, 40, 79, 513]),
        3 => random.pick(&[0x8000_0000, 0xffff_ffff, 0x1_0050]),
        _ => plan.length.saturating_sub(1),
    };
    if plan.length < 1000 && !random.one_in(4) {
        plan.memory = plan.memory.max(plan.address as usize + plan.length as usize);
    }
}

fn spoil_address(random: &mut Random, plan: &mut Plan) {
    let end = u64::from(plan.address) + u64::from(plan.length);
    match random.below(4) {
        0 | 1 => plan.memory = (end as usize).saturating_sub(1),
        2 => plan.address = 0u32.wrapping_sub(random.between(1, 512) as u32),
        _ => plan.address = random.pick(&[0x8000_0000, 0xffff_ffff, 0x7fff_ffff]),
    }
}

fn write(random: &mut Random, plan: Plan) -> CallCase {
    let mut memory = memories::memory(random, plan.memory);
    let at = plan.address as usize;
    if at < memory.len() {
        let held = plan.structure.bytes.len().min(memory.len() - at);
        memory[at..at + held].copy_from_slice(&plan.structure.bytes[..held]);
    }
    let registration = registrations::of_phase(random, plan.phase);
    let args = arguments::good(random, 3, &[plan.command, plan.address, plan.length], 1);
    let (journal, inventory) = (vec![0; random.below(2)], vec![0; random.below(2)]);
    let (edition, reading) = (reading_records::edition(random), reading_records::any(random));
    CallCase { args, memory, journal, inventory, edition, registration, reading }
}
