//! Calls of update-nodes.

use super::journals::{self, Size};
use super::{arguments, damage, faults, memories, reading_records, registrations};
use crate::buffers::put_word;
use crate::case::{CallCase, Wanted};
use crate::paper::{records, scope};
use crate::random::Random;

/// What a call is made of, before it is written into buffers.
struct Plan {
    memory: usize,
    address: u32,
    scope: u32,
    journal: Vec<u8>,
    state: u32,
    /// What stands behind the state: in scope 3 the unit and four zero bytes, otherwise twelve zero bytes.
    behind: [u8; 12],
    /// The length of the reportable list.
    list: u32,
}

pub fn call(random: &mut Random) -> CallCase {
    let size = journals::size_for_call(random);
    let mut plan = good_plan(random, size);
    for _ in 0..faults(random) {
        spoil(random, &mut plan);
    }
    write(random, plan)
}

/// The length of the reportable list of a well-formed journal.
fn list_length(journal: &[u8], wanted: Wanted) -> u32 {
    let row = scope::row(u64::from(wanted.scope));
    match (records::journal(journal), row) {
        (Ok(changes), Some(row)) => scope::reportable_list(&changes, &row, wanted.unit_in_scope_3()).len() as u32,
        _ => 0,
    }
}

fn good_plan(random: &mut Random, size: Size) -> Plan {
    let mut wanted = journals::wanted(random);
    let journal = journals::journal(random, wanted, size);
    // A unit of few records, or of none.
    if wanted.scope == 3 && random.one_in(8) {
        wanted.unit = journals::near_unit(random, wanted.unit);
    }
    let list = list_length(&journal, wanted);
    let (memory, address) = memories::page(random);
    let state = good_state(random, list, size);
    let mut behind = [0; 12];
    behind.copy_from_slice(&wanted.first_bytes()[4..]);
    Plan { memory, address, scope: wanted.scope, journal, state, behind, list }
}

/// A state at the beginning, at the end or within the list.
fn good_state(random: &mut Random, list: u32, size: Size) -> u32 {
    let about_an_area = size != Size::Small && random.one_in(2);
    if list == 0 || about_an_area {
        return 0;
    }
    match random.below(6) {
        0 | 1 => 0,
        2 => list - 1,
        3 => 1.min(list - 1),
        _ => random.below(list as usize) as u32,
    }
}

fn bad_state(random: &mut Random, plan: &Plan) -> u32 {
    let records = plan.journal.len() as u32 / 10;
    match random.below(8) {
        0..=2 => plan.list,
        3 => plan.list + 1,
        4 => random.pick(&[0x8000_0000, 0xffff_ffff, 0x8000_0001, 1]),
        5 => plan.state | random.pick(&[0x100, 0x1_0000, 0x100_0000, 0x8000_0000]),
        6 => records,
        _ => random.word(),
    }
}

/// An address that is no multiple, or whose area is not inside memory.
pub fn spoil_address(random: &mut Random, memory: &mut usize, address: &mut u32) {
    match random.below(7) {
        0 | 1 => {
            let more = random.pick(&[1, 2, 4, 8, 16, 512, 2048, 4092, 4095]);
            *address = address.wrapping_add(more);
        }
        2 => *address = (*memory / 4096 * 4096) as u32,
        3 => *address = random.pick(&[0xffff_f000, 0xffff_f000, 0x8000_0000, 0xffff_ffff, 0x7fff_f000]),
        4 => *memory = *address as usize + 4095,
        5 => *memory = *address as usize + random.pick(&[0, 1, 16, 4092, 4095]),
        _ => *memory = random.pick(&[0, 0, 1, 16, 4095]),
    }
}

/// A scope that is none, or one of the others.
pub fn other_scope(random: &mut Random) -> u32 {
    match random.below(4) {
        0 => random.pick(&[0, 4]),
        1 => random.pick(&[5, 0x101, 0x103, 0x1_0001, 0x0100_0000, 0x0300_0000, 0x7fff_ffff]),
        2 => random.pick(&[1, 2, 3, 0x8000_0000, 0x8000_0003]),
        _ => random.word() >> 1 | 4,
    }
}

fn spoil(random: &mut Random, plan: &mut Plan) {
    match random.below(8) {
        0 | 1 => spoil_address(random, &mut plan.memory, &mut plan.address),
        2 => plan.scope = other_scope(random),
        3 | 4 => damage::damage_journal(random, &mut plan.journal),
        5 => {
            let place = if random.one_in(2) { random.below(12) } else { random.pick(&[0, 7, 8, 11]) };
            plan.behind[place] = random.nonzero_byte();
        }
        _ => plan.state = bad_state(random, plan),
    }
}

fn write(random: &mut Random, plan: Plan) -> CallCase {
    let mut memory = memories::memory(random, plan.memory);
    let at = plan.address as usize;
    if at + 16 <= memory.len() {
        put_word(&mut memory, at, plan.state);
        memory[at + 4..at + 16].copy_from_slice(&plan.behind);
    }
    // "a malformed inventory doesn't stop update-nodes"
    let mut inventory = vec![0; random.pick(&[0, 0, 5])];
    random.fill(&mut inventory);
    let args = arguments::good(random, 1, &[plan.address, plan.scope], 1);
    let (edition, reading) = (reading_records::edition(random), reading_records::any(random));
    let registration = registrations::any(random);
    CallCase { args, memory, journal: plan.journal, inventory, edition, registration, reading }
}
