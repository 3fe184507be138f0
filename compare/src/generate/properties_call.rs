//! Calls of update-properties.

use super::journals::Size;
use super::nodes_call::{other_scope, spoil_address};
use super::{arguments, damage, faults, journals, memories, properties, reading_records, registrations};
use crate::buffers::put_word;
use crate::case::CallCase;
use crate::paper::records::{self, Property};
use crate::paper::update_properties::{changes_of, session, state_of};
use crate::random::Random;

/// What a call is made of, before it is written into buffers.
struct Plan {
    memory: usize,
    address: u32,
    scope: u32,
    journal: Vec<u8>,
    phandle: u32,
    others: Vec<u32>,
    state: u32,
    /// What the session carries, from 0 on.
    states: Vec<u32>,
    /// Bytes 8 to 15 of the area.
    reserved: [u8; 8],
}

pub fn call(random: &mut Random) -> CallCase {
    let size = match random.below(2500) {
        0 | 1 => Size::Full,
        2..=200 => Size::Areas,
        201..=1200 => Size::Area,
        _ => Size::Small,
    };
    let mut plan = good_plan(random, size);
    for _ in 0..faults(random) {
        spoil(random, &mut plan);
    }
    write(random, plan)
}

/// The states that a node's session carries, in their order.
fn states(changes: &[Property]) -> Vec<u32> {
    session(changes).into_iter().map(|due| state_of(changes, due) as u32).collect()
}

fn states_in(journal: &[u8], phandle: u32) -> Vec<u32> {
    let properties = records::properties(journal).unwrap_or_default();
    states(&changes_of(&properties, u64::from(phandle)))
}

fn good_plan(random: &mut Random, size: Size) -> Plan {
    let stock = properties::stock(random, size);
    let phandle = if random.one_in(8) { random.pick(&stock.others) } else { stock.phandle };
    let states = states_in(&stock.journal, phandle);
    let state = good_state(random, &states);
    let (memory, address) = memories::page(random);
    let scope = journals::wanted(random).scope;
    let (journal, mut others) = (stock.journal, stock.others);
    others.push(stock.phandle);
    Plan { memory, address, scope, journal, phandle, others, state, states, reserved: [0; 8] }
}

/// A state of the session: mostly 0, the second or the last.
fn good_state(random: &mut Random, states: &[u32]) -> u32 {
    match (states, random.below(4)) {
        ([_, second, ..], 0) => *second,
        ([.., last], 1) => *last,
        ([_, ..], 2) => random.pick(states),
        _ => 0,
    }
}

/// A state that is one off, the offset of a record, one of another node's session, or any.
fn bad_state(random: &mut Random, plan: &Plan) -> u32 {
    let good = match plan.states.as_slice() {
        [_, second, ..] if random.one_in(2) => *second,
        states => good_state(random, states),
    };
    match random.below(10) {
        0 | 1 | 8 | 9 => good.wrapping_add(random.pick(&[1, u32::MAX, 4, 8, 10])),
        2 | 3 => offset_of_a_record(random, plan),
        4 => {
            let others = plan.others.iter().flat_map(|&other| states_in(&plan.journal, other));
            others.max().unwrap_or(1)
        }
        5 => random.below(plan.journal.len() + 2) as u32,
        6 => good | random.pick(&[0x100, 0x1_0000, 0x100_0000, 0x8000_0000]),
        _ => random.pick(&[plan.journal.len() as u32, 0x8000_0000, 0xffff_ffff, 1]),
    }
}

/// Where a record of the node begins, mostly the first, or where its value does.
fn offset_of_a_record(random: &mut Random, plan: &Plan) -> u32 {
    let properties = records::properties(&plan.journal).unwrap_or_default();
    let changes = changes_of(&properties, u64::from(plan.phandle));
    let Some(first) = changes.first() else {
        return random.below(40) as u32;
    };
    let change = if random.one_in(2) { *first } else { random.pick(&changes) };
    let value_at = change.at as u32 + 9 + change.name.len() as u32;
    random.pick(&[change.at as u32, change.at as u32, value_at, value_at + 1])
}

/// A phandle that only a node's record carries, or one that is easily taken for the node's.
fn other_phandle(random: &mut Random, plan: &Plan) -> u32 {
    let nodes = records::journal(&plan.journal).unwrap_or_default();
    if nodes.is_empty() || random.one_in(2) {
        properties::near_phandle(random, plan.phandle)
    } else {
        nodes[random.below(nodes.len())].operation.first
    }
}

fn spoil(random: &mut Random, plan: &mut Plan) {
    match random.below(12) {
        0 | 1 => spoil_address(random, &mut plan.memory, &mut plan.address),
        2 => plan.scope = other_scope(random),
        3..=5 => damage::damage_journal(random, &mut plan.journal),
        6 | 7 => {
            let place = if random.one_in(2) { random.below(8) } else { random.pick(&[0, 7]) };
            plan.reserved[place] = random.nonzero_byte();
        }
        8 => plan.phandle = other_phandle(random, plan),
        _ => plan.state = bad_state(random, plan),
    }
}

fn write(random: &mut Random, plan: Plan) -> CallCase {
    let mut memory = memories::memory(random, plan.memory);
    let at = plan.address as usize;
    if at + 16 <= memory.len() {
        put_word(&mut memory, at, plan.phandle);
        put_word(&mut memory, at + 4, plan.state);
        memory[at + 8..at + 16].copy_from_slice(&plan.reserved);
    }
    let mut inventory = vec![0; random.pick(&[0, 0, 5])];
    random.fill(&mut inventory);
    let args = arguments::good(random, 4, &[plan.address, plan.scope], 1);
    let (edition, reading) = (reading_records::edition(random), reading_records::any(random));
    let registration = registrations::any(random);
    CallCase { args, memory, journal: plan.journal, inventory, edition, registration, reading }
}
