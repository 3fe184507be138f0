//! Calls of get-indices.

use super::inventories::{self, Stock, AMPLE, LONGEST};
use super::{arguments, damage, faults, memories, reading_records, registrations};
use crate::case::CallCase;
use crate::library::ReadingRecord;
use crate::random::Random;

struct Plan {
    memory: usize,
    flag: u32,
    kind: u32,
    address: u32,
    size: u32,
    start: u32,
    inventory: Vec<u8>,
    entries: u32,
}

pub fn call(random: &mut Random) -> CallCase {
    let mut plan = good_plan(random);
    for _ in 0..faults(random) {
        spoil(random, &mut plan);
    }
    write(random, plan)
}

fn number_of_entries(random: &mut Random) -> usize {
    match random.below(40) {
        0 => 0,
        1 => random.between(20, 60),
        2..=20 => random.between(1, 4),
        _ => random.between(1, 12),
    }
}

fn good_plan(random: &mut Random) -> Plan {
    let flag = random.below(2) as u32;
    let kind = inventories::good_kind(random, flag);
    let stock = if random.one_in(500) {
        inventories::full_stock(random, flag, kind)
    } else {
        let entries = number_of_entries(random);
        inventories::stock(random, flag, kind, entries)
    };
    let entries = stock.codes.len() as u32;
    let start = good_start(random, entries);
    let size = size(random, &stock, start);
    let address = memories::gap(random, 300) as u32;
    let memory = address as usize + size as usize + memories::gap(random, 100);
    Plan { memory, flag, kind, address, size, start, inventory: stock.bytes, entries }
}

fn good_start(random: &mut Random, entries: u32) -> u32 {
    match random.below(4) {
        0 | 1 => 1,
        2 => entries,
        _ => random.between(1, entries.max(1) as usize) as u32,
    }
}

/// "A code of c bytes takes 8 + 4 x (c / 4 + 1) bytes"
fn entry_bytes(code: usize) -> usize {
    8 + 4 * (code / 4 + 1)
}

/// A size on a line: what some entries from the start on take, a byte less or more, or one of the paper's numbers.
pub fn size(random: &mut Random, stock: &Stock, start: u32) -> u32 {
    let due = stock.codes.get((start as usize).saturating_sub(1)..).unwrap_or(&[]);
    if due.first() == Some(&LONGEST) && random.one_in(2) {
        return random.pick(&[AMPLE - 1, AMPLE, AMPLE + 1]) as u32;
    }
    let some = if random.one_in(3) { 1 } else { random.between(1, due.len().clamp(1, 80)) };
    let exact = 4 + due.iter().take(some).map(|&code| entry_bytes(code)).sum::<usize>();
    let size = match random.below(12) {
        0..=3 => exact,
        4 | 5 => exact - 1,
        6 => exact + random.between(1, 12),
        7 => random.pick(&[4, 5, 8, 11, 12, 15, 16, 17, 19, 20]),
        8 => random.pick(&[91, 92, 93, AMPLE - 1, AMPLE, AMPLE + 1, AMPLE + 1]),
        9 => random.between(4, 300),
        10 => random.between(4, 6000),
        _ => AMPLE,
    };
    size as u32
}

/// An address with which the area is not inside memory, or ends past 2^32.
fn spoil_address(random: &mut Random, plan: &mut Plan) {
    let end = plan.address as usize + plan.size as usize;
    match random.below(6) {
        0 | 1 => plan.memory = end.saturating_sub(1),
        2 => plan.memory = random.below(end.max(1)),
        3 => plan.address = 0u32.wrapping_sub(plan.size.wrapping_add(random.pick(&[0, 1, 0xffff_ffff]))),
        4 => plan.address = 0u32.wrapping_sub(random.between(1, plan.size.max(1) as usize) as u32),
        _ => plan.size = random.pick(&[0xffff_ffff, 0x8000_0000, 0xffff_fffc]),
    }
}

fn bad_start(random: &mut Random, entries: u32) -> u32 {
    match random.below(8) {
        0 | 1 => 0,
        2 | 3 => entries + 1,
        4 | 5 => random.pick(&[0x8000_0000, 0x8000_0001, 0xffff_ffff, 0x7fff_ffff]),
        6 => 1 + random.pick(&[0x100, 0x1_0000, 0x8000_0000]),
        _ => random.word(),
    }
}

fn bad_kind(random: &mut Random, plan: &Plan) -> u32 {
    match random.below(3) {
        0 => plan.kind ^ 1 << random.below(32),
        1 => 9003,
        _ => 9000 + random.below(5) as u32,
    }
}

fn spoil(random: &mut Random, plan: &mut Plan) {
    match random.below(12) {
        0 => plan.flag = random.pick(&[2, 2, 3, 0x100, 0x1_0000, 0x8000_0000, 0x8000_0001, 0xffff_ffff]),
        1 | 2 => plan.kind = bad_kind(random, plan),
        3 => plan.size = random.pick(&[0, 1, 2, 3, 3, 4, 4]),
        4 | 5 => spoil_address(random, plan),
        6 | 7 => damage::damage_inventory(random, &mut plan.inventory),
        8..=10 => plan.start = bad_start(random, plan.entries),
        _ => plan.flag = 1 - plan.flag.min(1),
    }
}

fn write(random: &mut Random, plan: Plan) -> CallCase {
    let memory = memories::memory(random, plan.memory);
    let mut journal = vec![0; random.pick(&[0, 0, 5])];
    random.fill(&mut journal);
    let Plan { flag, kind, address, size, start, entries, .. } = plan;
    let args = arguments::good(random, 2, &[flag, kind, address, size, start], 2);
    let edition = reading_records::edition(random);
    let reading = reading_records::for_call(random, ReadingRecord { flag, kind, number: start, edition }, entries);
    let registration = registrations::any(random);
    CallCase { args, memory, journal, inventory: plan.inventory, edition, registration, reading }
}
