//! Sessions of a partition that are recorded as traces (M-110): calls of all tokens, good and bad, over one journal and
//! one inventory, and bytes of memory that are set between them.

use super::inventories::Stock;
use super::journals::{self, Size};
use super::{arguments, damage, indices_call, inventories, memories, mixed, properties, reading_records, structures};
use crate::buffers::{put_word, record};
use crate::case::Wanted;
use crate::paper::{self, replay};
use crate::random::Random;

/// The bytes that one record sets, at the most: a body without its address.
const MOST_SET: usize = 4096;
/// The most bytes of an argument buffer in a trace.
const MOST_ARGS: usize = 4100;

/// A recorded session, and what it goes on over.
pub struct Recording {
    /// Memory as it was at first.
    pub first: Vec<u8>,
    pub journal: Vec<u8>,
    pub inventory: Vec<u8>,
    pub edition: u32,
    pub trace: Vec<u8>,
    memory: Vec<u8>,
    registration: paper::Registration,
    reading: paper::ReadingRecord,
    asked: Asked,
}

/// What most of its calls ask for.
struct Asked {
    wanted: Wanted,
    phandles: Vec<u32>,
    flag: u32,
    kind: u32,
    stock: Stock,
}

/// A session of up to so many steps: a call, with the bytes that it needs, or bytes that are set alone.
pub fn session(random: &mut Random, most: usize) -> Recording {
    let size = size(random);
    session_of(random, size, most)
}

/// Such a session over a journal of this size.
pub fn session_of(random: &mut Random, size: Size, most: usize) -> Recording {
    let mut recording = begin(random, size);
    for _ in 0..random.between(0, most) {
        step(random, &mut recording);
    }
    recording
}

fn size(random: &mut Random) -> Size {
    match random.below(400) {
        0 => Size::Areas,
        1..=12 => Size::Area,
        _ => Size::Small,
    }
}

fn begin(random: &mut Random, size: Size) -> Recording {
    let (wanted, flag) = (journals::wanted(random), random.below(2) as u32);
    let (kind, entries) = (inventories::good_kind(random, flag), random.below(9));
    let properties = properties::stock(random, size);
    let nodes = journals::journal(random, wanted, size);
    let mut journal = mixed(random, &nodes, &properties.journal);
    let stock = inventories::stock(random, flag, kind, entries);
    let mut inventory = stock.bytes.clone();
    match random.below(24) {
        0 => damage::damage_journal(random, &mut journal),
        1 => damage::damage_inventory(random, &mut inventory),
        _ => {}
    }
    let phandles = [&[properties.phandle], properties.others.as_slice()].concat();
    let asked = Asked { wanted, phandles, flag, kind, stock };
    let first = memory(random);
    let replay::Position { registration, reading, .. } = replay::beginning();
    let (edition, memory) = (reading_records::edition(random), first.clone());
    Recording { first, journal, inventory, edition, trace: Vec::new(), memory, registration, reading, asked }
}

/// A memory with whole pages, mostly.
fn memory(random: &mut Random) -> Vec<u8> {
    let length = match random.below(12) {
        0 => random.pick(&[0, 1, 5, 16, 600, 4095]),
        _ => memories::page(random).0,
    };
    memories::memory(random, length)
}

fn step(random: &mut Random, recording: &mut Recording) {
    match random.below(14) {
        0 | 1 => set_anywhere(random, recording),
        2..=4 => update_nodes(random, recording),
        5..=7 => get_indices(random, recording),
        8 | 9 => dump(random, recording),
        10..=12 => update_properties(random, recording),
        _ => {
            let args = odd_arguments(random);
            recording.call(args);
        }
    }
}

impl Recording {
    /// Makes a call and records it.
    fn call(&mut self, args: Vec<u8>) {
        self.trace.extend(record(32, &args));
        let mut after = args;
        let platform = paper::Platform {
            journal: &self.journal,
            inventory: &self.inventory,
            edition: u64::from(self.edition),
            registration: self.registration,
            reading: self.reading,
        };
        let told = paper::call(&mut after, &mut self.memory, &platform);
        (self.registration, self.reading) = (told.registration, told.reading);
        self.trace.extend(record(33, &after));
    }

    /// Sets bytes of memory and records it, where there are some and they lie inside.
    fn set(&mut self, address: usize, bytes: &[u8]) {
        let Some(place) = self.memory.get_mut(address..address + bytes.len()) else {
            return;
        };
        if !bytes.is_empty() {
            place.copy_from_slice(bytes);
            self.trace.extend(setting(address as u32, bytes));
        }
    }

    /// The address of a whole page, or 0 where there is none.
    fn page(&self, random: &mut Random) -> usize {
        4096 * random.below((self.memory.len() / 4096).max(1))
    }
}

/// A record of kind 34.
pub fn setting(address: u32, bytes: &[u8]) -> Vec<u8> {
    record(34, &[&address.to_le_bytes(), bytes].concat())
}

/// Some bytes anywhere: one, a few, or as many as a record sets; sometimes the last ones of memory.
fn set_anywhere(random: &mut Random, recording: &mut Recording) {
    let length = match random.below(16) {
        0 => MOST_SET,
        1..=4 => 1,
        _ => random.between(1, 60),
    };
    let length = length.min(recording.memory.len());
    let last = recording.memory.len() - length;
    let address = if random.one_in(4) { last } else { random.between(0, last) };
    let mut bytes = vec![0; length];
    random.fill(&mut bytes);
    recording.set(address, &bytes);
}

/// A call of these inputs, sometimes with a damaged buffer or one that is as long as a record holds.
fn call(random: &mut Random, recording: &mut Recording, token: u32, inputs: &[u32], outputs: usize) {
    let mut args = arguments::good(random, token, inputs, outputs);
    match random.below(60) {
        0..=3 => arguments::damage(random, &mut args),
        4 => args.resize(MOST_ARGS - random.pick(&[0, 0, 0, 1]), 0xc3),
        _ => {}
    }
    recording.call(args);
}

/// Goes on from what a page holds, or begins there.
fn update_nodes(random: &mut Random, recording: &mut Recording) {
    let wanted = if random.one_in(12) { journals::wanted(random) } else { recording.asked.wanted };
    let page = recording.page(random);
    if !random.one_in(3) {
        recording.set(page, &wanted.first_bytes());
    }
    let address = page as u32 + if random.one_in(30) { random.pick(&[1, 16, 4096]) } else { 0 };
    call(random, recording, 1, &[address, wanted.scope], 1);
}

fn update_properties(random: &mut Random, recording: &mut Recording) {
    let phandle = random.pick(&recording.asked.phandles);
    let page = recording.page(random);
    if !random.one_in(3) {
        let mut head = [0; 16];
        put_word(&mut head, 0, phandle);
        recording.set(page, &head);
    }
    let scope = journals::wanted(random).scope;
    call(random, recording, 4, &[page as u32, scope], 1);
}

/// Mostly the entry that is due.
fn get_indices(random: &mut Random, recording: &mut Recording) {
    let due = recording.reading.number as u32;
    let start = if random.one_in(6) { random.pick(&[0, 1, 2, due.wrapping_add(1)]) } else { due };
    let Asked { flag, kind, ref stock, .. } = recording.asked;
    let size = indices_call::size(random, stock, start);
    let room = recording.memory.len().saturating_sub(size as usize);
    let address = random.between(0, room) as u32;
    let flag = if random.one_in(20) { 1 - flag } else { flag };
    call(random, recording, 2, &[flag, kind, address, size, start], 2);
}

/// Registers a structure that is set before, mostly a good one, or gives another command.
fn dump(random: &mut Random, recording: &mut Recording) {
    let mut structure = structures::good(random);
    if random.one_in(5) {
        structures::break_one_rule(random, &mut structure);
    }
    let command = random.pick(&[1, 1, 1, 2, 2, 3]);
    let room = recording.memory.len().saturating_sub(structure.bytes.len());
    let address = random.between(0, room);
    if command == 1 {
        recording.set(address, &structure.bytes);
    }
    call(random, recording, 3, &[command, address as u32, structure.bytes.len() as u32], 1);
}

/// A buffer that is too short, empty, as long as a record holds, or of any token and counts.
pub fn odd_arguments(random: &mut Random) -> Vec<u8> {
    let mut args = match random.below(5) {
        0 => Vec::new(),
        1 => vec![0; random.between(1, 11)],
        2 => vec![0; MOST_ARGS - random.pick(&[0, 0, 1])],
        _ => return arguments::any(random),
    };
    random.fill(&mut args);
    args
}
