//! Random cases, in which this side has to answer and to leave the bytes as the independent program does.

use crate::interface::{ReadingRecord, Registration, Side};
use crate::random::Xorshift;
use crate::{independent, plain};
use std::collections::BTreeMap;

const SIDES: [Side; 2] = [plain::SIDE, independent::SIDE];
const CASES: usize = 20_000;
const AREA: usize = 4096;
/// Nodes that are easily taken for each other.
const NODES: [u32; 3] = [1, 0x0100_0000, 0x101];
/// Units that are easily taken for each other.
const UNITS: [u64; 4] = [0, 1, 1 << 32, 1 << 56];

fn pick<T: Copy>(random: &mut Xorshift, from: &[T]) -> T {
    from[usize::from(random.below(from.len() as u64))]
}

/// Changes a bit of one of the first bytes in one case of eight.
fn spoil(random: &mut Xorshift, bytes: &mut [u8], within: usize) {
    let within = within.min(bytes.len());
    if within > 0 && random.below(8) == 0 {
        let at = usize::from(random.below(within as u64));
        bytes[at] ^= 1 << random.below(8);
    }
}

fn journal(random: &mut Xorshift) -> Vec<u8> {
    let kinds = pick(random, &[&[1][..], &[1, 2], &[1, 2, 3], &[1, 2, 3, 4], &[4], &[1, 2, 3, 4, 5, 6], &[5, 5, 5, 6]]);
    let records = if random.below(2) == 0 { random.below(20) } else { 1000 + random.below(2500) };
    let mut journal = Vec::new();
    for _ in 0..records {
        let kind: u16 = pick(random, kinds);
        if kind > 4 {
            push_property(random, &mut journal, kind);
            continue;
        }
        let length: u16 = [8, 8, 12, 16][usize::from(kind) - 1];
        let node = if kind == 4 { 15 + random.below(2) } else { 1 + random.below(14) };
        [length, kind, node].iter().for_each(|half| journal.extend(half.to_le_bytes()));
        if kind == 4 {
            journal.extend(pick(random, &UNITS).to_le_bytes());
        }
        let operands = if kind == 3 { 8 } else { 4 };
        journal.extend(&random.next().to_le_bytes()[..operands]);
    }
    spoil(random, &mut journal, AREA);
    journal
}

/// A property of one of the nodes; once in a while its name or its value is too long.
fn push_property(random: &mut Xorshift, journal: &mut Vec<u8>, kind: u16) {
    let name = if random.below(3000) == 0 { random.below(2) * 32 } else { 1 + random.below(31) };
    let value = match random.below(200) {
        _ if kind == 6 => 0,
        0 => 4000 + random.below(100),
        1 if random.below(20) == 0 => 32_767 + random.below(3),
        2..=40 => 0,
        _ => random.below(40),
    };
    [2 + 4 + name + 1 + value, kind].iter().for_each(|half| journal.extend(half.to_le_bytes()));
    journal.extend(pick(random, &NODES).to_le_bytes());
    journal.extend((0..name).map(|_| 1 + random.below(255) as u8));
    journal.extend((0..=value).map(|place| if place == 0 { 0 } else { random.below(4) as u8 }));
}

/// Mostly that of a short code; once in a while one that is too long.
fn code_length(random: &mut Xorshift) -> u16 {
    match random.below(1000) {
        0 => 1024,
        1..=20 => 1020 + random.below(4),
        21..=60 => 1 + random.below(1023),
        _ => 1 + random.below(79),
    }
}

fn inventory(random: &mut Xorshift) -> Vec<u8> {
    let mut inventory = Vec::new();
    for _ in 0..random.below(200) {
        let code = code_length(random);
        [12 + code, 16, random.below(2)].iter().for_each(|half| inventory.extend(half.to_le_bytes()));
        inventory.extend(pick(random, &[1u32, 2]).to_le_bytes());
        inventory.extend((random.next() as u32).to_le_bytes());
        inventory.extend((0..code).map(|_| 1 + random.below(255) as u8));
    }
    spoil(random, &mut inventory, AREA);
    inventory
}

/// An argument buffer of the three calls, nearly always with counts of their own.
fn arguments(random: &mut Xorshift) -> Vec<u8> {
    let at = pick(random, &[0, 4096, 4096, 4096, 8192, 4097]);
    let token = pick(random, &[1, 2, 4, 4]);
    let words = if token != 2 {
        vec![token, 2, 1, at, pick(random, &[1, 1, 2, 3, 3, 4, u32::MAX]), 7]
    } else {
        let size = pick(random, &[4096, 4096, 1036, 1035, 100, 92, 15, 3, u32::MAX]);
        let number = pick(random, &[0, 1, 1, 2, 20, 1000]);
        vec![2, 5, 2, random.below(2).into(), pick(random, &[1, 2, 1, 2, 9002, 9003]), at, size, number, 7, 7]
    };
    let mut bytes: Vec<u8> = words.iter().flat_map(|word: &u32| word.to_be_bytes()).collect();
    spoil(random, &mut bytes, 12);
    if random.below(20) == 0 {
        bytes.truncate(random.below(bytes.len() as u64).into());
    }
    bytes
}

/// A record that names what the arguments ask for in this edition, or one that is not it in a field.
fn reading(random: &mut Xorshift, args: &[u8], edition: u32) -> ReadingRecord {
    let word = |at: usize| args.get(at..at + 4).map_or(1, |word| u32::from_be_bytes(word.try_into().unwrap()));
    let mut reading = ReadingRecord { flag: word(12), kind: word(16), number: word(28), edition };
    match random.below(12) {
        0 => reading.flag ^= 1,
        1 => reading.kind ^= 1,
        2 => reading.number = pick(random, &[0, 1, 2, u32::MAX]),
        3 | 4 => reading.edition = pick(random, &[edition ^ 1, edition ^ 1 << 16, edition ^ 1 << 31]),
        5 => reading = ReadingRecord { flag: 0, kind: 0, number: 1, edition: 0 },
        _ => {}
    }
    reading
}

/// Memory with a good beginning of a node area, or one that is not.
fn memory(random: &mut Xorshift) -> Vec<u8> {
    let mut memory = vec![0xa5; 3 * AREA];
    let state = pick(random, &[0u32, 0, 1, 10, 500, 1018, 1100]);
    memory[AREA..AREA + 16].fill(0);
    memory[AREA..AREA + 4].copy_from_slice(&state.to_be_bytes());
    if random.below(2) == 0 {
        memory[AREA + 4..AREA + 12].copy_from_slice(&pick(random, &UNITS).to_be_bytes());
    }
    spoil(random, &mut memory[AREA..], 16);
    memory
}

/// Memory whose area begins with a node and 0 or a later state of its session, or one that is not.
fn property_memory(random: &mut Xorshift, journal: &[u8]) -> Vec<u8> {
    let mut memory = vec![0xa5; 3 * AREA];
    memory[AREA..AREA + 16].fill(0);
    memory[AREA..AREA + 4].copy_from_slice(&pick(random, &NODES).to_be_bytes());
    let none = Registration { phase: 0, length: 0, copy: [0; 512] };
    for _ in 0..random.below(4) {
        let mut args: Vec<u8> = [4, 2, 1, AREA as u32, 1, 0].iter().flat_map(|word| word.to_be_bytes()).collect();
        (plain::SIDE.call)(&mut args, &mut memory, journal, &[], 0, none, (plain::SIDE.no_reading)());
    }
    spoil(random, &mut memory[AREA..], 16);
    memory
}

/// The readings of an area and what they write, on one side.
fn readings(side: &Side, area: &[u8]) -> impl PartialEq {
    let mut numbers = vec![7; 300];
    let nodes = [1, 3, 4].map(|scope| {
        let mut words = vec![7; 1500];
        ((side.read_nodes)(area, scope, &mut words), words)
    });
    let indices = (side.read_indices)(area, &mut numbers);
    let mut words = vec![7; 1000];
    let properties = (side.read_properties)(area, &mut words);
    (nodes, indices, numbers, properties, words)
}

/// What a call answered: its token, number and status.
fn told(number: u32, args: &[u8]) -> (u32, u32, i32) {
    let word = |at: usize| args.get(at..at + 4).map_or(0, |word| u32::from_be_bytes(word.try_into().unwrap()));
    let status = if number == 0 { word(12 + 4 * word(4) as usize) as i32 } else { 0 };
    (word(0), number, status)
}

/// One case: a call, and the readings of what it left, spoilt or not.
fn case(random: &mut Xorshift) -> (u32, u32, i32) {
    let (journal, inventory) = (journal(random), inventory(random));
    let args = arguments(random);
    let of_properties = args.starts_with(&[0, 0, 0, 4]);
    let memory = if of_properties { property_memory(random, &journal) } else { memory(random) };
    let none = Registration { phase: 0, length: 0, copy: [0; 512] };
    let edition = pick(random, &[0, 7, u32::MAX]);
    let reading = reading(random, &args, edition);
    let [left, right] = SIDES.map(|side| {
        let (mut args, mut memory) = (args.clone(), memory.clone());
        let answer = (side.call)(&mut args, &mut memory, &journal, &inventory, edition, none, reading);
        (answer, args, memory)
    });
    assert!(left == right, "a call");
    let (answer, args, mut memory) = left;
    spoil(random, &mut memory[AREA..], 100);
    let [left, right] = SIDES.map(|side| readings(&side, &memory[AREA..2 * AREA]));
    assert!(left == right, "a reading");
    told(answer.number, &args)
}

#[test]
fn answers_as_the_independent_program() {
    let mut random = Xorshift::new();
    let mut seen = BTreeMap::new();
    for _ in 0..CASES {
        *seen.entry(case(&mut random)).or_insert(0) += 1;
    }
    let expected = [1, 2, 4].iter().flat_map(|&token| [0, 1, -1, -3].map(|status| (token, status)));
    for (token, status) in expected.chain([(2, -4)]) {
        let cases = seen.get(&(token, 0, status)).copied().unwrap_or(0);
        assert!(cases >= 50, "token {token}, status {status}: {cases} cases");
    }
}
