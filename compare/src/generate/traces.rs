//! Traces, good and damaged, and the bursts that they are cut into (M-110).

use super::recordings::{self, odd_arguments, setting, Recording};
use crate::buffers::{record, record_places};
use crate::case::{Burst, Given, TraceCase};
use crate::random::Random;

/// Bytes of `held` and `args`, at the least.
const HELD: usize = 4104;
const ARGS: usize = 4100;

/// So often a case asks in the middle what its replay comes to, at the most.
const MOST_ENDS: usize = 3;

pub fn case(random: &mut Random) -> TraceCase {
    let steps = if random.one_in(8) { 30 } else { 8 };
    let recording = recordings::session(random, steps);
    case_of(random, recording)
}

/// The recording as it is, or damaged.
pub fn case_of(random: &mut Random, mut recording: Recording) -> TraceCase {
    for _ in 0..random.pick(&[0, 0, 0, 1, 1, 1, 1, 2]) {
        damage(random, &mut recording);
    }
    let bursts = bursts(random, &recording.trace);
    let (edition, trace) = (recording.edition, std::mem::take(&mut recording.trace));
    TraceCase { given: given(random, recording), edition, trace, bursts }
}

/// What a replay of the recording is given.
pub fn given(random: &mut Random, recording: Recording) -> Given {
    let Recording { first, journal, inventory, .. } = recording;
    let [held, args] = [HELD, ARGS].map(|least| {
        let length = least + random.pick(&[0, 0, 1, 60]);
        vec![random.next() as u8; length]
    });
    Given { memory: first, journal, inventory, held, args }
}

/// Damages a trace in one place. Some damage leaves it good.
pub fn damage(random: &mut Random, recording: &mut Recording) {
    let memory = recording.first.len();
    let trace = &mut recording.trace;
    match random.below(16) {
        0..=2 => insert(random, trace, memory),
        3 => {
            let record = by_a_hair(random, memory);
            insert_at_a_record(random, trace, &record);
        }
        4 => trace.extend(vec![random.pick(&[0, 2, 32, 34]); random.between(1, 5)]),
        _ if trace.is_empty() => {}
        5 => {
            let at = random.below(trace.len());
            trace[at] ^= random.nonzero_byte();
        }
        6 => trace.truncate(random.below(trace.len())),
        7..=9 => change_after(random, trace),
        10 => change_head(random, trace),
        _ => rearrange(random, trace),
    }
}

/// Removes a record, doubles it, or changes its place with the next one.
fn rearrange(random: &mut Random, trace: &mut Vec<u8>) {
    let places = record_places(trace);
    let which = random.below(places.len());
    let (from, to) = places[which];
    match random.below(3) {
        0 => {
            trace.drain(from..to);
        }
        1 => {
            let again = trace[from..to].to_vec();
            trace.splice(to..to, again);
        }
        _ => {
            let next = places.get(which + 1).map_or(to, |place| place.1);
            trace[from..next].rotate_left(to - from);
        }
    }
}

/// Another length or kind for a record, near a line.
fn change_head(random: &mut Random, trace: &mut [u8]) {
    let (from, to) = random.pick(&record_places(trace));
    if to - from < 4 {
        return;
    }
    let length = (to - from - 2) as u16;
    let (at, number) = match random.below(3) {
        0 => (from, random.pick(&[0, 1, 2, 4102, 4103, 0xffff])),
        1 => (from, random.pick(&[length.wrapping_sub(1), length + 1, length ^ 0x100])),
        _ => (from + 2, random.pick(&[31, 32, 33, 34, 35, 0, 0x120, 0x2000])),
    };
    trace[at..at + 2].copy_from_slice(&number.to_le_bytes());
}

/// Changes what a 33 records: a byte of it, or its length.
fn change_after(random: &mut Random, trace: &mut Vec<u8>) {
    let mut places = record_places(trace);
    places.retain(|&(from, to)| to - from >= 4 && trace[from + 2] == 33);
    if places.is_empty() {
        return;
    }
    let (from, to) = random.pick(&places);
    let mut body = trace[from + 4..to].to_vec();
    match random.below(5) {
        0 => body.truncate(random.below(body.len() + 1)),
        1 => body.truncate(body.len().saturating_sub(1)),
        2 => body.resize(body.len() + random.pick(&[1, 1, 4, 2000]), random.next() as u8),
        _ if body.is_empty() => {}
        3 => {
            let at = random.pick(&[0, body.len() - 1, body.len() / 2]);
            body[at] ^= random.nonzero_byte();
        }
        _ => {
            let at = random.below(body.len());
            body[at] ^= 1 << random.below(8);
        }
    }
    trace.splice(from..to, record(33, &body));
}

/// Puts bytes before a record, or behind the last one.
fn insert_at_a_record(random: &mut Random, trace: &mut Vec<u8>, bytes: &[u8]) {
    let places = record_places(trace);
    let at = places.get(random.between(0, places.len())).map_or(trace.len(), |place| place.0);
    trace.splice(at..at, bytes.iter().copied());
}

/// Puts one record more into a trace.
fn insert(random: &mut Random, trace: &mut Vec<u8>, memory: usize) {
    let bytes = match random.below(9) {
        0 => record(random.pick(&[31, 31, 35, 35, 0, 1, 0x120, 0x2200]), &[0; 6]),
        1 => record(32, &odd_arguments(random)),
        2 => record(33, &odd_arguments(random)),
        3 => setting(random.below(memory + 2) as u32, &[0x5a; 3]),
        4 => [record(32, &[1, 2, 3]), record(33, &[1, 2, 3])].concat(),
        5 => record(34, &vec![0; random.pick(&[0, 1, 3, 4, 4, 4, 5])]),
        6 => [random.pick(&[0, 1, 0]), 0, random.pick(&[32, 33, 34]), 0].to_vec(),
        _ => record(random.pick(&[32, 33, 34]), &vec![0; ARGS + random.pick(&[0, 0, 1, 1, 2])]),
    };
    insert_at_a_record(random, trace, &bytes);
}

/// A 34 that ends where memory does, or a byte further, or far behind.
fn by_a_hair(random: &mut Random, memory: usize) -> Vec<u8> {
    let length = random.pick(&[1, 1, 2, 9, 4096]);
    let address = match random.below(6) {
        0..=1 => memory.saturating_sub(length) as u32,
        2..=3 => (memory + 1).saturating_sub(length) as u32,
        4 => memory as u32,
        _ => random.pick(&[u32::MAX, 0x8000_0000, 0u32.wrapping_sub(length as u32)]),
    };
    setting(address, &vec![random.next() as u8; length])
}

/// How a trace is cut.
#[derive(Clone, Copy)]
enum Cut {
    Whole,
    Bytes,
    Some(usize),
    /// At the records, and some bytes off.
    Records,
}

fn bursts(random: &mut Random, trace: &[u8]) -> Vec<Burst> {
    let cut = match random.below(8) {
        0 => Cut::Whole,
        1 if trace.len() <= 1500 => Cut::Bytes,
        2..=4 => Cut::Some(random.pick(&[3, 8, 40, 300, 5000])),
        _ => Cut::Records,
    };
    let mut lengths = lengths(random, trace, cut);
    while random.one_in(3) {
        let at = random.between(0, lengths.len());
        lengths.insert(at, 0);
    }
    let mut bursts: Vec<Burst> = lengths.into_iter().map(|length| Burst { length, end: false }).collect();
    for _ in 0..random.between(0, MOST_ENDS).min(bursts.len()) {
        let which = random.below(bursts.len());
        bursts[which].end = true;
    }
    bursts
}

fn lengths(random: &mut Random, trace: &[u8], cut: Cut) -> Vec<usize> {
    match cut {
        Cut::Whole => Vec::new(),
        Cut::Bytes => vec![1; trace.len()],
        Cut::Some(most) => {
            let number = (2 * trace.len() / (most + 1)).min(400);
            (0..number).map(|_| random.between(0, most)).collect()
        }
        Cut::Records => {
            let mut cuts: Vec<usize> = record_places(trace).iter().map(|place| place.0).collect();
            cuts.iter_mut().for_each(|cut| *cut += random.pick(&[0, 0, 0, 1, 2, 3, 4, 5]));
            let cuts = cuts.iter().map(|&cut| cut.min(trace.len()));
            let before = cuts.clone().scan(0, |at, cut| Some(std::mem::replace(at, cut)));
            cuts.zip(before).map(|(cut, before)| cut.saturating_sub(before)).collect()
        }
    }
}
