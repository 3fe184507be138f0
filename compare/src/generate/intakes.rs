//! Cases of intakes (M-109): streams of records, whole, damaged and cut off, in bursts that break anywhere.

use super::tallies::{filled, good_record, MOST};
use super::{damage, journals, properties};
use crate::buffers::{journal_record, property_record, record, record_places, unit_record};
use crate::intakes::case::{IntakeCase, Step, StreamCase};
use crate::library::intakes::Intake;
use crate::library::tallies::{Tallied, Tallies};
use crate::random::Random;
use crate::subject::{Paper, Subject};
use crate::tallies::case::Operation;

/// The bytes that a store has to have.
const STORE: usize = 32_808;

/// The longest stream of which every cutting is tried.
const SHORT: usize = 12;

/// The longest stream that is cut in two at every place.
const HALVED: usize = 160;

/// The longest value.
const VALUE: usize = 32_768;

pub fn case(random: &mut Random) -> IntakeCase {
    match random.below(64) {
        0 | 1 => IntakeCase::Cuttings(short(random)),
        2..=7 => IntakeCase::Halves(halved(random)),
        8..=27 => state(random),
        28 if random.one_in(5) => long(random),
        28..=31 => with_long_values(random),
        _ => steps(random),
    }
}

/// The number of the first record: 1, or near the last number.
fn first_number(random: &mut Random) -> u64 {
    if random.one_in(12) {
        u64::MAX - random.below(3) as u64
    } else {
        1
    }
}

fn store_size(random: &mut Random) -> usize {
    match random.below(16) {
        0 => STORE + random.pick(&[1, 64]),
        1 if random.one_in(8) => STORE - 1,
        _ => STORE,
    }
}

/// A record whose length or kind lies about a line, cut off behind them or not.
fn near_front(random: &mut Random) -> Vec<u8> {
    let (kind, lengths): (u16, &[u16]) = match random.below(8) {
        0 => (random.between(1, 2) as u16, &[0, 1, 6, 7, 7, 7, 8, 9, 12]),
        1 => (3, &[0, 1, 8, 11, 12, 13, 16]),
        2 => (4, &[0, 1, 12, 15, 16, 17, 8]),
        3 | 4 => (5, &[0, 1, 6, 7, 8, 9, 32_805, 32_806, 32_807, 65_535]),
        5 | 6 => (6, &[0, 1, 7, 8, 9, 37, 38, 39, 0x108, 65_535]),
        _ => (random.pick(&[0, 7, 16, 0x101, 0x500, 0xffff]), &[0, 1, 2, 8, 12, 16, 38]),
    };
    let mut bytes = random.pick(lengths).to_le_bytes().to_vec();
    bytes.extend(kind.to_le_bytes());
    if random.one_in(3) {
        bytes.extend([7, 0, 0, 0, b'a', 0, 1, 2, 3][..random.between(1, 9)].iter());
    }
    bytes.truncate(random.between(1, bytes.len() + 4).min(bytes.len()));
    bytes
}

/// One good record of a kind.
fn of_kind(random: &mut Random, kind: usize) -> Vec<u8> {
    let (phandle, name) = (random.word(), vec![b'n'; random.pick(&[1, 2, 31])]);
    match kind {
        4 => unit_record(random.pick(&[15, 16]), random.next(), phandle),
        5 => property_record(phandle, &name, Some(&vec![0; random.pick(&[0, 1, 3])])),
        6 => property_record(phandle, &name, None),
        _ => journal_record(kind as u16, random.between(1, 14) as u16, phandle, random.word()),
    }
}

/// Damage in one field of the record: length, kind, the node type or the node, a byte behind it, or any byte.
fn damage_field(random: &mut Random, record: &mut [u8]) {
    let at = random.pick(&[0, 1, 2, 3, 4, 5, 8, 9, record.len() - 1]);
    let at = if random.one_in(4) { random.below(record.len()) } else { at.min(record.len() - 1) };
    record[at] = match random.below(4) {
        0 => 0,
        1 => record[at].wrapping_add(1),
        2 => record[at] ^ 1 << random.below(8),
        _ => random.next() as u8,
    };
}

/// What ends a stream: nothing, a record that is cut off, or one that is refused.
fn tail(random: &mut Random) -> Vec<u8> {
    let kind = random.between(1, 6);
    let mut record = of_kind(random, kind);
    match random.below(8) {
        0 => return Vec::new(),
        1 | 2 => record.truncate(random.below(record.len())),
        3 => record.truncate(random.pick(&[1, 2, 3, 4, 5, record.len() - 1])),
        4 | 5 => damage_field(random, &mut record),
        6 => record = near_front(random),
        _ => record = properties::bad_record(random),
    }
    record
}

/// A stream of up to so many bytes: a few bytes of a record, one record, or one and a part of the next.
fn short_stream(random: &mut Random) -> Vec<u8> {
    let kind = random.pick(&[1, 2, 5, 6]);
    let mut stream = match random.below(4) {
        0 => near_front(random),
        1 => [record(6, b"\x07\0\0\0a\0"), near_front(random)].concat(),
        _ => of_kind(random, kind),
    };
    if random.one_in(3) {
        damage_field(random, &mut stream);
    }
    if random.one_in(2) {
        stream.extend(near_front(random));
    }
    stream.truncate(if random.one_in(4) { SHORT } else { SHORT - 2 });
    stream
}

/// A buffer for a stream: mostly one that is full somewhere, or a byte off.
fn buffer_size(random: &mut Random, first: &[u8], stream: &[u8]) -> usize {
    let places = record_places(stream);
    let line = first.len() + random.pick(&places.iter().map(|place| place.1).chain([0]).collect::<Vec<usize>>());
    match random.below(8) {
        0 | 1 => line,
        2 | 3 => line.saturating_sub(1),
        4 => line.saturating_sub(random.between(2, 9)),
        _ => first.len() + stream.len() + random.below(30),
    }
}

fn stream_case(random: &mut Random, first: Vec<u8>, stream: Vec<u8>) -> StreamCase {
    let size = buffer_size(random, &first, &stream);
    StreamCase { first, size, store: store_size(random), number: first_number(random), stream }
}

/// Some records that the journal holds already, mostly none.
fn held_already(random: &mut Random) -> Vec<u8> {
    if random.one_in(3) {
        (0..random.between(1, 3)).flat_map(|_| good_record(random)).collect()
    } else {
        Vec::new()
    }
}

fn short(random: &mut Random) -> StreamCase {
    let (first, stream) = (held_already(random), short_stream(random));
    stream_case(random, first, stream)
}

fn halved(random: &mut Random) -> StreamCase {
    let mut stream: Vec<u8> = (1..=random.between(1, 4))
        .flat_map(|_| {
            let kind = random.between(1, 6);
            of_kind(random, kind)
        })
        .collect();
    stream.extend(tail(random));
    stream.truncate(HALVED);
    let first = held_already(random);
    stream_case(random, first, stream)
}

/// Records of any kind, and what ends them.
fn any_stream(random: &mut Random) -> Vec<u8> {
    let number = match random.below(12) {
        0 => 0,
        1..=7 => random.between(1, 6),
        8..=10 => random.between(6, 40),
        _ => random.between(40, 400),
    };
    let mut stream: Vec<u8> = (0..number).flat_map(|_| short_good(random)).collect();
    match random.below(8) {
        0 => damage::damage_journal(random, &mut stream),
        1 | 2 => {}
        _ => stream.extend(tail(random)),
    }
    if random.one_in(3) {
        stream.extend(short_good(random));
    }
    stream
}

/// A good record that is not one of the longest.
fn short_good(random: &mut Random) -> Vec<u8> {
    let wanted = journals::wanted(random);
    journals::any_record(random, wanted)
}

/// How a stream is cut: into single bytes, at about the places of its records, or anywhere.
fn burst_length(random: &mut Random, stream: &[u8]) -> usize {
    match random.below(8) {
        0 => 0,
        1 | 2 => random.between(1, 4),
        3 | 4 => random.between(5, 20),
        5 => random.pick(&[32, 64, 128]),
        6 => random.below(stream.len() + 2),
        _ => random.between(1, 200),
    }
}

fn between(random: &mut Random) -> Step {
    match random.below(10) {
        0..=3 => Step::End,
        4 | 5 => Step::Journal(Operation::Append(short_good(random))),
        6 => Step::Journal(Operation::Append(tail(random))),
        7 => Step::Journal(Operation::Join((0..random.below(3)).flat_map(|_| short_good(random)).collect())),
        8 => Step::Journal(if random.one_in(2) { Operation::Clear } else { Operation::Overwrite(0x99) }),
        _ => Step::Overwrite(random.next() as u8),
    }
}

/// Bursts up to the end of the stream and a few behind it, with something between them in some cases.
fn cut(random: &mut Random, stream: &[u8], most: usize) -> Vec<Step> {
    let (single, busy) = (random.one_in(6), random.one_in(2));
    let mut steps = Vec::new();
    let mut at = 0;
    while at <= stream.len() && steps.len() < most {
        let length = if single { 1 } else { burst_length(random, stream) };
        steps.push(Step::Burst(length));
        at += length;
        if busy && random.one_in(3) {
            steps.push(between(random));
        }
        if length == 0 && random.one_in(8) {
            break;
        }
    }
    steps
}

fn steps(random: &mut Random) -> IntakeCase {
    let stream = any_stream(random);
    let first = held_already(random);
    let steps = cut(random, &stream, 120);
    IntakeCase::Steps { case: stream_case(random, first, stream), steps }
}

/// Values about as long as they may be, among short records.
fn with_long_values(random: &mut Random) -> IntakeCase {
    let mut stream = Vec::new();
    for _ in 0..random.between(1, 3) {
        let (name, length) = (vec![b'n'; random.pick(&[1, 31, 31])], random.pick(&[VALUE, VALUE, VALUE - 1, 4000]));
        stream.extend((0..random.below(3)).flat_map(|_| short_good(random)));
        stream.extend(property_record(7, &name, Some(&vec![1; length])));
    }
    match random.below(6) {
        0 => stream.truncate(stream.len() - 1),
        1 => stream.truncate(stream.len() - random.below(33_000).min(stream.len())),
        2 => stream.extend(properties::bad_record(random)),
        _ => stream.extend(tail(random)),
    }
    let cuts = [1, 4, 31, 4000, 4096, VALUE, STORE - 1, STORE, 40_000];
    let steps = (0..random.below(12)).map(|_| Step::Burst(random.pick(&cuts))).collect();
    IntakeCase::Steps { case: stream_case(random, Vec::new(), stream), steps }
}

/// A stream about as long as a journal may be, or one record's room short of it already.
fn long(random: &mut Random) -> IntakeCase {
    let room = random.pick(&[0, 9, 10, 11, 13, 14, 18, 40, 200]);
    let (first, stream) = match random.below(3) {
        0 => (Vec::new(), [filled(random, MOST - room), of_kind(random, 1), of_kind(random, 3)].concat()),
        1 => {
            let wanted = journals::wanted(random);
            (Vec::new(), journals::journal(random, wanted, journals::Size::Full))
        }
        _ => (filled(random, MOST - room), (0..random.between(1, 6)).flat_map(|_| short_good(random)).collect()),
    };
    let size = MOST + random.pick(&[0, 1, 9, 10, 64]) - random.pick(&[0, 0, 1, 10]);
    let steps = (0..random.below(20)).map(|_| Step::Burst(random.pick(&[1, 64, 4096, 65_536, 200_000]))).collect();
    IntakeCase::Steps { case: StreamCase { first, size, store: STORE, number: 1, stream }, steps }
}

/// A state that a stream leaves, spoilt in one field or not, and a burst.
fn state(random: &mut Random) -> IntakeCase {
    let (stream, next) = (any_stream(random), any_stream(random));
    let StreamCase { first, size, number, stream, .. } = stream_case(random, Vec::new(), stream);
    let mut buffer = vec![0x77; size];
    let mut store = vec![0x11; store_size(random).max(STORE)];
    let journal = Tallied { used: 0, tallies: Tallies::ZERO };
    let kept = Paper.keeping().join(&mut buffer, &journal, &first).journal;
    let begun = Intake { number, ..Paper.receiving().start(&kept) };
    let end = random.below(stream.len() + 1);
    let mut intake = Paper.receiving().burst(&mut buffer, &mut store, &begun, &stream[..end]).intake;
    if random.one_in(8) {
        store.truncate(STORE - random.pick(&[1, 1, 2, STORE]));
    }
    for _ in 0..random.pick(&[0, 1, 1, 1, 2]) {
        spoil(random, &mut intake, &mut store);
    }
    let bytes = if random.one_in(4) { stream[end..].to_vec() } else { next };
    IntakeCase::State { buffer, store, intake, bytes }
}

fn spoil(random: &mut Random, intake: &mut Intake, store: &mut [u8]) {
    match random.below(10) {
        0 => intake.number = random.pick(&[0, 0, u64::MAX]),
        1 => intake.fault = random.pick(&[1, 49, 50, 51, 52, 52, 52, 53, 54, 306, u32::MAX]),
        2 => (intake.fault, intake.held) = (random.pick(&[50, 51]), random.pick(&[0, 1, 4])),
        3 => intake.held = random.pick(&[0, 1, 3, 4, 9, 10, 32_807, 32_808, 32_809, 1 << 32, u64::MAX]),
        4 => intake.journal.used = intake.journal.used.saturating_add(random.pick(&[1, 100, 1 << 21, 1 << 40])),
        5 => intake.journal.used = random.pick(&[0, 1, u64::MAX]),
        6 => {
            let place = random.pick(&[0, 11, 5]);
            intake.journal.tallies.rows[place / 3][place % 3] = random.pick(&[intake.journal.used, 1 << 40, u64::MAX]);
        }
        _ => hold(random, intake, store),
    }
}

/// Holds bytes of a record: some of a good one, a whole one, one and a byte, or bytes of a front that is refused.
fn hold(random: &mut Random, intake: &mut Intake, store: &mut [u8]) {
    let kind = random.between(1, 6);
    let mut bytes = of_kind(random, kind);
    match random.below(6) {
        0 => bytes.push(8),
        1 => {}
        2 => bytes = near_front(random),
        3 => bytes.truncate(bytes.len() - 1),
        4 => {
            let name = [b'n'; 31];
            bytes = property_record(7, &name, Some(&vec![1; random.pick(&[VALUE, VALUE + 1])]));
            bytes.truncate(bytes.len() - random.below(2));
        }
        _ => bytes.truncate(random.between(1, bytes.len())),
    }
    bytes.truncate(store.len());
    store[..bytes.len()].copy_from_slice(&bytes);
    (intake.held, intake.fault) = (bytes.len() as u64, 0);
}

#[cfg(test)]
mod tests {
    use super::{short_stream, SHORT};
    use crate::random::Random;

    #[test]
    fn a_stream_of_which_every_cutting_is_tried_is_short() {
        let random = &mut Random::new(7);
        assert!((0..1000).all(|_| (1..=SHORT).contains(&short_stream(random).len())));
    }
}
