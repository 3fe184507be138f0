//! Replays that stand anywhere (M-110): as a feed leaves them, moved on to where only a long trace comes, and changed so
//! that no feed can have left them.

use super::{reading_records, recordings, registrations, structures, traces};
use crate::buffers::record_places;
use crate::case::{Given, StateCase};
use crate::library::month::{Counting, Counts};
use crate::library::{ReadingRecord, Registration, Replay};
use crate::random::Random;
use crate::subject::{Feeding, Paper, Subject};

/// The last number of a record.
const LAST: u64 = 4_294_967_295;

pub fn case(random: &mut Random) -> StateCase {
    counted(random).0
}

/// A case, and what the calls came to that were made before it was moved on or changed.
pub fn counted(random: &mut Random) -> (StateCase, Counts) {
    let mut recording = recordings::session(random, 5);
    if random.one_in(2) {
        traces::damage(random, &mut recording);
    }
    let (edition, trace) = (recording.edition, std::mem::take(&mut recording.trace));
    let mut given = traces::given(random, recording);
    let (fed, rest) = trace.split_at(cut(random, &trace));
    let Counting { replay, counts } = feed_paper(&mut given, edition, fed);
    let burst = if random.one_in(6) { Vec::new() } else { rest.to_vec() };
    let mut case = StateCase { given, replay, burst };
    move_on(random, &mut case);
    for _ in 0..random.pick(&[0, 1, 1, 1, 1, 2]) {
        spoil(random, &mut case);
    }
    (case, counts)
}

/// A place between two records, or anywhere.
fn cut(random: &mut Random, trace: &[u8]) -> usize {
    let places = record_places(trace);
    match places.get(random.between(0, places.len())) {
        Some(place) if random.one_in(2) => place.0,
        _ => random.between(0, trace.len()),
    }
}

/// The replay that the paper's side leaves behind these bytes, with what it left in the buffers.
pub fn feed_paper(given: &mut Given, edition: u32, bytes: &[u8]) -> Counting {
    let Given { held, args, memory, journal, inventory } = given;
    let start = Paper.month().start(edition);
    Paper.month().feed(Feeding { held, args, memory, journal, inventory }, &start, bytes).counting
}

/// A replay that another trace comes to: more records, more calls, another registration or reading, a stop.
fn move_on(random: &mut Random, case: &mut StateCase) {
    let replay = &mut case.replay;
    if random.one_in(4) && replay.report.verdict == 0 {
        replay.records = LAST - random.below(8) as u64;
    }
    if random.one_in(4) && replay.report.verdict == 0 {
        let most = (replay.records - u64::from(replay.waiting > 0)) / 2;
        replay.report.number = random.pick(&[most, most.saturating_sub(1), most.min(2)]);
    }
    if random.one_in(4) && replay.held == 0 {
        stop(random, replay);
    }
    if random.one_in(8) {
        replay.registration = registered(random);
    }
    if random.one_in(8) {
        let (edition, number) = (replay.edition, random.pick(&[2, 2, 9, 69_905, 69_906]));
        replay.reading = ReadingRecord { edition, number, ..reading_records::in_progress(random) };
    }
}

/// Makes it one that stopped.
fn stop(random: &mut Random, replay: &mut Replay) {
    let waits = u64::from(replay.waiting > 0);
    let report = &mut replay.report;
    if random.one_in(2) && waits == 0 {
        (report.verdict, report.offset) = (1, random.pick(&[0, 1, 20, 4099, 4099, 4100]));
        report.number = random.pick(&[1, replay.records / 2]);
    } else {
        (report.verdict, report.offset, report.number) = (2, 0, replay.records + 1 - waits);
    }
}

/// A registration of a structure that is mostly good.
fn registered(random: &mut Random) -> Registration {
    let mut structure = structures::good(random);
    if random.one_in(6) {
        structures::break_one_rule(random, &mut structure);
    }
    let mut copy = [0; 512];
    copy[..structure.bytes.len()].copy_from_slice(&structure.bytes);
    Registration { phase: 1, length: structure.bytes.len() as u32, copy }
}

/// Changes one thing, a little or at random.
fn spoil(random: &mut Random, case: &mut StateCase) {
    let replay = &mut case.replay;
    let waits = u64::from(replay.waiting > 0);
    match random.below(18) {
        0 => replay.records = other_records(random, replay, waits),
        1 => replay.report.verdict = random.pick(&[0, 1, 2, 3, 3, 0x100, 0x0100_0000, u32::MAX]),
        2 => replay.report.offset = random.pick(&[0, 1, 1, 4098, 4099, 4100, 4100, 4101, u32::MAX]),
        3 | 4 => replay.report.number = other_number(random, replay, waits),
        5 | 6 => replay.held = other_held(random, replay.held),
        7 => replay.waiting = random.pick(&[0, 1, 2, 4100, 4101, 4102, 4102, 5000, u32::MAX]),
        8 => replay.edition = replay.edition.wrapping_add(random.pick(&[1, u32::MAX, 0x1_0000])),
        9..=11 => spoil_registration(random, &mut replay.registration),
        12 | 13 => spoil_reading(random, replay),
        14 => shorten(random, &mut case.given),
        _ => hold(random, case),
    }
}

fn other_records(random: &mut Random, replay: &Replay, waits: u64) -> u64 {
    let taken = replay.report.number.wrapping_mul(2).wrapping_add(waits);
    match random.below(4) {
        0 => taken.wrapping_add(random.pick(&[0, 1, u64::MAX])),
        1 => replay.records.wrapping_add(random.pick(&[1, u64::MAX])),
        2 => random.pick(&[0, LAST - 1, LAST, LAST + 1, LAST + 1, u64::MAX]),
        _ => random.next() >> random.below(64),
    }
}

fn other_number(random: &mut Random, replay: &Replay, waits: u64) -> u64 {
    let most = replay.records.wrapping_sub(waits) / 2;
    match random.below(5) {
        0 => most.wrapping_add(random.pick(&[0, 1, u64::MAX])),
        1 => replay.report.number.wrapping_add(random.pick(&[1, u64::MAX])),
        2 => replay.records.wrapping_add(random.pick(&[0, 1, 2])),
        3 => random.pick(&[0, 1, 2, 1 << 63, (1 << 63) + 1, u64::MAX, 1 << 32]),
        _ => random.next() >> random.below(64),
    }
}

fn other_held(random: &mut Random, held: u64) -> u64 {
    match random.below(3) {
        0 => held.wrapping_add(random.pick(&[1, u64::MAX, 2, 4])),
        1 => random.pick(&[0, 1, 3, 4, 4102, 4103, 4103]),
        _ => random.pick(&[4104, 4104, 4105, 1 << 32, u64::MAX]),
    }
}

fn spoil_registration(random: &mut Random, registration: &mut Registration) {
    match random.below(8) {
        0 => *registration = registrations::any(random),
        1 => registrations::spoil(random, registration),
        2 => registration.phase = random.pick(&[0, 1, 2]),
        3 => registration.length = registration.length.wrapping_add(random.pick(&[1, u32::MAX])),
        4 => registration.length = random.pick(&[0, 39, 40, 79, 80, 512]),
        5 => registration.copy[random.pick(&[0, 40, 511])] ^= random.nonzero_byte(),
        6 => registration.copy[random.below(512)] ^= random.nonzero_byte(),
        _ => *registration = registered(random),
    }
}

fn spoil_reading(random: &mut Random, replay: &mut Replay) {
    let edition = replay.edition;
    let reading = &mut replay.reading;
    match random.below(8) {
        0 => *reading = reading_records::any(random),
        1 => *reading = ReadingRecord { edition, ..reading_records::any(random) },
        2 => reading.number = random.pick(&[0, 1, 1, 2, 2, 69_905, 69_906, u32::MAX]),
        3 => reading.flag = random.pick(&[0, 1, 2, 2, 0x101, u32::MAX]),
        4 => reading.kind = random.pick(&[0, 9000, 9001, 9002, 9003, 9004, 1]),
        5 => reading.edition = edition.wrapping_add(random.pick(&[0, 1, u32::MAX])),
        6 => *reading = ReadingRecord { flag: 0, kind: 0, number: 1, edition },
        _ => *reading = ReadingRecord { flag: 1, kind: random.pick(&[9001, 9002, 9003, 9003]), number: 2, edition },
    }
}

/// Too little room.
fn shorten(random: &mut Random, given: &mut Given) {
    if random.one_in(2) {
        given.held.truncate(random.pick(&[0, 4, 4103, 4103, 4104]));
    } else {
        given.args.truncate(random.pick(&[0, 4, 4099, 4099, 4100]));
    }
}

/// Other bytes in front of `held`: the beginning of a record, good or not, or a whole one and more.
fn hold(random: &mut Random, case: &mut StateCase) {
    let length: u16 = random.pick(&[0, 1, 2, 3, 6, 7, 100, 4101, 4102, 4103, 0x8000, 0xffff]);
    let kind: u16 = random.pick(&[31, 32, 32, 33, 33, 34, 34, 35, 0x120]);
    let whole = 2 + u64::from(length);
    let held = match random.below(4) {
        0 => random.pick(&[1, 2, 3, 4, 5]),
        1 => random.pick(&[whole, whole - 1, whole + 1]),
        2 => random.pick(&[4, 4102, 4103]),
        _ => random.between(0, whole as usize) as u64,
    };
    if case.given.held.len() >= 4 && case.replay.report.verdict == 0 {
        case.given.held[..2].copy_from_slice(&length.to_le_bytes());
        case.given.held[2..4].copy_from_slice(&kind.to_le_bytes());
        case.replay.held = held;
    }
}
