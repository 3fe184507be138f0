//! The steps of a trace: held to the library, and what is said of a malformed record.

use crate::judge::Flaw;
use crate::random::Random;
use crate::records::{record, trace};
use crate::trace::{first_step, Step};
use draugsten::{Edition, Replay, Report};

/// Bytes of memory. A record of kind 34 sets no more than this, if its address is 0.
const MEMORY: usize = 4096;

/// The steps of a trace, each with the number of its first record, and the flaw that ends them.
fn steps(trace: &[u8]) -> (Vec<(u64, Step<'_>)>, Option<Flaw>) {
    let (mut found, mut number, mut offset) = (vec![], 1, 0);
    while offset < trace.len() {
        let step = match first_step(&trace[offset..], number, offset as u64) {
            Ok(step) => step,
            Err(flaw) => return (found, Some(flaw)),
        };
        found.push((number, step));
        let (records, size) = match step {
            Step::Memory { bytes, .. } => (1, 8 + bytes.len()),
            Step::Call { before, after } => (2, 8 + before.len() + after.len()),
        };
        (number, offset) = (number + records, offset + size);
    }
    (found, None)
}

/// Whether a step sets bytes past the end of memory, which the replay knows and the steps do not.
fn passes_memory(step: &Step<'_>) -> bool {
    matches!(step, Step::Memory { address, bytes } if *address as usize + bytes.len() > MEMORY)
}

/// Holds the steps to a replay, which stops at the first call that differs. Gives the replay's report.
fn hold(trace: &[u8]) -> Report {
    let mut memory = [0; MEMORY];
    let mut replay = Replay::new(&mut memory, &[], &[], Edition(0));
    replay.feed(trace);
    let (found, flaw) = steps(trace);
    let calls = found.iter().filter(|(_, step)| matches!(step, Step::Call { .. })).count() as u32;
    match replay.end() {
        Report::Agreed { calls: agreed } => assert_eq!((agreed, &flaw), (calls, &None)),
        Report::Differs { call, .. } => assert!(call <= calls, "call {call} of {calls}, {flaw:?}"),
        Report::Malformed { record } => match found.iter().find(|(number, _)| *number == record) {
            Some((_, step)) => assert!(passes_memory(step), "{step:?}"),
            None => assert_eq!(flaw.map(|flaw| flaw.record), Some(record), "{trace:?}"),
        },
    }
    replay.end()
}

/// One or two records, mostly good ones: memory that is set, or a call that agrees, as its buffer is too short for one.
fn part(random: &mut Random) -> Vec<u8> {
    let size = random.below(12);
    let buffer = random.bytes(size);
    match random.below(12) {
        0..5 => [record(32, &buffer), record(33, &buffer)].concat(),
        5 => record(32, &buffer),
        6 => record(33, &buffer),
        7 => record(random.pick(&[0, 1, 16, 31, 35, 288]), &buffer),
        8 => record(34, &buffer),
        _ => record(34, &[&[random.below(256) as u8, random.below(16) as u8, 0, 0, 1][..], &buffer].concat()),
    }
}

fn made(random: &mut Random) -> Vec<u8> {
    let parts = random.below(4);
    let mut bytes: Vec<u8> = (0..parts).flat_map(|_| part(random)).collect();
    let place = random.below(bytes.len() + 1);
    match random.below(5) {
        0 => bytes.truncate(place),
        1 => bytes.insert(place, random.below(40) as u8),
        2 if place < bytes.len() => bytes[place] ^= 1 << random.below(8),
        _ => {}
    }
    bytes
}

#[test]
fn over_many_made_traces() {
    let mut random = Random::new(110);
    let mut seen = [0; 3];
    for _ in 0..20_000 {
        seen[match hold(&made(&mut random)) {
            Report::Agreed { .. } => 0,
            Report::Differs { .. } => 1,
            Report::Malformed { .. } => 2,
        }] += 1;
    }
    let [agreed, differs, malformed] = seen;
    assert!(agreed > 4_000 && malformed > 4_000 && differs > 10, "{seen:?}: one side is hardly looked at");
}

#[test]
fn over_bodies_on_both_sides_of_the_limits() {
    for size in [0, 1, 4, 5, 6, 4099, 4100, 4101, 9000] {
        let body = vec![0; size];
        for kind in [32, 33, 34, 35] {
            hold(&record(kind, &body));
            hold(&[record(32, &[]), record(kind, &body)].concat());
            hold(&[record(kind, &body), record(33, &[])].concat());
        }
        assert_eq!(steps(&record(34, &body)).1.is_none(), (5..=4100).contains(&size), "{size}");
        let call = [record(32, &body), record(33, &body)].concat();
        assert_eq!(steps(&call).1.is_none(), size <= 4100, "{size}");
    }
}

#[test]
fn what_a_step_says() {
    let whole =
        trace(&[(34, b"\x01\x02\x03\x04abc".to_vec()), (32, vec![7]), (33, vec![]), (32, vec![]), (33, vec![8])]);
    let set = Step::Memory { address: 0x0403_0201, bytes: b"abc" };
    let first = Step::Call { before: &[7], after: &[] };
    let second = Step::Call { before: &[], after: &[8] };
    assert_eq!(steps(&whole), (vec![(1, set), (2, first), (4, second)], None));
}

/// What is said of the first record that is malformed, after a call.
fn flaw(rest: &[u8]) -> String {
    let trace = [&record(32, &[]), &record(33, &[]), rest].concat();
    let told = steps(&trace).1.expect("it is malformed").to_string();
    String::from(told.strip_prefix("record 3, at byte 8: ").expect(&told))
}

#[test]
fn of_a_record() {
    assert_eq!(flaw(&record(7, &[1])), "kind 7; a trace has kinds 32 to 34");
    assert_eq!(flaw(&[1, 0, 32, 0]), "length 1, which does not count its kind");
    assert_eq!(flaw(&record(32, &[0; 4101])), "length 4103 for kind 32, which has 2 to 4102");
    assert_eq!(flaw(&record(34, &[0; 4])), "length 6 for kind 34, which has 7 to 4102");
    assert_eq!(flaw(&record(33, &[])), "a 33 without a 32 right before it");
    assert_eq!(flaw(&[7, 0, 34, 0]), "cut off by the end, after 4 of 9 bytes");
}

#[test]
fn of_what_follows_a_32() {
    let after = |rest: &[u8]| {
        let told = flaw(&[&record(32, &[5]), rest].concat());
        String::from(told.strip_prefix("a 32, and record 4 is not its 33: ").expect(&told))
    };
    assert_eq!(flaw(&record(32, &[5])), "a 32, and the trace ends without its 33");
    assert_eq!(after(&[3]), "cut off by the end, inside its length");
    assert_eq!(after(&[3, 0, 33, 0]), "cut off by the end, after 4 of 5 bytes");
    assert_eq!(after(&record(34, &[0; 5])), "kind 34");
    assert_eq!(after(&record(32, &[])), "kind 32");
    assert_eq!(after(&record(35, &[])), "kind 35; a trace has kinds 32 to 34");
}

#[test]
fn no_record_follows_the_last_number() {
    let last = u64::from(u32::MAX);
    let setting = record(34, &[0; 5]);
    assert!(first_step(&setting, last, 0).is_ok());
    let beyond = first_step(&setting, last + 1, 7).unwrap_err();
    assert_eq!(beyond.to_string(), "record 4294967296, at byte 7: one more than a trace may have, 4294967295");
    let call = [record(32, &[]), record(33, &[])].concat();
    assert!(first_step(&call, last - 1, 0).is_ok());
    let alone = first_step(&call, last, 7).unwrap_err();
    assert_eq!(alone.record, last);
    assert!(alone.what.ends_with("record 4294967296 is not its 33: one more than a trace may have, 4294967295"));
}
