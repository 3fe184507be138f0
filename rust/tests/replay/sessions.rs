//! Random sessions, recorded and replayed.

use crate::random::Random;
use crate::records::{records, trace};
use crate::session::{Platform, Session};
use draugsten::{Answer, Fault, Replay, Report};

/// How many sessions a test runs, and how many deeds each has.
const SESSIONS: u64 = 60;
const DEEDS: usize = 60;

fn session(seed: u64) -> (Random, Platform, Session) {
    let mut random = Random::new(seed);
    let platform = Platform::random(&mut random);
    let session = platform.record(&mut random, DEEDS);
    (random, platform, session)
}

fn replay_over<'a>(platform: &'a Platform, memory: &'a mut [u8]) -> Replay<'a> {
    Replay::new(memory, &platform.journal, &platform.inventory, platform.edition)
}

/// Feeds a trace in pieces of random lengths, none too. While it goes on, the report so far is that of calls that agreed.
fn feed_cut(random: &mut Random, replay: &mut Replay<'_>, mut trace: &[u8]) -> Report {
    let most = random.pick(&[1, 7, 100, 5_000, 1_000_000]);
    while !trace.is_empty() {
        let size = random.below(most + 1).min(trace.len());
        let report = replay.feed(&trace[..size]);
        assert_eq!(report, replay.report());
        assert_eq!(replay.is_stopped(), !matches!(report, Report::Agreed { .. }));
        trace = &trace[size..];
    }
    replay.end()
}

#[test]
fn what_was_recorded_agrees() {
    for seed in 0..SESSIONS {
        let (mut random, platform, session) = session(seed);
        let mut memory = platform.memory.clone();
        let mut replay = replay_over(&platform, &mut memory);
        let report = feed_cut(&mut random, &mut replay, &session.trace);
        assert_eq!(report, Report::Agreed { calls: session.calls.len() as u32 }, "seed {seed}");
        assert_eq!(replay.records(), session.records as u64);
        assert_eq!((replay.registration(), replay.reading()), (session.registration, session.reading));
        assert_eq!(replay.difference(), None);
        assert_eq!(replay.last_record(), []);
        assert!(replay.memory() == session.memory);
    }
}

/// The sessions are of all kinds: each token with each answer that a replay can come to, and each number.
#[test]
fn sessions_are_of_all_kinds() {
    let calls: Vec<_> = (0..SESSIONS).flat_map(|seed| session(seed).2.calls).collect();
    let done = [(1, Ok(Answer::Done)), (2, Ok(Answer::Done)), (3, Ok(Answer::Done)), (4, Ok(Answer::Done))];
    let again = [(1, Ok(Answer::CallAgain)), (2, Ok(Answer::CallAgain)), (4, Ok(Answer::CallAgain))];
    let malformed = [(1, Err(Fault::Malformed)), (2, Err(Fault::Malformed)), (4, Err(Fault::Malformed))];
    let refused = [1, 2, 3, 4, 5].map(|token| (token, Err(Fault::Parameter)));
    let registered = [(3, Err(Fault::AlreadyRegistered))];
    for expected in done.iter().chain(&again).chain(&malformed).chain(&refused).chain(&registered) {
        assert!(calls.contains(expected), "{expected:?}");
    }
    for fault in [Fault::Short, Fault::NoOutputs, Fault::TooMany] {
        assert!(calls.iter().any(|(_, answer)| *answer == Err(fault)), "{fault}");
    }
}

/// A change of a recorded buffer, and the offset that it is found at.
fn damage(random: &mut Random, body: &mut Vec<u8>) -> u32 {
    let at = random.below(body.len() + 1);
    match random.below(3) {
        0 if at < body.len() => body[at] ^= 1 << random.below(8),
        1 if at < body.len() => body.truncate(at),
        _ if body.len() < 4100 => {
            body.push(0);
            return body.len() as u32 - 1;
        }
        _ => {
            body.pop();
            return body.len() as u32;
        }
    }
    at as u32
}

#[test]
fn a_damaged_buffer_is_found_at_its_call_and_offset() {
    for seed in 0..4 * SESSIONS {
        let (mut random, platform, session) = session(seed);
        let mut damaged = records(&session.trace);
        let places: Vec<usize> = (0..damaged.len()).filter(|place| damaged[*place].0 == 33).collect();
        let call = random.below(places.len());
        let place = places[call];
        let (before, ours) = (damaged[place - 1].1.clone(), damaged[place].1.clone());
        let offset = damage(&mut random, &mut damaged[place].1);

        let mut memory = platform.memory.clone();
        let mut replay = replay_over(&platform, &mut memory);
        let report = feed_cut(&mut random, &mut replay, &trace(&damaged));
        assert_eq!(report, Report::Differs { call: call as u32 + 1, offset }, "seed {seed}");
        let found = replay.difference().unwrap();
        assert_eq!((found.before, found.recorded, found.ours), (&before[..], &damaged[place].1[..], &ours[..]));
        assert_eq!(replay.last_record(), trace(&damaged[place..=place]));
        assert_eq!(replay.records(), place as u64 + 1);

        // What was done before the stop stays, and the call itself.
        let whole = trace(&records(&session.trace)[..=place]);
        let mut good = platform.memory.clone();
        assert_eq!(replay_over(&platform, &mut good).feed(&whole), Report::Agreed { calls: call as u32 + 1 });
        assert!(good == memory);
    }
}

#[test]
fn a_trace_that_is_cut_off_is_malformed_by_its_end_alone() {
    for seed in 0..SESSIONS {
        let (mut random, platform, session) = session(seed);
        let all = records(&session.trace);
        let (place, calls) = (random.below(all.len()), session.calls.len() as u32);
        let whole = trace(&all[..place]).len();
        let inside = random.below(trace(&all[place..=place]).len());
        let expected = match all[..place].last() {
            Some((32, _)) => Report::Malformed { record: place as u64 },
            _ if inside > 0 => Report::Malformed { record: place as u64 + 1 },
            _ => Report::Agreed { calls: all[..place].iter().filter(|(kind, _)| *kind == 33).count() as u32 },
        };

        let mut memory = platform.memory.clone();
        let mut replay = replay_over(&platform, &mut memory);
        let (front, rest) = session.trace.split_at(whole + inside);
        assert_eq!(feed_cut(&mut random, &mut replay, front), expected, "seed {seed}");
        assert_eq!(replay.last_record(), &front[whole..]);
        // An end changes nothing.
        assert_eq!(feed_cut(&mut random, &mut replay, rest), Report::Agreed { calls });
    }
}

#[test]
fn a_reader_is_read_to_its_end() {
    let (_, platform, session) = session(1);
    let mut memory = platform.memory.clone();
    let report = replay_over(&platform, &mut memory).read(&session.trace[..]).unwrap();
    assert_eq!(report, Report::Agreed { calls: session.calls.len() as u32 });
    assert!(memory == session.memory);
}
