//! Traces written out, with what their replay comes to.

use crate::records::record;
use draugsten::{args, Edition, Replay, Report};

/// A call that is refused with -3 over empty buffers, before and after it.
fn pair() -> (Vec<u8>, Vec<u8>) {
    let before = args::update_nodes(0, 1);
    let mut after = before;
    after[20..].copy_from_slice(&(-3i32).to_be_bytes());
    (record(32, &before), record(33, &after))
}

fn setting(address: u32, bytes: &[u8]) -> Vec<u8> {
    record(34, &[&address.to_le_bytes(), bytes].concat())
}

/// What comes of a trace over ten bytes of memory, fed whole and byte by byte, and its memory.
fn replayed(trace: &[u8]) -> (String, [u8; 10]) {
    let (mut memory, mut other) = ([0; 10], [0; 10]);
    let mut replay = Replay::new(&mut memory, &[], &[], Edition(0));
    replay.feed(trace);
    let report = replay.end().to_string();
    let mut bytewise = Replay::new(&mut other, &[], &[], Edition(0));
    trace.chunks(1).for_each(|byte| _ = bytewise.feed(byte));
    assert_eq!(bytewise.end().to_string(), report);
    assert_eq!(bytewise.last_record(), replay.last_record());
    assert_eq!(bytewise.difference(), replay.difference());
    assert_eq!(other, memory);
    (report, memory)
}

fn report(parts: &[&[u8]]) -> String {
    replayed(&parts.concat()).0
}

#[test]
fn good_traces() {
    let (before, after) = pair();
    assert_eq!(report(&[]), "agreed 0");
    assert_eq!(report(&[&before, &after]), "agreed 1");
    assert_eq!(report(&[&before, &after, &setting(9, &[1]), &before, &after, &setting(0, &[1; 10])]), "agreed 2");
    assert_eq!(report(&[&record(32, &[]), &record(33, &[])]), "agreed 1");
    assert_eq!(report(&[&record(32, &[7; 4100]), &record(33, &[7; 4100])]), "agreed 1");
}

#[test]
fn differences() {
    let (before, after) = pair();
    assert_eq!(report(&[&before, &record(33, &[])]), "differs call 1 at 0");
    assert_eq!(report(&[&before, &after, &before, &record(33, &before[4..])]), "differs call 2 at 20");
    assert_eq!(report(&[&before, &record(33, &after[4..14])]), "differs call 1 at 10");
    assert_eq!(report(&[&before, &record(33, &[&after[4..], &[0]].concat())]), "differs call 1 at 24");
    // A difference comes before what is malformed behind it.
    assert_eq!(report(&[&before, &record(33, &[]), &[9; 9]]), "differs call 1 at 0");
}

#[test]
fn malformed_traces() {
    let (before, after) = pair();
    let one = [&before[..], &after].concat();
    assert_eq!(report(&[&one, &after]), "malformed record 3");
    assert_eq!(report(&[&one, &before]), "malformed record 3");
    assert_eq!(report(&[&one, &before, &before, &after]), "malformed record 3");
    assert_eq!(report(&[&one, &before, &setting(0, &[1]), &after]), "malformed record 3");
    assert_eq!(report(&[&one, &before, &after[..after.len() - 1]]), "malformed record 3");
    assert_eq!(report(&[&one, &before, &record(33, &[0; 4101])]), "malformed record 3");
    assert_eq!(report(&[&one, &record(32, &[0; 4101])]), "malformed record 3");
    assert_eq!(report(&[&one, &record(7, &[0; 8])]), "malformed record 3");
    assert_eq!(report(&[&one, &[1, 0, 32, 0]]), "malformed record 3");
    assert_eq!(report(&[&one, &[0]]), "malformed record 3");
    assert_eq!(report(&[&one, &setting(0, &[])]), "malformed record 3");
}

#[test]
fn a_bad_setting_sets_nothing() {
    let good = setting(1, &[5]);
    for bad in [setting(9, &[6, 6]), setting(10, &[6]), setting(u32::MAX, &[6]), setting(0, &[6; 11])] {
        let expected = [0, 5, 0, 0, 0, 0, 0, 0, 0, 0];
        assert_eq!(replayed(&[&good[..], &bad, &good].concat()), (String::from("malformed record 2"), expected));
    }
}

#[test]
fn what_stopped_a_replay_is_kept() {
    let (before, after) = pair();
    let mut memory = [0; 10];
    let mut replay = Replay::new(&mut memory, &[], &[], Edition(0));
    replay.feed(&[&before[..], &after, &before[..9]].concat());
    assert_eq!(replay.last_record(), &before[..9]);
    assert_eq!((replay.report(), replay.end()), (Report::Agreed { calls: 1 }, Report::Malformed { record: 3 }));
    replay.feed(&[&before[9..], &[8, 0, 7, 0, 1, 2, 3]].concat());
    assert_eq!((replay.report(), replay.records()), (Report::Malformed { record: 3 }, 3));
    assert_eq!(replay.last_record()[..4], [8, 0, 7, 0]);
    // Nothing changes any more.
    replay.feed(&after);
    assert_eq!((replay.end(), replay.records()), (Report::Malformed { record: 3 }, 3));
    assert_eq!(replay.last_record()[..4], [8, 0, 7, 0]);
}
