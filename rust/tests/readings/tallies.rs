//! A journal that is kept with its tallies (M-106, M-108), and forecasts from them (M-107).

use crate::partition::Partition;
use draugsten::{forecast, read_state, recount, Answer, Fault, Forecast, NotKept, TalliedJournal, Tallies, Tally};

const LIMIT: usize = 1_048_576;
const NONE: Tally = Tally { deletes: 0, updates: 0, additions: 0 };
const DELETE: Tally = Tally { deletes: 1, ..NONE };
const UPDATE: Tally = Tally { updates: 1, ..NONE };
const ADDITION: Tally = Tally { additions: 1, ..NONE };

fn record(kind: u16, body: &[u8]) -> Vec<u8> {
    let head = [2 + body.len() as u16, kind].into_iter().flat_map(u16::to_le_bytes);
    head.chain(body.iter().copied()).collect()
}

/// A record of kinds 1 to 4, with this node type and the operands of its kind.
fn change(kind: u16, node_type: u8) -> Vec<u8> {
    let operands = [4, 4, 8, 12][usize::from(kind) - 1];
    record(kind, &[&[node_type, 0], vec![7; operands].as_slice()].concat())
}

/// A record of kind 5 with a value of so many bytes.
fn value(length: usize) -> Vec<u8> {
    record(5, &[b"\x01\0\0\0a\0", vec![0; length].as_slice()].concat())
}

fn deleted() -> Vec<u8> {
    record(6, b"\x01\0\0\0abc\0")
}

/// Records of 1,048,576 bytes: 31 values of 32,768 bytes, and one that ends where they do.
fn full() -> Vec<u8> {
    let mut journal = value(32_768).repeat(31);
    while LIMIT - journal.len() > 32_778 {
        journal.extend(value(1000));
    }
    let rest = LIMIT - journal.len();
    journal.extend(value(rest - 10));
    assert_eq!(journal.len(), LIMIT);
    journal
}

#[test]
fn a_record_of_each_kind_in_each_row() {
    let cases = [
        (change(1, 10), [DELETE, DELETE, NONE, NONE]),
        (change(1, 6), [NONE, DELETE, NONE, NONE]),
        (change(1, 3), [NONE, NONE, NONE, NONE]),
        (change(2, 3), [NONE, UPDATE, UPDATE, NONE]),
        (change(2, 5), [UPDATE, UPDATE, NONE, NONE]),
        (change(2, 1), [NONE, UPDATE, NONE, NONE]),
        (change(3, 14), [ADDITION, ADDITION, NONE, NONE]),
        (change(3, 9), [NONE, ADDITION, NONE, NONE]),
        (change(4, 15), [NONE, NONE, NONE, UPDATE]),
        (change(4, 16), [NONE, NONE, NONE, UPDATE]),
        (value(3), [NONE; 4]),
        (deleted(), [NONE; 4]),
    ];
    for (record, [negative, first, second, third]) in cases {
        let expected = Tallies { negative, first, second, third };
        let mut buffer = vec![0; record.len()];
        let mut journal = TalliedJournal::new(&mut buffer);
        assert_eq!(journal.append(&record), Ok(()));
        assert_eq!((journal.tallies(), journal.bytes()), (expected, &record[..]));
        assert_eq!(recount(&record), Ok(expected));
    }
}

#[test]
fn one_record_at_a_time() {
    let one = change(1, 10);
    let mut buffer = [9; 64];
    let mut journal = TalliedJournal::new(&mut buffer);
    let two = [one.clone(), one.clone()].concat();
    for bytes in [&[], &one[..9], &[&one[..], &[0]].concat(), &two, &change(1, 15), &change(4, 14), &record(7, &[0; 6])]
    {
        assert_eq!(journal.append(bytes), Err(NotKept::Malformed), "{bytes:?}");
    }
    assert_eq!((journal.used(), journal.tallies()), (0, Tallies::default()));
    assert_eq!(journal.join(&two), Ok(()));
    assert_eq!(journal.tallies().first, Tally { deletes: 2, ..NONE });
    assert_eq!(buffer, [&two[..], &[9; 44]].concat()[..]);
}

#[test]
fn exactly_full_is_room() {
    let one = change(1, 10);
    let mut buffer = [9; 29];
    let mut journal = TalliedJournal::new(&mut buffer[..20]);
    assert_eq!([journal.append(&one), journal.append(&one)], [Ok(()); 2]);
    assert_eq!(journal.append(&one), Err(NotKept::NoRoom));
    assert_eq!(journal.append(&one[..9]), Err(NotKept::Malformed));
    assert_eq!(journal.join(&[]), Ok(()));
    let mut journal = TalliedJournal::restore(&mut buffer, 20).unwrap();
    assert_eq!(journal.append(&one), Err(NotKept::NoRoom));
    assert_eq!((journal.used(), journal.tallies().negative), (20, Tally { deletes: 2, ..NONE }));
    assert_eq!(buffer[20..], [9; 9]);
}

#[test]
fn a_journal_ends_at_its_limit() {
    let (whole, one) = (full(), change(1, 10));
    let mut buffer = vec![0; LIMIT + 10];
    let mut journal = TalliedJournal::new(&mut buffer);
    assert_eq!(journal.join(&whole), Ok(()));
    assert_eq!(journal.append(&one), Err(NotKept::NoRoom));
    assert_eq!([journal.join(&one), journal.join(&[])], [Err(NotKept::NoRoom), Ok(())]);
    journal.clear();
    assert_eq!(journal.append(&one), Ok(()));
    assert_eq!(journal.join(&whole), Err(NotKept::NoRoom));
    assert_eq!(recount(&[whole, one].concat()), Err(NotKept::Malformed));
}

#[test]
fn a_stored_journal_is_counted_anew() {
    let mut buffer = [change(1, 10), change(2, 3), vec![0; 4]].concat();
    let tallies = recount(&buffer[..20]).unwrap();
    assert_eq!(TalliedJournal::restore(&mut buffer, 20).unwrap().tallies(), tallies);
    assert_eq!(TalliedJournal::restore(&mut buffer, 21).unwrap_err(), NotKept::Malformed);
    assert_eq!(TalliedJournal::restore(&mut buffer, 25).unwrap_err(), NotKept::NoJournal);
    assert_eq!(TalliedJournal::restore(&mut [], 0).unwrap().tallies(), Tallies::default());
}

#[test]
fn three_journals_are_joined_both_ways() {
    let parts = [
        [change(3, 10), change(1, 6)].concat(),
        [change(2, 3), change(4, 15), value(5)].concat(),
        [change(1, 12), deleted(), change(2, 5)].concat(),
    ];
    let mut buffers = [[0; 128]; 3];
    let [left, middle, right] = &mut buffers;
    let mut left = TalliedJournal::new(left);
    parts.iter().for_each(|part| left.join(part).unwrap());
    let mut middle = TalliedJournal::new(middle);
    parts[1..].iter().for_each(|part| middle.join(part).unwrap());
    let mut right = TalliedJournal::new(right);
    right.join(&parts[0]).unwrap();
    right.join(middle.bytes()).unwrap();
    assert_eq!((left.bytes(), left.tallies()), (right.bytes(), right.tallies()));
    assert_eq!(recount(&parts.concat()), Ok(left.tallies()));
}

/// What update-nodes answers over a journal of so many operations of type 14, in scope 1 from this state on.
fn answer(counts: [usize; 3], state: u32) -> Forecast {
    let mut partition = Partition::new();
    partition.journal = (1..=3).flat_map(|kind| change(kind, 14).repeat(counts[usize::from(kind) - 1])).collect();
    partition.memory[4096..4100].copy_from_slice(&state.to_be_bytes());
    let answer = partition.update_nodes(1);
    let next = u64::from(read_state(partition.node_area(), 1).unwrap());
    match answer {
        Ok(Answer::Done) => Forecast::Done,
        Ok(Answer::CallAgain) => Forecast::CallAgain { next },
        Err(Fault::Parameter) => Forecast::Parameter,
        Err(fault) => panic!("{fault}"),
    }
}

fn tallies(deletes: u64, updates: u64, additions: u64) -> Tallies {
    Tallies { first: Tally { deletes, updates, additions }, ..Tallies::default() }
}

#[test]
fn a_forecast_is_the_answer_of_the_call() {
    let lists = [[0, 0, 0], [1, 0, 0], [0, 1, 0], [0, 0, 1], [1018, 0, 0], [1019, 0, 0], [0, 0, 509], [0, 0, 510]];
    for counts in lists.into_iter().chain([[1000, 17, 1], [500, 500, 500]]) {
        let [deletes, updates, additions] = counts.map(|count| count as u64);
        let all = (deletes + updates + additions) as u32;
        for state in [0, 1, 5, all.saturating_sub(1), all, all + 1, u32::MAX] {
            let told = forecast(&tallies(deletes, updates, additions), 1, state);
            assert_eq!(told, answer(counts, state), "{counts:?}, state {state}");
        }
    }
}

#[test]
fn forecasts_of_tallies_that_no_journal_has() {
    let again = |next| Forecast::CallAgain { next };
    assert_eq!(forecast(&tallies(1 << 40, 0, 0), 1, u32::MAX), again((1 << 32) + 1017));
    assert_eq!(forecast(&tallies(u64::MAX, u64::MAX, u64::MAX), 1, 0), again(1018));
    assert_eq!(forecast(&tallies(0, 0, u64::MAX), 1, u32::MAX), again((1 << 32) + 508));
    assert_eq!(forecast(&tallies(u64::from(u32::MAX), 1, 0), 1, u32::MAX), Forecast::Done);
    assert_eq!(forecast(&tallies(u64::from(u32::MAX), 0, 0), 1, u32::MAX), Forecast::Parameter);
}

#[test]
fn scopes_of_a_forecast() {
    let many = Tally { deletes: 2000, ..NONE };
    let all = Tallies { negative: many, first: many, second: many, third: many };
    for scope in [i32::MIN, -1, 1, 2] {
        assert_eq!(forecast(&all, scope, 0), Forecast::CallAgain { next: 1018 });
    }
    for scope in [0, 3, 4, i32::MAX] {
        assert_eq!(forecast(&all, scope, 0), Forecast::Parameter);
        assert_eq!((Forecast::Parameter.status(), Forecast::Parameter.next()), (-3, 0));
    }
    let rows = [i32::MIN, -1, 0, 1, 2, 3, 4].map(|scope| tallies(1, 2, 3).of_scope(scope));
    let first = Some(Tally { deletes: 1, updates: 2, additions: 3 });
    assert_eq!(rows, [Some(NONE), Some(NONE), None, first, Some(NONE), Some(NONE), None]);
}
