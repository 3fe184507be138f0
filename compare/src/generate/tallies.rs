//! Cases of the tallies (M-106, M-108) and of forecasts (M-107). Much of it lies about a line.

use super::journals::{self, Size};
use super::{damage, properties};
use crate::buffers::property_record;
use crate::library::tallies::{Tallied, Tallies};
use crate::random::Random;
use crate::subject::{Paper, Subject};
use crate::tallies::case::{Operation, TalliesCase};
use crate::tallies::Journal;

/// The most bytes of a journal.
pub const MOST: usize = 1_048_576;

/// The longest value.
const VALUE: usize = 32_768;

pub fn case(random: &mut Random) -> TalliesCase {
    match random.below(16) {
        0..=4 => list(random),
        5..=7 => state(random),
        8 => TalliesCase::Recount(any_journal(random)),
        9 | 10 => three(random),
        11..=13 => call(random),
        _ => forecast(random),
    }
}

/// A good record of any kind.
pub fn good_record(random: &mut Random) -> Vec<u8> {
    if random.one_in(60) {
        let (name, length) = (vec![b'n'; random.pick(&[1, 31])], random.pick(&[VALUE, VALUE - 1, 4000]));
        return property_record(7, &name, Some(&vec![1; length]));
    }
    let wanted = journals::wanted(random);
    journals::any_record(random, wanted)
}

/// What is given to be appended: mostly one good record.
fn given_record(random: &mut Random) -> Vec<u8> {
    let mut record = good_record(random);
    match random.below(24) {
        0 => record.clear(),
        1 => record.extend(good_record(random)),
        2 => record.push(random.pick(&[0, 8, 0xff])),
        3 => record.truncate(record.len() - random.between(1, 3)),
        4 | 5 => damage::damage_journal(random, &mut record),
        6 => record = properties::bad_record(random),
        _ => {}
    }
    record
}

fn small_journal(random: &mut Random) -> Vec<u8> {
    let wanted = journals::wanted(random);
    match random.below(12) {
        0 => Vec::new(),
        1 => good_record(random),
        2 => journals::journal(random, wanted, Size::Area),
        3 => properties::stock(random, Size::Small).journal,
        _ => journals::journal(random, wanted, Size::Small),
    }
}

/// What is given to be joined: mostly a well-formed journal.
fn given_part(random: &mut Random) -> Vec<u8> {
    let mut part = small_journal(random);
    match random.below(10) {
        0 => damage::damage_journal(random, &mut part),
        1 => part.extend(properties::bad_record(random)),
        _ => {}
    }
    part
}

/// A journal of exactly so many bytes, 10 at the least: values, and one that takes what is left.
pub fn filled(random: &mut Random, size: usize) -> Vec<u8> {
    let mut journal = Vec::with_capacity(size);
    while size - journal.len() > VALUE + 10 {
        let length = VALUE.min(size - journal.len() - 20);
        journal.extend(property_record(random.word(), b"a", Some(&vec![0; length])));
    }
    let left = size - journal.len();
    journal.extend(property_record(random.word(), b"a", Some(&vec![0; left - 10])));
    journal
}

fn any_journal(random: &mut Random) -> Vec<u8> {
    if random.one_in(150) {
        let (full, wanted) = (random.pick(&[MOST, MOST + 1, MOST - 1]), journals::wanted(random));
        return if random.one_in(2) { filled(random, full) } else { journals::journal(random, wanted, Size::Full) };
    }
    let mut journal = small_journal(random);
    if random.one_in(4) {
        damage::damage_journal(random, &mut journal);
    }
    journal
}

fn operation(random: &mut Random) -> Operation {
    match random.below(16) {
        0..=9 => Operation::Append(given_record(random)),
        10..=12 => Operation::Join(given_part(random)),
        13 => Operation::Clear,
        _ => Operation::Overwrite(random.next() as u8),
    }
}

/// A list of operations; rarely one in a buffer about as long as a journal may be.
fn list(random: &mut Random) -> TalliesCase {
    if random.one_in(120) {
        return long_list(random);
    }
    let number = match random.below(10) {
        0 => random.between(30, 120),
        1..=4 => random.between(6, 30),
        _ => random.between(1, 8),
    };
    let operations: Vec<Operation> = (0..number).map(|_| operation(random)).collect();
    let size = buffer_size(random, &operations);
    let mut buffer = vec![0; size];
    random.fill(&mut buffer);
    TalliesCase::List { buffer, operations }
}

/// Mostly exactly what the operations come to somewhere, or a byte or a few less or more.
fn buffer_size(random: &mut Random, operations: &[Operation]) -> usize {
    let mut journal = Journal::new(&Paper, &vec![0; MOST], Tallied::EMPTY);
    let uses: Vec<usize> = operations
        .iter()
        .map(|operation| {
            journal.apply(operation);
            journal.kept.used as usize
        })
        .collect();
    let most = uses.iter().copied().max().unwrap_or(0);
    let some = random.pick(&uses);
    match random.below(10) {
        0 => random.below(60),
        1..=3 => some,
        4 => some.saturating_sub(1),
        5 => some.saturating_sub(random.between(2, 12)),
        6 => most,
        7 => most.saturating_sub(1),
        _ => most + random.below(40),
    }
}

/// A join that leaves about a record's room to 1,048,576 bytes, and operations behind it.
fn long_list(random: &mut Random) -> TalliesCase {
    let room = random.pick(&[0, 0, 9, 10, 11, 13, 14, 17, 18, 20, 40, 200]);
    let first = match random.below(6) {
        0 => filled(random, MOST + 1),
        1 => {
            let wanted = journals::wanted(random);
            journals::journal(random, wanted, Size::Full)
        }
        _ => filled(random, MOST - room),
    };
    let mut operations = vec![Operation::Join(first)];
    operations.extend((0..random.between(1, 12)).map(|_| operation(random)));
    let size = MOST + random.pick(&[0, 1, 9, 10, 64]) - random.pick(&[0, 0, 0, 1, 10]);
    TalliesCase::List { buffer: vec![0xee; size], operations }
}

/// One operation over a use and counts that may be those of no journal; sometimes in a buffer that is longer than a journal.
fn state(random: &mut Random) -> TalliesCase {
    let operation = match random.below(8) {
        0 | 1 => Operation::Join(given_part(random)),
        2 => Operation::Join(Vec::new()),
        _ => Operation::Append(given_record(random)),
    };
    let given = match &operation {
        Operation::Append(bytes) | Operation::Join(bytes) => bytes.len(),
        _ => 0,
    };
    let long = random.one_in(8);
    let size = if long { MOST + given + 40 } else { random.below(3 * given + 40) };
    let end = if long { MOST } else { size };
    let used = use_of(random, size, end, given);
    let mut tallies = Tallies::ZERO;
    for _ in 0..random.pick(&[0, 1, 1, 2, 12]) {
        let place = if random.one_in(2) { random.below(12) } else { random.pick(&[0, 11]) };
        tallies.rows[place / 3][place % 3] = count_of(random, used);
    }
    TalliesCase::State { buffer: vec![0x77; size], journal: Tallied { used, tallies }, operation }
}

/// A use at one of the lines: the buffer's end, where the journal has to end, and as far before it as what is given takes.
fn use_of(random: &mut Random, size: usize, end: usize, given: usize) -> u64 {
    let line = random.pick(&[size, end, end.saturating_sub(given), end.saturating_sub(given), size / 2]) as u64;
    match random.below(12) {
        0..=5 => line,
        6 | 7 => line + 1,
        8 => line.saturating_sub(1),
        9 => random.pick(&[u64::MAX, u64::MAX - 9, 1 << 32, 1 << 63, 1 << 20]),
        _ => random.below(size + 1) as u64,
    }
}

fn count_of(random: &mut Random, used: u64) -> u64 {
    match random.below(10) {
        0..=3 => used,
        4 | 5 => used.wrapping_add(1),
        6 => used / 10,
        7 => random.pick(&[u64::MAX, 1 << 63, 1 << 32]),
        _ => random.below(4) as u64,
    }
}

/// Three journals, mostly with room for all of them.
fn three(random: &mut Random) -> TalliesCase {
    let parts = [(); 3].map(|()| match random.below(20) {
        0 => given_part(random),
        1..=3 => Vec::new(),
        _ => small_journal(random),
    });
    let whole: usize = parts.iter().map(Vec::len).sum();
    let room = match random.below(8) {
        0 => whole.saturating_sub(1),
        1 => random.below(whole + 1),
        2 => whole + random.below(20),
        _ => whole,
    };
    TalliesCase::Three { parts, room }
}

/// A scope that has a forecast, scope 3, or one that is none.
fn any_scope(random: &mut Random) -> u32 {
    match random.below(12) {
        0 => 3,
        1 if random.one_in(3) => random.word() >> 1,
        1 => random.pick(&[0, 4, 0x7fff_ffff]),
        2 => 0x8000_0000,
        3 => u32::MAX,
        4 => 0x8000_0000 | random.word(),
        5 | 6 => 2,
        _ => 1,
    }
}

/// A journal and a call over it, of a state that lies about the list's end or about an area's.
fn call(random: &mut Random) -> TalliesCase {
    let scope = any_scope(random);
    let size = match random.below(40) {
        0 => Size::Areas,
        1..=10 => Size::Area,
        _ => Size::Small,
    };
    let mut wanted = journals::wanted(random);
    if matches!(scope, 1..=3) || scope >= 1 << 31 {
        wanted.scope = scope;
    }
    let mut journal = journals::journal(random, wanted, size);
    if random.one_in(20) {
        damage::damage_journal(random, &mut journal);
    }
    let counts = Paper.keeping().recount(&journal).tallies.rows[row_of(scope)];
    let state = state_of(random, &counts);
    TalliesCase::Call { journal, scope, state }
}

/// The row of a scope; that of negative ones for all that have none.
fn row_of(scope: u32) -> usize {
    match scope {
        1..=3 => scope as usize,
        _ => 0,
    }
}

/// A state about the end of a list with these counts, an area before it, or anywhere.
fn state_of(random: &mut Random, counts: &[u64; 3]) -> u32 {
    let length: u128 = counts.iter().map(|&count| u128::from(count)).sum();
    let length = u32::try_from(length).unwrap_or(u32::MAX);
    let line = match random.below(6) {
        0 | 1 => 0,
        2 => length,
        3 => length.saturating_sub(random.pick(&[509, 1017, 1018])),
        4 => random.pick(counts) as u32,
        _ => return if length == 0 { random.word() } else { random.below(length as usize) as u32 },
    };
    match random.below(6) {
        0 => line.saturating_add(1),
        1 | 2 => line.saturating_sub(1),
        3 if random.one_in(4) => random.pick(&[u32::MAX, u32::MAX - 1, 1 << 31]),
        _ => line,
    }
}

/// Counts as journals have them, or ones near 2^32 and 2^64.
fn invented_count(random: &mut Random) -> u64 {
    let line = match random.below(10) {
        0..=2 => 0,
        3 => random.below(8) as u64,
        4 => random.pick(&[509, 510, 1017, 1018, 1019, 1020]),
        5 => random.below(3000) as u64,
        6 => u64::from(u32::MAX) - random.below(1500) as u64,
        7 => random.pick(&[1 << 32, 1 << 40, 1 << 63]),
        8 => u64::MAX,
        _ => u64::MAX - random.below(2000) as u64,
    };
    match random.below(6) {
        0 => line.saturating_add(1),
        1 => line.saturating_sub(1),
        _ => line,
    }
}

/// Some have one opcode alone, about what an area holds, and some add up to 2^64 and a few, which looks like a few where a
/// sum wraps.
fn invented_row(random: &mut Random) -> [u64; 3] {
    if random.one_in(8) {
        let mut row = [random.pick(&[1017, 1018, 1018, 1019, 1019, 1020]), 0, 0];
        let place = random.pick(&[0, 0, 1, 2]);
        row.rotate_right(place);
        return row;
    }
    let mut row = [(); 3].map(|()| invented_count(random));
    if random.one_in(5) {
        row[0] = random.next();
        row[1] = (random.below(3000) as u64).wrapping_sub(row[0]);
        row[2] = random.pick(&[0, 0, 1, 900]);
        let place = random.below(3);
        row.rotate_left(place);
    }
    row
}

fn forecast(random: &mut Random) -> TalliesCase {
    let tallies = Tallies { rows: [(); 4].map(|()| invented_row(random)) };
    let scope = any_scope(random);
    let state = state_of(random, &tallies.rows[row_of(scope)]);
    TalliesCase::Forecast { tallies, scope, state }
}

#[cfg(test)]
mod tests {
    use super::{filled, MOST, VALUE};
    use crate::paper::tallies::recount;
    use crate::random::Random;

    #[test]
    fn a_journal_is_filled_to_the_byte() {
        let random = &mut Random::new(5);
        for size in [10, 11, VALUE + 9, VALUE + 10, VALUE + 11, VALUE + 20, VALUE + 21, MOST - 1, MOST] {
            let journal = filled(random, size);
            assert!(journal.len() == size && recount(&journal).is_ok(), "{size}");
        }
        assert!(recount(&filled(random, MOST + 1)).is_err());
    }
}
