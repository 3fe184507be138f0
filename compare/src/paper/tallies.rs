//! M-106 "Keep the tallies", M-107 "Has this scope anything left?" and M-108 "Two migrations in a row".

use super::records;
use super::scope;
use super::update_nodes::MOST_WORDS;

/// "for each scope row (scope 3 over all units) and opcode": a row for negative scopes, 1, 2 and 3, each with deletes,
/// updates and additions.
pub type Tallies = [[u64; 3]; 4];

/// A scope of each row; all negative ones share theirs.
const SCOPES: [u64; 4] = [0x8000_0000, 1, 2, 3];

/// "past the lent buffer or 1,048,576 bytes"
const MOST_BYTES: u64 = 1_048_576;

/// How many bytes of the lent buffer are in use, and "that number beside the journal".
#[derive(Clone, Copy, PartialEq, Eq, Debug)]
pub struct Tallied {
    pub used: u64,
    pub tallies: Tallies,
}

/// "From an empty journal with zero tallies"; clearing comes to the same.
pub const EMPTY: Tallied = Tallied { used: 0, tallies: [[0; 3]; 4] };

/// The number of a refusal, and the rule that gives it.
#[derive(Clone, Copy, PartialEq, Eq, Debug)]
pub struct Refused {
    pub number: u32,
    pub rule: &'static str,
}

fn refused<T>(number: u32, rule: &'static str) -> Result<T, Refused> {
    Err(Refused { number, rule })
}

/// The number of operations that each scope's reportable list has of each opcode.
pub fn recount(journal: &[u8]) -> Result<Tallies, Refused> {
    let changes = records::journal(journal).map_err(|rule| Refused { number: 50, rule })?;
    let mut tallies = [[0; 3]; 4];
    for (row, number) in tallies.iter_mut().zip(SCOPES) {
        let types = scope::row(number).expect("each of these is a scope");
        for operation in scope::reportable_list(&changes, &types, None) {
            row[operation.opcode as usize - 1] += 1;
        }
    }
    Ok(tallies)
}

/// "One record is appended at a time."
pub fn append(buffer: &mut [u8], journal: &Tallied, record: &[u8]) -> Result<Tallied, Refused> {
    let counted = match records::journal_records(record) {
        Ok(1) => recount(record),
        Ok(_) => refused(50, "malformed: not one record"),
        Err(rule) => refused(50, rule),
    };
    attach(buffer, journal, record, counted)
}

/// M-108: "two journals, which we join end to end"
pub fn join(buffer: &mut [u8], journal: &Tallied, part: &[u8]) -> Result<Tallied, Refused> {
    let counted = recount(part);
    attach(buffer, journal, part, counted)
}

/// What is no journal is refused first. "Refusals: malformed, then no room .., change neither journal nor tallies."
fn attach(
    buffer: &mut [u8],
    journal: &Tallied,
    part: &[u8],
    counted: Result<Tallies, Refused>,
) -> Result<Tallied, Refused> {
    judge(buffer, journal)?;
    let end = journal.used + part.len() as u64;
    let room = find_room(buffer, end);
    let more = counted.and_then(|more| room.map(|()| more))?;
    buffer[journal.used as usize..end as usize].copy_from_slice(part);
    let tallies = sum(&journal.tallies, &more);
    Ok(Tallied { used: end, tallies })
}

/// A use beyond the buffer, and a count above the use, which no journal has.
pub fn judge(buffer: &[u8], journal: &Tallied) -> Result<(), Refused> {
    if journal.used > buffer.len() as u64 {
        return refused(52, "a use beyond the buffer");
    }
    if journal.tallies.iter().flatten().any(|&count| count > journal.used) {
        return refused(52, "a count above the use");
    }
    Ok(())
}

/// Whether a journal that ends there has room. Exactly full is room.
fn find_room(buffer: &[u8], end: u64) -> Result<(), Refused> {
    if end > buffer.len() as u64 {
        return refused(51, "past the lent buffer");
    }
    if end > MOST_BYTES {
        return refused(51, "past 1,048,576 bytes");
    }
    Ok(())
}

/// M-108: "the tallies add".
fn sum(one: &Tallies, other: &Tallies) -> Tallies {
    let mut both = *one;
    for (count, more) in both.iter_mut().flatten().zip(other.iter().flatten()) {
        *count += more;
    }
    both
}

/// M-107: status and next state, "from M-106's tallies alone, for negative scopes, 1 and 2, as the full call would on a good
/// address, zero reserved bytes and the tallied journal. All others get -3. With -3 the next state is 0."
pub fn forecast(tallies: &Tallies, scope: u64, state: u64) -> (i32, u128) {
    let counts = match scope {
        0x8000_0000..=0xffff_ffff => tallies[0],
        1 | 2 => tallies[scope as usize],
        _ => return (-3, 0),
    };
    let length: u128 = counts.iter().map(|&count| u128::from(count)).sum();
    let state = u128::from(state);
    if state > 0 && state >= length {
        return (-3, 0);
    }
    let end = state + run_length(&counts, state, length);
    if end < length {
        return (1, end);
    }
    (0, 0)
}

/// How many operations from the state on fit the area's words: they are taken one by one.
fn run_length(counts: &[u64; 3], state: u128, length: u128) -> u128 {
    let (mut words, mut last, mut taken) = (0, 0, 0);
    while state + taken < length {
        let opcode = opcode_at(counts, state + taken);
        let operands = if opcode == 3 { 2 } else { 1 };
        let operators = u64::from(opcode != last);
        words += operators + operands;
        if words > MOST_WORDS {
            break;
        }
        last = opcode;
        taken += 1;
    }
    taken
}

/// The list has all deletes first, then updates, then additions.
fn opcode_at(counts: &[u64; 3], place: u128) -> u32 {
    let deletes = u128::from(counts[0]);
    let updates = u128::from(counts[1]);
    match place {
        _ if place < deletes => 1,
        _ if place < deletes + updates => 2,
        _ => 3,
    }
}
