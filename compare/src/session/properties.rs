//! Sessions of update-properties.

use super::Run;
use crate::buffers::{arguments, put_word};
use crate::case::CallCase;
use crate::generate;
use crate::paper::records::{self, Property};
use crate::text::hex;

/// A name and, where the property is not deleted, its value's bytes as far as they came.
type Joined = (Vec<u8>, Option<Vec<u8>>);

/// One session under way: the node's changes, what is carried, and what came so far.
struct Session<'a> {
    phandle: u32,
    changes: Vec<Property<'a>>,
    carried: [u8; 16],
    got: Vec<Joined>,
    /// The last value's rest is to come.
    divided: bool,
    calls: u64,
    done: bool,
}

fn begin<'a>(properties: &[Property<'a>], phandle: u32) -> Session<'a> {
    let changes = properties.iter().filter(|property| property.phandle == u64::from(phandle)).copied().collect();
    let mut carried = [0; 16];
    put_word(&mut carried, 0, phandle);
    Session { phandle, changes, carried, got: Vec::new(), divided: false, calls: 0, done: false }
}

/// Runs the sessions to their ends, one call of any of them at a time; gives the number of properties that came.
pub fn run(run: &mut Run, phandles: &[u32]) -> Result<u64, String> {
    let journal = run.case.records.clone();
    let Ok(properties) = records::properties(&journal) else {
        return refused_from_the_start(run, phandles[0], -1);
    };
    let mut sessions: Vec<Session> = phandles.iter().map(|&phandle| begin(&properties, phandle)).collect();
    for session in &mut sessions {
        if session.changes.is_empty() {
            refused_from_the_start(run, session.phandle, -3)?;
            session.done = true;
        }
    }
    loop {
        let mut open: Vec<&mut Session> = sessions.iter_mut().filter(|session| !session.done).collect();
        if open.is_empty() {
            return Ok(sessions.iter().map(|session| session.got.len() as u64).sum());
        }
        let next = run.random.below(open.len());
        step(run, open[next])?;
    }
}

/// The next answered call of one session.
fn step(run: &mut Run, session: &mut Session) -> Result<(), String> {
    refused_calls(run, session)?;
    let (call, address) = well_made_call(run, &session.carried);
    let result = run.well_made(&call)?;
    let area = &result.memory.content()[address..address + 4096];
    let (state, properties) = run.read_properties(area)?;
    for property in &properties {
        join(session, property, area)?;
    }
    session.calls += 1;
    session.done = result.status() == Some(0);
    session.carried.copy_from_slice(&area[..16]);
    judge_carried(session, state)?;
    judge_got(session, state, properties.len())?;
    judge_calls(session)
}

/// Puts one property of an area behind those that came. "a value divided between calls counted as its joined bytes"
fn join(session: &mut Session, property: &[u32; 5], area: &[u8]) -> Result<(), String> {
    let [name_at, name_length, descriptor, value_at, value_length] = property.map(|word| word as usize);
    let name = &area[name_at..name_at + name_length];
    let value = &area[value_at..value_at + value_length];
    match session.got.last_mut() {
        Some((begun, Some(bytes))) if session.divided && begun == name => bytes.extend(value),
        _ if session.divided => return Err(String::from("another property before a divided value's rest\n")),
        _ => session.got.push((name.to_vec(), (descriptor != 0x8000_0000).then(|| value.to_vec()))),
    }
    session.divided = descriptor > 0x8000_0000;
    Ok(())
}

/// The phandle, the state and eight zero bytes; the state is 0 exactly where the session is done.
fn judge_carried(session: &Session, state: u32) -> Result<(), String> {
    let mut expected = [0; 16];
    put_word(&mut expected, 0, session.phandle);
    put_word(&mut expected, 4, state);
    if session.carried == expected && session.done == (state == 0) {
        Ok(())
    } else {
        Err(format!("carried: {}, done: {}\n", hex(&session.carried), session.done))
    }
}

/// "the properties handed out are the node's changes in journal order up to the state, all of them at the end": the
/// records before it, and of the record in which it lies the value bytes before it.
fn judge_got(session: &Session, state: u32, handed_out: usize) -> Result<(), String> {
    let before = |change: &&Property| session.done || change.at < u64::from(state);
    let expected: Vec<Joined> =
        session.changes.iter().filter(before).map(|change| until(session, change, state)).collect();
    if session.got != expected || handed_out == 0 {
        return Err(format!("the {} properties that came are not the changes up to {state}\n", session.got.len()));
    }
    Ok(())
}

/// A change as far as it stands before the state.
fn until(session: &Session, change: &Property, state: u32) -> Joined {
    let value_at = change.at + 9 + change.name.len() as u64;
    let bytes = u64::from(state).saturating_sub(value_at) as usize;
    let handed_out =
        |value: &[u8]| if session.done { value.to_vec() } else { value[..bytes.min(value.len())].to_vec() };
    (change.name.to_vec(), change.value.map(handed_out))
}

/// A session ends: of n answered calls the first n - 1 fill 4,040 bytes each with what the node's changes take.
fn judge_calls(session: &Session) -> Result<(), String> {
    let bytes = |change: &Property| change.name.len() as u64 + 5 + change.value.map_or(0, <[u8]>::len) as u64;
    let all: u64 = session.changes.iter().map(bytes).sum();
    if 4040 * (session.calls - 1) < all {
        Ok(())
    } else {
        Err(format!("{} calls for {all} bytes\n", session.calls))
    }
}

/// Over a malformed journal, and for a phandle that no record carries, every well-made call is refused.
fn refused_from_the_start(run: &mut Run, phandle: u32, status: i32) -> Result<u64, String> {
    let mut carried = [0; 16];
    put_word(&mut carried, 0, phandle);
    let (call, _) = well_made_call(run, &carried);
    let pair = run.both(&call)?;
    if pair.paper.status() == Some(status) {
        Ok(0)
    } else {
        Err(format!("status {:?} and not {status} of this {}", pair.paper.status(), call.text()))
    }
}

/// A call with any valid scope and an aligned area that begins with the carried bytes.
fn well_made_call(run: &mut Run, carried: &[u8; 16]) -> (CallCase, usize) {
    if !run.case.plain {
        run.write_anywhere();
    }
    let address = 4096 * run.random.below(run.memory.len() / 4096);
    run.memory[address..address + 16].copy_from_slice(carried);
    let scope = generate::journals::wanted(&mut run.random).scope;
    let args = arguments(4, &[address as u32, scope], &[run.random.word()]);
    let call = CallCase {
        args,
        memory: run.memory.clone(),
        journal: run.case.records.clone(),
        inventory: Vec::new(),
        edition: run.edition,
        registration: run.registration,
        reading: run.reading,
    };
    (call, address)
}

fn refused_calls(run: &mut Run, session: &Session) -> Result<(), String> {
    while !run.case.plain && run.random.one_in(2) {
        let call = refused_call(run, session);
        run.judged(&call)?;
    }
    Ok(())
}

/// A well-made call with one thing wrong, or a call of any token over its own memory.
fn refused_call(run: &mut Run, session: &Session) -> CallCase {
    let (mut call, address) = well_made_call(run, &session.carried);
    let state = u32::from_be_bytes([4, 5, 6, 7].map(|byte| session.carried[byte]));
    let first = session.changes[0].at as u32;
    match run.random.below(10) {
        0 => put_word(&mut call.args, 16, run.random.pick(&[0, 4, 5, 0x7fff_ffff])),
        1 => put_word(&mut call.args, 12, address as u32 + run.random.pick(&[4, 16, 2048])),
        2 => put_word(&mut call.args, 12, run.memory.len() as u32),
        3 => call.memory[address + run.random.between(8, 15)] = run.random.nonzero_byte(),
        4 => put_word(&mut call.memory, address + 4, state.wrapping_add(run.random.pick(&[1, u32::MAX]))),
        5 => put_word(&mut call.memory, address + 4, first.max(1)),
        6 => call.memory[address + run.random.below(4)] ^= run.random.nonzero_byte(),
        7 => generate::arguments::damage(&mut run.random, &mut call.args),
        _ => {
            call = generate::call(&mut run.random);
            call.journal = run.case.records.clone();
        }
    }
    call
}
