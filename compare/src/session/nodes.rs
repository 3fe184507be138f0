//! Sessions of update-nodes.

use super::{judge_list, Run};
use crate::buffers::{arguments, put_word};
use crate::case::{CallCase, Wanted};
use crate::generate;
use crate::paper::{records, scope};
use crate::text::hex;

/// One session under way: what it asks for, the whole reportable list, what is carried, and what came so far.
struct Session {
    wanted: Wanted,
    whole: Vec<[u32; 3]>,
    carried: [u8; 16],
    got: Vec<[u32; 3]>,
    done: bool,
}

/// The whole reportable list, or nothing where the journal is malformed.
fn whole_list(journal: &[u8], wanted: Wanted) -> Option<Vec<[u32; 3]>> {
    let changes = records::journal(journal).ok()?;
    let row = scope::row(u64::from(wanted.scope))?;
    let list = scope::reportable_list(&changes, &row, wanted.unit_in_scope_3());
    Some(list.iter().map(|operation| [operation.opcode, operation.first, operation.second]).collect())
}

fn begin(journal: &[u8], wanted: Wanted) -> Option<Session> {
    let whole = whole_list(journal, wanted)?;
    Some(Session { wanted, whole, carried: wanted.first_bytes(), got: Vec::new(), done: false })
}

/// Runs the sessions to their ends, one call of any of them at a time; gives the number of entries that came.
pub fn run(run: &mut Run, wanted: &[Wanted]) -> Result<u64, String> {
    let begun: Option<Vec<Session>> = wanted.iter().map(|&wanted| begin(&run.case.records, wanted)).collect();
    let Some(mut sessions) = begun else {
        return malformed(run, wanted[0]);
    };
    loop {
        let mut open: Vec<&mut Session> = sessions.iter_mut().filter(|session| !session.done).collect();
        if open.is_empty() {
            return Ok(sessions.iter().map(|session| session.got.len() as u64).sum());
        }
        let next = run.random.below(open.len());
        step(run, open[next])?;
    }
}

/// The next answered call of one session.
fn step(run: &mut Run, session: &mut Session) -> Result<(), String> {
    let wanted = session.wanted;
    refused_calls(run, wanted, &session.carried, session.whole.len() as u32)?;
    let (call, address) = well_made_call(run, wanted.scope, &session.carried);
    let result = run.well_made(&call)?;
    let area = &result.memory.content()[address..address + 4096];
    let before = session.got.len();
    session.got.extend(run.read_nodes(area, wanted.scope)?);
    let status = result.status().unwrap_or(0);
    judge_list(&session.got, &session.whole, before, status)?;
    session.carried.copy_from_slice(&area[..16]);
    session.done = status == 0;
    judge_carried(session)
}

/// "The answer: new state (0 when nothing remains)"; behind it what the first call had there.
fn judge_carried(session: &Session) -> Result<(), String> {
    let mut expected = session.wanted.first_bytes();
    if !session.done {
        put_word(&mut expected, 0, session.got.len() as u32);
    }
    if session.carried == expected {
        Ok(())
    } else {
        Err(format!("carried: {}, not {}\n", hex(&session.carried), hex(&expected)))
    }
}

/// Over a malformed journal every well-made call gives -1.
fn malformed(run: &mut Run, wanted: Wanted) -> Result<u64, String> {
    let (call, _) = well_made_call(run, wanted.scope, &wanted.first_bytes());
    let pair = run.both(&call)?;
    match pair.paper.status() {
        Some(-1) => Ok(0),
        _ => Err(format!("a malformed journal was not refused, by this {}", call.text())),
    }
}

/// A call with the scope and an aligned area that begins with the carried bytes.
fn well_made_call(run: &mut Run, scope: u32, carried: &[u8; 16]) -> (CallCase, usize) {
    if !run.case.plain {
        run.write_anywhere();
    }
    let address = 4096 * run.random.below(run.memory.len() / 4096);
    run.memory[address..address + 16].copy_from_slice(carried);
    let args = arguments(1, &[address as u32, scope], &[run.random.word()]);
    (call_of(run, args), address)
}

fn call_of(run: &Run, args: Vec<u8>) -> CallCase {
    CallCase {
        args,
        memory: run.memory.clone(),
        journal: run.case.records.clone(),
        inventory: Vec::new(),
        edition: run.edition,
        registration: run.registration,
        reading: run.reading,
    }
}

fn refused_calls(run: &mut Run, wanted: Wanted, carried: &[u8; 16], list: u32) -> Result<(), String> {
    while !run.case.plain && run.random.one_in(2) {
        let call = refused_call(run, wanted, carried, list);
        run.judged(&call)?;
    }
    Ok(())
}

/// A well-made call with one thing wrong, or a call of any token over its own memory.
fn refused_call(run: &mut Run, wanted: Wanted, carried: &[u8; 16], list: u32) -> CallCase {
    let (mut call, address) = well_made_call(run, wanted.scope, carried);
    let reserved_from = if wanted.scope == 3 { 12 } else { 4 };
    match run.random.below(8) {
        0 => put_word(&mut call.args, 16, run.random.pick(&[0, 4, 5, 0x7fff_ffff])),
        1 => put_word(&mut call.args, 12, address as u32 + run.random.pick(&[4, 16, 2048])),
        2 => put_word(&mut call.args, 12, run.memory.len() as u32),
        3 => call.memory[address + run.random.between(reserved_from, 15)] = run.random.nonzero_byte(),
        4 => put_word(&mut call.memory, address, list.max(1)),
        5 => generate::arguments::damage(&mut run.random, &mut call.args),
        _ => {
            call = generate::call(&mut run.random);
            call.journal = run.case.records.clone();
        }
    }
    call
}
