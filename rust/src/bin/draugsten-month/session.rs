//! One session of a list.

use crate::digest::SessionHash;
use crate::list::Session;
use crate::shared::flaws::Flaws;
use crate::shared::input::{self, Inputs, Memory, Stream};
use crate::shared::names::shown;
use draugsten::table::Digest;
use draugsten::{Counted, CountingReplay, Edition};
use std::fs;
use std::io::Read;
use std::os::unix::fs::FileTypeExt;
use std::path::Path;

/// The bytes of a trace between two looks at the progress.
const PART: u64 = 262_144;

/// What the calls of a session count, and which session it is, if its trace was replayed to its end.
pub struct CountedSession {
    pub counts: Counted,
    pub digest: Digest,
}

/// What the calls of a session count, or why its files cannot be read, and what is wrong with its journal and inventory.
/// `pass` is told the bytes that were replayed.
pub fn play(session: &Session, pass: impl Fn(u64)) -> (Result<CountedSession, String>, Flaws) {
    let read =
        check(session).and_then(|()| input::read_inputs(session.journal.as_deref(), session.inventory.as_deref()));
    match read {
        Ok(inputs) => (play_over(session, &inputs, pass), inputs.flaws),
        Err(why) => (Err(why), Flaws::default()),
    }
}

fn play_over(session: &Session, inputs: &Inputs, pass: impl Fn(u64)) -> Result<CountedSession, String> {
    let mut memory = input::read_memory(&session.memory)?;
    let mut trace = Stream::open("trace", Some(&session.trace))?;
    let Inputs { journal, inventory, .. } = inputs;
    let mut hash = SessionHash::new(journal, inventory, session.edition, memory.len(), given(session, &memory));
    let mut replay = CountingReplay::new(&mut memory, journal, inventory, Edition(session.edition));
    read(&mut replay, &mut trace, &mut hash, pass)?;
    Ok(CountedSession { counts: replay.counted(), digest: hash.digest() })
}

/// The bytes of memory that its file gave. Zeros that are given by a size are not looked at, so that they cost nothing.
fn given<'a>(session: &Session, memory: &'a [u8]) -> &'a [u8] {
    match session.memory {
        Memory::File(_) => memory,
        Memory::Zeros(_) => &[],
    }
}

/// Replays a trace to its end, or to where it stops, and hashes it on the way.
fn read(
    replay: &mut CountingReplay<'_>,
    trace: &mut Stream,
    hash: &mut SessionHash,
    pass: impl Fn(u64),
) -> Result<(), String> {
    let mut bytes = 0;
    loop {
        let mut part = trace.file().take(PART);
        let read = replay.read(hash.over(&mut part));
        let size = PART - part.limit();
        bytes += size;
        pass(size);
        read.map_err(|error| trace.failed(&error, bytes))?;
        if replay.is_stopped() || size < PART {
            return Ok(());
        }
    }
}

/// Refuses pipes: what a session found in one would depend on which other read it first, and it may wait for a writer.
fn check(session: &Session) -> Result<(), String> {
    let memory = match &session.memory {
        Memory::File(path) => Some(path.as_path()),
        Memory::Zeros(_) => None,
    };
    let files = [
        ("journal", session.journal.as_deref()),
        ("inventory", session.inventory.as_deref()),
        ("memory", memory),
        ("trace", Some(&session.trace)),
    ];
    match files.into_iter().find(|(_, path)| path.is_some_and(is_pipe)) {
        Some((what, Some(path))) => Err(format!("the {what} {} is a pipe; name a file", shown(path))),
        _ => Ok(()),
    }
}

fn is_pipe(path: &Path) -> bool {
    fs::metadata(path).is_ok_and(|data| data.file_type().is_fifo())
}
