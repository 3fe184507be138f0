//! Records the session of examples/replay, in which one call goes astray, and writes its files to a folder:
//! `cargo run --offline --example record -- ../examples/replay`, run in rust/.

use draugsten::args::{self, Command, Flag, IndexRequest};
use draugsten::{Answer, Edition, Fault, RecordError, Recorder};
use std::error::Error;
use std::path::Path;

/// Addresses in the partition's memory, which is zero when the recording begins, and its size.
const NODE_AREA: u32 = 0x1000;
const INDEX_AREA: u32 = 0x2000;
const STRUCTURE: u32 = 0x2800;
const MEMORY: usize = 0x3000;

/// The node whose properties are asked for.
const NODE: u32 = 0x2a;

const TYPE: u32 = 9006;
const EDITION: Edition = Edition(7);

/// The bytes of a trace, a journal or an inventory, by their file's name.
type File = (&'static str, Vec<u8>);

fn main() -> Result<(), Box<dyn Error>> {
    let folder = std::env::args().nth(1).ok_or("name the folder to write to")?;
    for (name, bytes) in files()? {
        std::fs::write(Path::new(&folder).join(name), bytes)?;
    }
    Ok(())
}

fn files() -> Result<[File; 3], RecordError> {
    let (journal, inventory) = (journal(), inventory());
    let (mut trace, mut memory) = (vec![], vec![0; MEMORY]);
    record(&mut Recorder::new(&mut trace, &mut memory, &journal, &inventory, EDITION))?;
    lead_astray(&mut trace);
    Ok([("trace", trace), ("journal", journal), ("inventory", inventory)])
}

/// A node that was deleted, one that was added below 0x1000, and a property with a new value.
fn journal() -> Vec<u8> {
    let deleted = record_of(1, &[&[11, 0], &0x29u32.to_le_bytes()]);
    let added = record_of(3, &[&[12, 0], &0x1000u32.to_le_bytes(), &0x1000_0005u32.to_le_bytes()]);
    let property = record_of(5, &[&NODE.to_le_bytes(), b"status\0", b"okay\0"]);
    [deleted, added, property].concat()
}

/// Six sensors, of which an index area of 64 bytes holds two.
fn inventory() -> Vec<u8> {
    let sensor = |number: u32| {
        let code = format!("U78D8.ND0-P0-C{number}");
        record_of(16, &[&[1, 0], &TYPE.to_le_bytes(), &number.to_le_bytes(), code.as_bytes()])
    };
    (1..=6).flat_map(sensor).collect()
}

fn record_of(kind: u16, parts: &[&[u8]]) -> Vec<u8> {
    let body = parts.concat();
    let head = [2 + body.len() as u16, kind].map(u16::to_le_bytes);
    [&head.concat(), &body[..]].concat()
}

/// One node update, a registered dump structure, the list of sensors in three calls, an address that is refused, and the
/// properties of one node.
fn record(recorder: &mut Recorder<'_, &mut Vec<u8>>) -> Result<(), RecordError> {
    let done = Ok(Answer::Done);
    recorder.set_memory(NODE_AREA, &[0; 16])?;
    assert_eq!(recorder.call(&mut args::update_nodes(NODE_AREA, 1))?, done);
    recorder.set_memory(STRUCTURE, &structure())?;
    assert_eq!(recorder.call(&mut args::configure_kernel_dump(Command::Register, STRUCTURE, 80))?, done);
    list_sensors(recorder)?;
    assert_eq!(recorder.call(&mut args::update_nodes(NODE_AREA + 4, 1))?, Err(Fault::Parameter));
    recorder.set_memory(NODE_AREA, &NODE.to_be_bytes())?;
    assert_eq!(recorder.call(&mut args::update_properties(NODE_AREA, 1))?, done);
    Ok(())
}

fn list_sensors(recorder: &mut Recorder<'_, &mut Vec<u8>>) -> Result<(), RecordError> {
    let mut request =
        IndexRequest { flag: Flag::Sensor, type_number: TYPE, address: INDEX_AREA, size: 64, starting_number: 1 };
    loop {
        let mut args = args::get_indices(&request);
        if recorder.call(&mut args)? != Ok(Answer::CallAgain) {
            return Ok(());
        }
        request.starting_number = args::next_starting_number(&args);
    }
}

/// A good dump structure: one section behind the header, requested, and no disk.
fn structure() -> [u8; 80] {
    let mut bytes = [0; 80];
    for place in [3, 5, 43, 45] {
        bytes[place] = 1;
    }
    bytes[11] = 40;
    bytes
}

/// In the buffer after the fourth call the Next Starting Number, its last word, is one too high: a sensor is left out.
fn lead_astray(trace: &mut [u8]) {
    let (mut at, mut calls) = (0, 0);
    loop {
        let end = at + 2 + trace[at] as usize + 256 * trace[at + 1] as usize;
        calls += u32::from(trace[at + 2] == 33);
        at = end;
        if calls == 4 {
            trace[end - 1] += 1;
            return;
        }
    }
}

#[test]
fn the_files_are_those_of_the_example() {
    let folder = Path::new(concat!(env!("CARGO_MANIFEST_DIR"), "/../examples/replay"));
    for (name, bytes) in files().unwrap() {
        assert_eq!(std::fs::read(folder.join(name)).unwrap(), bytes, "{name}");
    }
}
