//! Random sessions: what the platform holds, and what is done to a partition.

use crate::random::Random;
use crate::records::record;
use draugsten::args::{self, Command, Flag, IndexRequest};
use draugsten::trace::BODY_LIMIT;
use draugsten::{Answer, Edition, Fault, ReadingRecord, Recorder, Registration};
use std::io::Write;

/// Four pages.
pub const MEMORY: usize = 16_384;

/// What the platform holds, and memory at the beginning.
pub struct Platform {
    pub journal: Vec<u8>,
    pub inventory: Vec<u8>,
    pub edition: Edition,
    pub memory: Vec<u8>,
}

/// A call that was made: its token, 0 where there is none, and what came of it.
pub type Made = (u32, Result<Answer, Fault>);

/// A session that was recorded, and what it left.
pub struct Session {
    pub trace: Vec<u8>,
    pub calls: Vec<Made>,
    pub records: u32,
    pub memory: Vec<u8>,
    pub registration: Registration,
    pub reading: ReadingRecord,
}

impl Platform {
    pub fn random(random: &mut Random) -> Platform {
        let memory = if random.one_in(2) { vec![0; MEMORY] } else { random.bytes(MEMORY) };
        let edition = Edition(random.next() as u32);
        Platform { journal: journal(random), inventory: inventory(random), edition, memory }
    }

    /// Records so many random deeds.
    pub fn record(&self, random: &mut Random, deeds: usize) -> Session {
        let (mut trace, mut memory, mut calls) = (vec![], self.memory.clone(), vec![]);
        let mut recorder = Recorder::new(&mut trace, &mut memory, &self.journal, &self.inventory, self.edition);
        for _ in 0..deeds {
            calls.extend(deed(random, &mut recorder));
        }
        let records = recorder.records();
        let recorded = recorder.into_parts();
        Session { calls, records, registration: recorded.registration, reading: recorded.reading, trace, memory }
    }
}

/// Changes of nodes, sometimes more than an area has room for, and of the properties of nodes 1 to 3.
fn journal(random: &mut Random) -> Vec<u8> {
    let nodes = random.pick(&[0, 5, 2500]);
    let mut bytes: Vec<u8> = (0..nodes).flat_map(|_| node_record(random)).collect();
    for _ in 0..random.below(6) {
        bytes.extend(property_record(random));
    }
    if random.one_in(10) {
        bytes.push(7);
    }
    bytes
}

/// A change of any node type; those of kind 4 are of two units.
fn node_record(random: &mut Random) -> Vec<u8> {
    let kind = 1 + random.below(4);
    let node_type = if kind == 4 { 15 + random.below(2) } else { 1 + random.below(14) };
    let mut operands = random.bytes([4, 4, 8, 12][kind - 1]);
    if kind == 4 {
        operands[..8].copy_from_slice(&(random.below(2) as u64).to_le_bytes());
    }
    record(kind as u16, &[&(node_type as u16).to_le_bytes()[..], &operands].concat())
}

/// A value has up to 6,000 bytes, which one area has no room for.
fn property_record(random: &mut Random) -> Vec<u8> {
    let mut body = (1 + random.below(3) as u32).to_le_bytes().to_vec();
    body.extend([b'a' + random.below(3) as u8, 0]);
    if random.one_in(4) {
        return record(6, &body);
    }
    let size = random.pick(&[0, 20, 6000]);
    body.extend(random.bytes(size));
    record(5, &body)
}

/// Indicators and sensors of two types.
fn inventory(random: &mut Random) -> Vec<u8> {
    let mut bytes = vec![];
    for index in 0..random.below(12) as u32 {
        let mut body = (random.below(2) as u16).to_le_bytes().to_vec();
        body.extend((9006 + random.below(2) as u32).to_le_bytes());
        body.extend(index.to_le_bytes());
        body.extend(vec![b'U'; 1 + random.below(30)]);
        bytes.extend(record(16, &body));
    }
    if random.one_in(10) {
        bytes.push(7);
    }
    bytes
}

/// Something that is done to a partition; the call that was made, where it is one.
fn deed<W: Write>(random: &mut Random, recorder: &mut Recorder<'_, W>) -> Option<Made> {
    let page = 4096 * random.below(5) as u32;
    let mut args = match random.below(10) {
        0 | 1 => update_nodes(random, recorder, page),
        2..=4 => get_indices(random, recorder.reading()),
        5 | 6 => configure_dump(random, recorder),
        7 | 8 => update_properties(random, recorder, page),
        _ if random.one_in(2) => any_buffer(random),
        _ => {
            set_any(random, recorder);
            return None;
        }
    };
    if random.one_in(20) {
        let size = random.below(args.len() + 1);
        args.truncate(size);
    }
    if random.one_in(8) {
        let size = random.pick(&[1, 8, BODY_LIMIT - args.len()]);
        args.extend(random.bytes(size));
    }
    let token = args.get(..4).map_or(0, |word| u32::from_be_bytes(word.try_into().unwrap()));
    Some((token, recorder.call(&mut args).unwrap()))
}

/// Bytes at the head of an area, where it lies inside memory and none is to be continued.
fn begin<W: Write>(random: &mut Random, recorder: &mut Recorder<'_, W>, page: u32, head: &[u8]) {
    if (page as usize) < MEMORY && !random.one_in(3) {
        recorder.set_memory(page, head).unwrap();
    }
}

fn update_nodes<W: Write>(random: &mut Random, recorder: &mut Recorder<'_, W>, page: u32) -> Vec<u8> {
    begin(random, recorder, page, &[0; 16]);
    args::update_nodes(page, random.pick(&[1, 1, 1, 2, -1, 3, 0, 4])).to_vec()
}

fn update_properties<W: Write>(random: &mut Random, recorder: &mut Recorder<'_, W>, page: u32) -> Vec<u8> {
    let mut head = [0; 16];
    head[3] = 1 + random.below(4) as u8;
    begin(random, recorder, page, &head);
    args::update_properties(page, random.pick(&[1, 1, 2, 3, -1, 0])).to_vec()
}

/// Mostly one that goes on with the reading in progress, or begins one.
fn get_indices(random: &mut Random, reading: &ReadingRecord) -> Vec<u8> {
    let begins = IndexRequest {
        flag: random.pick(&[Flag::Indicator, Flag::Sensor]),
        type_number: random.pick(&[9006, 9006, 9007, 9001]),
        address: random.below(MEMORY) as u32,
        size: random.pick(&[16, 40, 64, 200, 1036, 3]),
        starting_number: 1,
    };
    let flag = if reading.flag == 0 { Flag::Indicator } else { Flag::Sensor };
    let goes_on = IndexRequest { flag, type_number: reading.type_number, ..begins };
    let request = match random.below(5) {
        0 => begins,
        1 => IndexRequest { starting_number: random.below(12) as u32, ..goes_on },
        _ => IndexRequest {
            starting_number: reading.starting_number,
            ..if reading.starting_number == 1 { begins } else { goes_on }
        },
    };
    args::get_indices(&request).to_vec()
}

/// Mostly a structure that is good: one section behind the header, requested, and no disk.
fn configure_dump<W: Write>(random: &mut Random, recorder: &mut Recorder<'_, W>) -> Vec<u8> {
    let mut structure = [0; 80];
    for place in [3, 5, 43, 45] {
        structure[place] = 1;
    }
    structure[11] = 40 + u8::from(random.one_in(4));
    let address = random.below(MEMORY - 80) as u32;
    recorder.set_memory(address, &structure).unwrap();
    let command = random.pick(&[Command::Register, Command::Register, Command::Unregister, Command::Complete]);
    args::configure_kernel_dump(command, address, 80).to_vec()
}

/// A token of no call, and counts of all kinds.
fn any_buffer(random: &mut Random) -> Vec<u8> {
    let head = [random.below(7) as u32, random.below(19) as u32, random.below(19) as u32];
    let mut bytes: Vec<u8> = head.into_iter().flat_map(u32::to_be_bytes).collect();
    let size = random.pick(&[0, 12, 200]);
    bytes.extend(random.bytes(size));
    bytes
}

/// Up to three pieces.
fn set_any<W: Write>(random: &mut Random, recorder: &mut Recorder<'_, W>) {
    let size = random.pick(&[0, 1, 4096, 4097, 9000]);
    let address = random.below(MEMORY - size + 1) as u32;
    recorder.set_memory(address, &random.bytes(size)).unwrap();
}
