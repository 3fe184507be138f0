//! Holds the three sides to each other before they are measured: every answer and every byte.

mod intakes;
mod locations;
mod tallies;

pub use intakes::intakes;
pub use locations::locations;
pub use tallies::tallies;

use crate::dump::{registered, Section};
use crate::independent;
use crate::interface::{
    Added, Asked, Count, Judged, ReadingRecord, Replay, ReplayBuffers, Replayed, Report, RunDump, Side, Totals, Wanted,
    MALFORMED, SIDES,
};
use crate::journal::UNITS;
use crate::library;
use crate::partition::{Partition, AREA_SIZE};
use crate::rows::dumps::SECTIONS;
use crate::rows::replays::{replayed_pages, BURST};
use crate::trace::{self, Recorded, PAGE};
use std::fmt::Debug;

/// What all sides answer; panics where they differ.
fn same<T: PartialEq + Debug>(what: &str, answer: impl Fn(&Side) -> T) -> T {
    let [first, second, third] = SIDES.each_ref().map(answer);
    let [a, b, c] = SIDES.each_ref().map(|side| side.name);
    assert!(first == third, "{what}: {a} {first:?}, {c} {third:?}");
    assert!(second == third, "{what}: {b} {second:?}, {c} {third:?}");
    third
}

/// The registration and the reading record that a partition starts with.
pub fn start() {
    same("no registration", |side| (side.no_registration)());
    same("no reading", |side| (side.no_reading)());
}

/// Edits, up to the top.
pub fn edits() {
    for edition in [0, 0xffff, 0x7fff_ffff, u32::MAX - 1, u32::MAX] {
        same("edit", |side| (side.edit)(edition));
    }
}

/// The scan of a journal, whole and with its last byte cut off.
pub fn journal_scan(journal: &[u8]) {
    let cut = &journal[..journal.len() - 1];
    for (scope, unit) in [(u32::MAX, 0), (1, 0), (2, 0), (3, 0), (3, UNITS[0]), (3, UNITS[1]), (4, 0)] {
        let wanted = Wanted { scope, unit };
        assert_ne!(same("scan", |side| (side.scan_journal)(journal, wanted)), MALFORMED);
        assert_eq!(same("scan", |side| (side.scan_journal)(cut, wanted)), MALFORMED);
    }
}

/// The inventory with its last byte cut off, and with a zero for its last byte.
fn malformed(inventory: &[u8]) -> [Vec<u8>; 2] {
    let cut = &inventory[..inventory.len() - 1];
    [cut.to_vec(), [cut, &[0]].concat()]
}

/// The scan of an inventory, of a good one and of malformed ones.
pub fn inventory_scan(inventory: &[u8], asked: Asked) {
    for bytes in malformed(inventory) {
        assert_eq!(same("scan", |side| (side.scan_inventory)(&bytes, asked)), MALFORMED);
    }
    for flag in [0, 1, 2] {
        for kind in [0, 1, asked.kind] {
            let asked = Asked { flag, kind, ..asked };
            same("scan", |side| (side.scan_inventory)(inventory, asked));
        }
    }
}

/// The search in a judged inventory, and for a type that has no entry.
pub fn search(inventory: &[u8], asked: Asked) {
    for kind in [asked.kind, 0] {
        let judged = Judged::new(inventory, Asked { kind, ..asked });
        same("search", |side| (side.search)(judged));
    }
}

/// One call on every side from the same bytes. The partition is left as the call leaves it; gives the status.
fn call(partition: &mut Partition) -> i32 {
    let [first, second, third] = SIDES.each_ref().map(|side| {
        let mut own = partition.clone();
        let number = own.call(side);
        (number, own)
    });
    assert!(first == third && second == third, "a call's answer, its bytes, its registration or its record differ");
    assert_eq!(third.0, 0);
    *partition = third.1;
    partition.status()
}

/// A refused call: all sides give the status and leave the same bytes.
fn refusal(partition: &Partition, status: i32, change: impl Fn(&mut Partition)) {
    let mut own = partition.clone();
    own.begin_session();
    change(&mut own);
    assert_eq!(call(&mut own), status);
}

/// A whole session, call by call.
fn session(mut partition: Partition) {
    partition.begin_session();
    while call(&mut partition) == 1 {
        partition.carry_on();
    }
    assert_eq!(partition.status(), 0);
}

/// The calls of a session of update-nodes, and a refusal by each rule.
pub fn update_nodes(journal: &[u8], wanted: Wanted) {
    let partition = Partition::of_journal(journal, wanted);
    let cut = Partition::of_journal(&journal[..journal.len() - 1], wanted);
    let length = (SIDES[0].scan_journal)(journal, wanted) as u32;
    refusal(&partition, -3, |own| own.put_word(12, 1));
    refusal(&partition, -3, |own| own.put_word(12, 3 * AREA_SIZE as u32));
    refusal(&partition, -3, |own| own.put_word(16, 4));
    refusal(&cut, -1, |_| ());
    for at in if wanted.scope == 3 { [12, 15] } else { [4, 15] } {
        refusal(&partition, -3, |own| own.area()[at] = 1);
    }
    refusal(&partition, -3, |own| own.begin(length));
    session(partition);
}

/// The calls of a session of update-properties, and a refusal by each rule.
pub fn update_properties(journal: &[u8]) {
    let partition = Partition::of_properties(journal);
    let cut = Partition::of_properties(&journal[..journal.len() - 1]);
    let mut no_name = journal.to_vec();
    no_name[8] = 0;
    refusal(&partition, -3, |own| own.put_word(12, 1));
    refusal(&partition, -3, |own| own.put_word(12, 3 * AREA_SIZE as u32));
    refusal(&partition, -3, |own| own.put_word(16, 4));
    refusal(&cut, -1, |_| ());
    refusal(&Partition::of_properties(&no_name), -1, |_| ());
    for at in [0, 3, 8, 15] {
        refusal(&partition, -3, |own| own.area()[at] ^= 1);
    }
    let second = partition.clone().property_states(&SIDES[0])[1];
    for state in [1, second - 1, second + 1, journal.len() as u32, 0x8000_0000 + second] {
        refusal(&partition, -3, |own| own.begin(state));
    }
    session(partition);
}

/// The calls of a session of get-indices, and a refusal by each rule.
pub fn get_indices(inventory: &[u8], asked: Asked) {
    let partition = Partition::of_inventory(inventory, asked);
    let count = (SIDES[0].scan_inventory)(inventory, asked) as u32;
    refusal(&partition, -3, |own| own.put_word(12, 2));
    for kind in [9003, asked.kind + 1] {
        refusal(&partition, -3, |own| own.put_word(16, kind));
    }
    for size in [3, 15, u32::MAX] {
        refusal(&partition, -3, |own| own.put_word(24, size));
    }
    for bytes in malformed(inventory) {
        let partition = Partition::of_inventory(&bytes, asked);
        refusal(&partition, -1, |_| ());
        reading_record(&partition);
    }
    for number in [0, count + 1, 0x8000_0000] {
        refusal(&partition, -3, |own| own.begin(number));
    }
    reading_record(&partition);
    session(partition);
}

/// A refusal by each field of the reading record, before the inventory is judged.
fn reading_record(partition: &Partition) {
    let changed = |status: i32, change: fn(&mut ReadingRecord)| {
        refusal(partition, status, |own| {
            own.begin(2);
            change(&mut own.reading);
        });
    };
    changed(-3, |record| record.flag ^= 1);
    changed(-3, |record| record.kind ^= 1);
    changed(-3, |record| record.number ^= 1);
    changed(-4, |record| record.edition ^= 1);
    changed(-3, |record| (record.number, record.edition) = (1, 0));
    // No reading is in progress.
    refusal(partition, -3, |own| own.put_word(28, 2));
}

/// The reading of a node area that names no unit: it is good, and refused where it is short of a byte, or where the
/// reserved bytes, the first operator's opcode or its number of operands is changed. In scope 3 it may name a unit.
pub fn read_nodes(area: &[u8], room: usize) {
    for scope in [1, 3] {
        read_nodes_in(scope, area, room);
    }
    let mut of_unit = area.to_vec();
    of_unit[11] = 1;
    let refusals = [1, 3].map(|scope| same("a unit", |side| read_nodes_with(side, scope, &of_unit, room)).0);
    assert_eq!(refusals, [21, 0]);
}

fn read_nodes_in(scope: u32, area: &[u8], room: usize) {
    let refused = |what: &str, bytes: &[u8]| {
        let reading = same(what, |side| read_nodes_with(side, scope, bytes, room)).0;
        assert_ne!(reading, 0, "{what}");
    };
    assert_eq!(same("reading", |side| read_nodes_with(side, scope, area, room)).0, 0);
    same("reading", |side| read_nodes_with(side, scope, area, room / 2));
    refused("short", &area[..area.len() - 1]);
    for at in [15, 16, 19] {
        let mut changed = area.to_vec();
        changed[at] ^= 0x80;
        refused("changed", &changed);
    }
}

fn read_nodes_with(side: &Side, scope: u32, area: &[u8], room: usize) -> (u32, Vec<u32>) {
    let mut out = vec![0xa5a5_a5a5; room];
    let reading = (side.read_nodes)(area, scope, &mut out);
    out.extend([reading.state, reading.offset as u32, reading.entries as u32]);
    (reading.refusal, out)
}

/// The reading of an index area: it is good, and refused where a length, a code or the count is changed.
pub fn read_indices(area: &[u8], room: usize) {
    assert_eq!(same("reading", |side| read_indices_with(side, area, room)).0, 0);
    same("reading", |side| read_indices_with(side, area, room / 2));
    // The count, a length of 1,025, of 1,028 and of no multiple of 4, and the code.
    for (at, bytes) in [(1, &[1][..]), (10, &[4, 1]), (10, &[4, 4]), (11, &[81]), (12, &[0])] {
        let mut changed = area.to_vec();
        changed[at..at + bytes.len()].copy_from_slice(bytes);
        let reading = same("changed", |side| read_indices_with(side, &changed, room));
        assert_ne!(reading.0, 0);
    }
}

fn read_indices_with(side: &Side, area: &[u8], room: usize) -> (u32, Vec<u64>) {
    let mut out = vec![0xa5a5_a5a5; room];
    let reading = (side.read_indices)(area, &mut out);
    out.extend([reading.offset as u64, reading.entries as u64]);
    (reading.refusal, out)
}

/// The reading of a property area: it is good, and refused where it is short of a byte, or where the reserved bytes, the
/// count or the first name is changed.
pub fn read_properties(area: &[u8], room: usize) {
    assert_eq!(same("reading", |side| read_properties_with(side, area, room)).0, 0);
    same("reading", |side| read_properties_with(side, area, room / 2));
    let refused = |bytes: &[u8]| assert_ne!(same("changed", |side| read_properties_with(side, bytes, room)).0, 0);
    refused(&area[..area.len() - 1]);
    for (at, byte) in [(8, 1), (15, 1), (16, 1), (20, 0)] {
        let mut changed = area.to_vec();
        changed[at] = byte;
        refused(&changed);
    }
}

fn read_properties_with(side: &Side, area: &[u8], room: usize) -> (u32, Vec<u32>) {
    let mut out = vec![0xa5a5_a5a5; room];
    let reading = (side.read_properties)(area, &mut out);
    out.extend([reading.phandle, reading.state, reading.offset as u32, reading.entries as u32]);
    (reading.refusal, out)
}

/// The replay of recorded sessions, by the independent program and by the library: every call agrees, and memory is left
/// as the calls leave it. Where the last byte of the trace is another, the last call differs there.
pub fn replay(recorded: &Recorded) {
    let mut own = recorded.partition.clone();
    (0..recorded.sessions).for_each(|_| assert!(own.session(&SIDES[0]) > 0));
    let agrees = |replay: Replay, burst: usize| {
        let mut buffers = ReplayBuffers::new(&recorded.partition.memory);
        let report = replay(&mut buffers, recorded.replayed(burst));
        assert_eq!(report, Report { verdict: 0, offset: 0, number: recorded.calls });
        assert!(buffers.memory == own.memory, "a replay leaves other bytes than the calls");
    };
    agrees(independent::replay, usize::MAX);
    [usize::MAX, BURST, 1_000].into_iter().for_each(|burst| agrees(library::replay, burst));
    let mut changed = recorded.trace.clone();
    *changed.last_mut().unwrap() ^= 1;
    let replayed = Replayed { trace: &changed, ..recorded.replayed(BURST) };
    let report = library::replay(&mut ReplayBuffers::new(&recorded.partition.memory), replayed);
    let offset = own.args.len() as u32 - 1;
    assert_eq!(report, Report { verdict: 1, offset, number: recorded.calls });
}

/// The same replays, counted: the report is that of the replay alone, the figures are the independent program's, and a trace
/// whose last byte is another adds nothing.
pub fn count(recorded: &Recorded) {
    let counted = |count: Count, burst: usize| {
        let mut buffers = ReplayBuffers::new(&recorded.partition.memory);
        (count(&mut buffers, recorded.replayed(burst)), buffers.memory)
    };
    let told = counted(independent::count, usize::MAX);
    assert_eq!((told.0.number, told.0.report), (0, Report { verdict: 0, offset: 0, number: recorded.calls }));
    assert_eq!(told.0.totals.token_calls.iter().sum::<u64>(), recorded.calls);
    for burst in [usize::MAX, BURST, 1_000] {
        let counted = counted(library::count, burst);
        assert_eq!(counted.0, told.0);
        assert!(counted.1 == told.1, "a replay that counts leaves other bytes");
    }
    let mut changed = recorded.trace.clone();
    *changed.last_mut().unwrap() ^= 1;
    let replayed = Replayed { trace: &changed, ..recorded.replayed(BURST) };
    let added = library::count(&mut ReplayBuffers::new(&recorded.partition.memory), replayed);
    assert_eq!((added.number, added.report.verdict, added.totals), (16, 1, Totals::NONE));
}

/// The runs of dumps that are measured, by the independent program and by the library: the registration is the same, and
/// memory is left as memmove leaves it. Where memory is short of a byte, so is the section, and a run that is refused changes
/// nothing.
pub fn dumps() {
    for (over, section) in &SECTIONS {
        let (memory, platform) = (section.memory(), section.platform());
        dump(over, section, &memory, &platform);
        dump(over, section, &memory[..memory.len() - 1], &platform);
        let mut moved = memory.clone();
        section.move_bytes(&mut moved, &platform);
        let mut own = memory.clone();
        let run = library::run_dump(registered(section), &mut own, &platform);
        assert!(own == moved, "{over}: a run leaves other bytes than memmove");
        let again = library::run_dump(run.registration, &mut own, &platform);
        assert_eq!((again.number, again.status as i32, again.registration), (0, -10, run.registration));
        assert!(own == moved, "{over}: a refused run changes memory");
    }
}

/// One run by both, from the same bytes.
fn dump(over: &str, section: &Section, memory: &[u8], platform: &[u8]) {
    let run = |run: RunDump| {
        let mut own = memory.to_vec();
        (run(registered(section), &mut own, platform), own)
    };
    let (told, other) = (run(independent::run_dump), run(library::run_dump));
    assert_eq!((told.0.number, told.0.status), (0, 0));
    assert_eq!(told.0, other.0, "{over}");
    assert!(told.1 == other.1, "{over}: the runs leave other bytes");
}

/// Records that set memory: each byte is set, and where memory is too short by one, the last record is malformed.
pub fn settings() {
    let trace = trace::pages(40);
    for burst in [usize::MAX, BURST, 1_000] {
        let mut buffers = ReplayBuffers::new(&[0; 40 * PAGE]);
        let report = library::replay(&mut buffers, replayed_pages(&trace, burst));
        assert_eq!(report, Report { verdict: 0, offset: 0, number: 0 });
        assert!(trace::set_bytes(&trace).eq(buffers.memory.chunks(PAGE)), "a replay sets other bytes");
        let mut counted = ReplayBuffers::new(&[0; 40 * PAGE]);
        let added = library::count(&mut counted, replayed_pages(&trace, burst));
        assert_eq!(added, Added { number: 0, report, totals: Totals::NONE });
        assert!(counted.memory == buffers.memory, "a replay that counts sets other bytes");
        let mut short = ReplayBuffers::new(&[0; 40 * PAGE - 1]);
        let report = library::replay(&mut short, replayed_pages(&trace, burst));
        assert_eq!(report, Report { verdict: 2, offset: 0, number: 40 });
    }
}
