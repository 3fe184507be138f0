//! The independent side: document 01 written out plainly (compare/src/paper), which is not meant to be fast.

use crate::interface::{
    Added, Answer, Asked, Edit, IndexReading, Judged, NodeReading, PropertyReading, ReadingRecord, Registration,
    ReplayBuffers, Replayed, Report, Run, Side, Totals, Wanted, MALFORMED,
};
use draugsten_compare::paper::{self, readers, records, scope, Phase};

/// The status -3.
const PARAMETER: u32 = -3_i32 as u32;

pub const SIDE: Side = Side {
    name: "independent",
    scan_journal,
    scan_inventory,
    search,
    no_registration,
    no_reading,
    edit,
    call,
    read_nodes,
    read_indices,
    read_properties,
};

fn scan_journal(journal: &[u8], wanted: Wanted) -> u64 {
    let Ok(changes) = records::journal(journal) else {
        return MALFORMED;
    };
    let unit = (wanted.scope == 3).then_some(wanted.unit);
    let row = scope::row(u64::from(wanted.scope));
    row.map_or(0, |row| scope::reportable_list(&changes, &row, unit).len() as u64)
}

fn scan_inventory(inventory: &[u8], asked: Asked) -> u64 {
    let Ok(entries) = records::inventory(inventory) else {
        return MALFORMED;
    };
    let (flag, kind) = (u64::from(asked.flag), u64::from(asked.kind));
    let wanted = entries.iter().filter(|entry| entry.flag == flag && entry.kind == kind);
    wanted.count() as u64
}

/// It has no search of its own: the records are read and judged once more.
fn search(judged: Judged) -> u32 {
    let entries = records::inventory(judged.inventory()).unwrap_or_default();
    let (flag, kind) = (u64::from(judged.asked().flag), u64::from(judged.asked().kind));
    let last = entries.iter().rfind(|entry| entry.flag == flag && entry.kind == kind);
    last.map_or(0, |entry| entry.index)
}

/// The registration that a partition starts with.
pub fn no_registration() -> Registration {
    Registration { phase: 0, length: 0, copy: [0; 512] }
}

/// The reading record that a partition starts with.
pub fn no_reading() -> ReadingRecord {
    record_from_paper(&paper::NO_READING)
}

pub fn edit(edition: u32) -> Edit {
    match paper::reading_record::edit(u64::from(edition)) {
        Some(next) => Edit { taken: 1, edition: next as u32 },
        None => Edit { taken: 0, edition },
    }
}

pub fn call(
    args: &mut [u8],
    memory: &mut [u8],
    journal: &[u8],
    inventory: &[u8],
    edition: u32,
    registration: Registration,
    reading: ReadingRecord,
) -> Answer {
    let Some(given) = for_paper(&registration) else {
        return Answer { number: 13, registration, reading };
    };
    let platform = paper::Platform {
        journal,
        inventory,
        edition: u64::from(edition),
        registration: given,
        reading: record_for_paper(&reading),
    };
    let told = paper::call(args, memory, &platform);
    let (registration, reading) = (from_paper(&told.registration), record_from_paper(&told.reading));
    Answer { number: told.number, registration, reading }
}

/// The run of a registered dump.
pub fn run_dump(registration: Registration, memory: &mut [u8], platform: &[u8]) -> Run {
    let Some(given) = for_paper(&registration) else {
        return Run { number: 13, status: PARAMETER, registration };
    };
    match paper::dump_run::run_dump(&given, memory, platform) {
        Ok(after) => Run { number: 0, status: 0, registration: from_paper(&after) },
        Err(refusal) => Run { number: 0, status: refusal.status as u32, registration },
    }
}

/// A whole replay. It has no bursts: the trace is read at once.
pub fn replay(buffers: &mut ReplayBuffers, replayed: Replayed) -> Report {
    let Replayed { journal, inventory, edition, trace, .. } = replayed;
    let over = paper::replay::Over { journal, inventory, edition: u64::from(edition) };
    let came = paper::replay::replay(trace, &mut buffers.memory, &over, paper::replay::beginning());
    match came.report {
        paper::replay::Report::Agreed { calls } => Report { verdict: 0, offset: 0, number: calls },
        paper::replay::Report::Differs { call, offset } => Report { verdict: 1, offset: offset as u32, number: call },
        paper::replay::Report::Malformed { record, .. } => Report { verdict: 2, offset: 0, number: record },
    }
}

/// A whole replay that counts, added to no other. It has no bursts either.
pub fn count(buffers: &mut ReplayBuffers, replayed: Replayed) -> Added {
    let Replayed { journal, inventory, edition, trace, .. } = replayed;
    let over = paper::replay::Over { journal, inventory, edition: u64::from(edition) };
    let ReplayBuffers { held, args, memory } = buffers;
    let mut lent = paper::replay_states::Lent { held, args, memory };
    let start = paper::month::start(u64::from(edition));
    let counting = paper::month::feed(&mut lent, &over, &start, trace).ok().expect("a replay that begins is taken");
    let mut figures = [0; 35];
    let added = paper::month::add(&mut figures, &counting);
    let (verdict, offset, number) = added.report;
    let report = Report { verdict: verdict as u32, offset: offset as u32, number };
    Added { number: added.number, report, totals: totals(&figures.map(|figure| figure as u64)) }
}

fn totals(figures: &[u64; 35]) -> Totals {
    let calls = std::array::from_fn(|token| std::array::from_fn(|row| figures[7 * token + row]));
    let token_calls = std::array::from_fn(|token| figures[28 + token]);
    Totals { calls, token_calls, operations: figures[32], used: figures[33], available: figures[34] }
}

fn record_for_paper(flat: &ReadingRecord) -> paper::ReadingRecord {
    let [flag, kind, number, edition] = [flat.flag, flat.kind, flat.number, flat.edition].map(u64::from);
    paper::ReadingRecord { flag, kind, number, edition }
}

fn record_from_paper(record: &paper::ReadingRecord) -> ReadingRecord {
    let fields = [record.flag, record.kind, record.number, record.edition];
    let [flag, kind, number, edition] = fields.map(|field| field as u32);
    ReadingRecord { flag, kind, number, edition }
}

fn for_paper(flat: &Registration) -> Option<paper::Registration> {
    let phase = match flat.phase {
        0 => Phase::None,
        1 => Phase::Registered,
        2 => Phase::Active,
        _ => return None,
    };
    let length = u32::try_from(flat.length).ok().filter(|&length| length <= 512)?;
    Some(paper::Registration { phase, length, copy: flat.copy })
}

fn from_paper(registration: &paper::Registration) -> Registration {
    let phase = match registration.phase {
        Phase::None => 0,
        Phase::Registered => 1,
        Phase::Active => 2,
    };
    Registration { phase, length: registration.length as usize, copy: registration.copy }
}

/// As many whole entries as there is room for.
fn put_entries<T: Copy, const ELEMENTS: usize>(out: &mut [T], entries: impl Iterator<Item = [T; ELEMENTS]>) {
    for (place, entry) in out.chunks_exact_mut(ELEMENTS).zip(entries) {
        place.copy_from_slice(&entry);
    }
}

pub fn read_nodes(area: &[u8], scope: u32, out: &mut [u32]) -> NodeReading {
    match readers::read_nodes(area, u64::from(scope)) {
        Ok(nodes) => {
            let operations = nodes.operations.iter();
            put_entries(out, operations.map(|each| [each.opcode, each.first, each.second]));
            let entries = nodes.operations.len();
            NodeReading { refusal: 0, state: nodes.state, offset: 0, entries }
        }
        Err(refused) => {
            let offset = refused.offset as usize;
            NodeReading { refusal: refused.number, state: 0, offset, entries: 0 }
        }
    }
}

pub fn read_indices(area: &[u8], out: &mut [u64]) -> IndexReading {
    match readers::read_indices(area) {
        Ok(sets) => {
            let sets_out = sets.iter();
            put_entries(out, sets_out.map(|set| [u64::from(set.index), set.code_at, set.code_length]));
            IndexReading { refusal: 0, offset: 0, entries: sets.len() }
        }
        Err(refused) => {
            let offset = refused.offset as usize;
            IndexReading { refusal: refused.number, offset, entries: 0 }
        }
    }
}

pub fn read_properties(area: &[u8], out: &mut [u32]) -> PropertyReading {
    match readers::read_properties(area) {
        Ok(read) => {
            let properties = read.list.iter();
            put_entries(
                out,
                properties
                    .map(|each| [each.name_at, each.name_length, each.descriptor, each.value_at, each.value_length]),
            );
            let entries = read.list.len();
            PropertyReading { refusal: 0, phandle: read.phandle, state: read.state, offset: 0, entries }
        }
        Err(refused) => {
            let offset = refused.offset as usize;
            PropertyReading { refusal: refused.number, phandle: 0, state: 0, offset, entries: 0 }
        }
    }
}
