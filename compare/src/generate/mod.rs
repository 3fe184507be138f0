//! Cases, each from the seed and its number alone.

pub mod arguments;
mod damage;
mod dump_call;
pub mod edits;
mod index_areas;
pub mod indices_call;
mod intakes;
pub mod inventories;
pub mod journals;
mod locations;
pub mod memories;
mod months;
mod node_areas;
mod nodes_call;
mod properties;
mod properties_call;
mod property_areas;
pub mod reading_records;
mod recordings;
pub mod registrations;
mod replay_states;
mod runs;
mod structures;
mod tables;
mod tallies;
mod traces;

use crate::buffers::record_places;
use crate::case::{Asked, CallCase, Case, Listing, SessionCase, Wanted};
use crate::paper;
use crate::random::Random;
use journals::Size;

pub fn case(seed: u64, number: u64) -> Case {
    let mut random = Random::for_case(seed, number);
    match random.below(147) {
        0..=49 => Case::Call(call(&mut random)),
        50..=54 => Case::Run(runs::case(&mut random)),
        55..=63 => Case::Month(months::case(&mut random)),
        64 => Case::Edit(reading_records::edition(&mut random)),
        65..=75 => node_areas::case(&mut random),
        76..=84 => Case::ReadIndices(index_areas::case(&mut random)),
        85..=92 => Case::ReadProperties(property_areas::case(&mut random)),
        93..=94 => Case::Session(node_session(&mut random)),
        95..=96 => Case::Session(property_session(&mut random)),
        97..=99 => Case::Session(index_session(&mut random)),
        100..=104 => Case::Trace(traces::case(&mut random)),
        105..=109 => Case::State(replay_states::case(&mut random)),
        110..=117 => Case::Tallies(tallies::case(&mut random)),
        118..=128 => Case::Intake(intakes::case(&mut random)),
        129..=136 => Case::Table(tables::case(&mut random)),
        _ => Case::Locations(locations::case(&mut random)),
    }
}

/// A call of any token, good or damaged.
pub fn call(random: &mut Random) -> CallCase {
    let mut call = match random.below(14) {
        0..=3 => nodes_call::call(random),
        4..=7 => indices_call::call(random),
        8..=10 => properties_call::call(random),
        _ => dump_call::call(random),
    };
    match random.below(16) {
        0 => arguments::damage(random, &mut call.args),
        1 => call.args = arguments::any(random),
        _ => {}
    }
    if random.one_in(80) {
        registrations::spoil(random, &mut call.registration);
    }
    call
}

/// A call on the paper's side alone, for what it writes, of a partition that begins.
fn call_paper(mut args: Vec<u8>, memory: &mut [u8], journal: &[u8], inventory: &[u8]) {
    let registration = paper::Registration { phase: paper::Phase::None, length: 0, copy: [0; 512] };
    let platform = paper::Platform { journal, inventory, edition: 0, registration, reading: paper::NO_READING };
    paper::call(&mut args, memory, &platform);
}

/// How many things are wrong with a call.
fn faults(random: &mut Random) -> usize {
    match random.below(20) {
        0..=8 => 0,
        9..=16 => 1,
        17 | 18 => 2,
        _ => 3,
    }
}

/// Room for this many numbers in `out`, a number less or more, nothing, or much.
fn room(random: &mut Random, numbers: usize) -> usize {
    match random.below(6) {
        0 => random.below(4),
        1 => numbers,
        2 => numbers.saturating_sub(1),
        3 => random.between(0, numbers + 3),
        _ => numbers + random.below(10),
    }
}

fn node_session(random: &mut Random) -> SessionCase {
    let first = journals::wanted(random);
    let size = match random.below(3000) {
        0 => Size::Full,
        1..=100 => Size::Areas,
        101..=400 => Size::Area,
        _ => Size::Small,
    };
    let mut wanted = vec![first];
    let mut records = journals::journal(random, first, size);
    while wanted.len() < 4 && random.one_in(2) {
        let beside = beside(random, first);
        if size != Size::Full {
            let more = journals::journal(random, beside, size);
            records = mixed(random, &records, &more);
        }
        wanted.push(beside);
    }
    SessionCase { seed: random.next(), records, asked: Asked::Nodes(wanted), plain: random.one_in(4) }
}

/// What another session over the same journal asks for.
fn beside(random: &mut Random, first: Wanted) -> Wanted {
    match random.below(4) {
        0 => first,
        1 | 2 if first.scope == 3 => Wanted { unit: journals::near_unit(random, first.unit), ..first },
        _ => journals::wanted(random),
    }
}

/// The records of two journals, each in its order, with those of the other between.
fn mixed(random: &mut Random, left: &[u8], right: &[u8]) -> Vec<u8> {
    let mut parts = [left, right].map(|journal| {
        let places = record_places(journal).into_iter();
        places.map(|(from, to)| &journal[from..to]).collect::<Vec<&[u8]>>().into_iter()
    });
    let mut journal = Vec::new();
    while parts.iter().any(|part| part.len() > 0) {
        let of = usize::from(random.below(parts[0].len() + parts[1].len()) >= parts[0].len());
        journal.extend(parts[of].next().into_iter().flatten());
    }
    journal
}

fn property_session(random: &mut Random) -> SessionCase {
    let size = match random.below(3000) {
        0 => Size::Full,
        1..=600 => Size::Areas,
        601..=1500 => Size::Area,
        _ => Size::Small,
    };
    let stock = properties::stock(random, size);
    let mut phandles = vec![stock.phandle];
    while phandles.len() < 3 && random.one_in(2) {
        phandles.push(random.pick(&stock.others));
    }
    let asked = Asked::Properties(phandles);
    SessionCase { seed: random.next(), records: stock.journal, asked, plain: random.one_in(4) }
}

fn index_session(random: &mut Random) -> SessionCase {
    let flag = random.below(2) as u32;
    let kind = inventories::good_kind(random, flag);
    let entries = if random.one_in(20) { random.between(20, 80) } else { random.between(1, 20) };
    let records = inventories::stock(random, flag, kind, entries).bytes;
    let disturbances = if random.one_in(3) { 0 } else { random.between(1, 6) };
    let edition = edition_of_session(random);
    let asked = Asked::Indices(Listing { flag, kind, edition, disturbances });
    SessionCase { seed: random.next(), records, asked, plain: random.one_in(4) }
}

/// Any edition; often one from which a few edits come to the top.
fn edition_of_session(random: &mut Random) -> u32 {
    match random.below(3) {
        0 => u32::MAX - random.below(5) as u32,
        _ => reading_records::edition(random),
    }
}

#[cfg(test)]
mod tests {
    #[test]
    fn a_case_follows_from_seed_and_number() {
        for number in 0..200 {
            assert_eq!(super::case(3, number).text(), super::case(3, number).text());
        }
        assert_ne!(super::case(3, 0).text(), super::case(4, 0).text());
    }
}
