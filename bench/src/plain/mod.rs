//! Straightforward safe Rust, as one writes it first for release: the scans, the search, the calls through the argument buffer, and
//! the readers. configure-kernel-dump is not measured and not written here: its token is answered as an unknown one.

mod get_indices;
pub mod intakes;
mod inventory;
mod journal;
pub mod locations;
mod read_indices;
mod read_nodes;
mod read_properties;
pub mod tallies;
#[cfg(test)]
mod tests;
mod update_nodes;
mod update_properties;
mod words;

use crate::interface::{Answer, Edit, ReadingRecord, Registration, Side};
use words::{be32, put_be32};

pub const SIDE: Side = Side {
    name: "Rust",
    scan_journal: journal::scan,
    scan_inventory: inventory::scan,
    search: inventory::search,
    no_registration,
    no_reading: || NO_READING,
    edit,
    call,
    read_nodes: read_nodes::read_nodes,
    read_indices: read_indices::read_indices,
    read_properties: read_properties::read_properties,
};

/// The status of a malformed journal or inventory.
const MALFORMED: i32 = -1;
/// The status of a wrong parameter.
const PARAMETER: i32 = -3;
/// The status of a list that was edited while it was read.
const CHANGED: i32 = -4;

/// The record of a partition that reads no list.
const NO_READING: ReadingRecord = ReadingRecord { flag: 0, kind: 0, number: 1, edition: 0 };

/// The registration that a partition starts with.
fn no_registration() -> Registration {
    Registration { phase: 0, length: 0, copy: [0; 512] }
}

/// An edit of an inventory; at the top none is taken.
fn edit(edition: u32) -> Edit {
    match edition.checked_add(1) {
        Some(next) => Edit { taken: 1, edition: next },
        None => Edit { taken: 0, edition },
    }
}

/// One call.
fn call(
    args: &mut [u8],
    memory: &mut [u8],
    journal: &[u8],
    inventory: &[u8],
    edition: u32,
    registration: Registration,
    mut reading: ReadingRecord,
) -> Answer {
    if registration.phase > 2 || registration.length > 512 {
        return Answer { number: 13, registration, reading };
    }
    let number = number(args, memory, journal, inventory, edition, &mut reading);
    Answer { number, registration, reading }
}

/// The number of a call; where it is 0, the outputs are written.
fn number(
    args: &mut [u8],
    memory: &mut [u8],
    journal: &[u8],
    inventory: &[u8],
    edition: u32,
    reading: &mut ReadingRecord,
) -> u32 {
    if args.len() < 12 {
        return 10;
    }
    let counts = (be32(args, 4), be32(args, 8));
    if counts.0 > 16 || counts.1 > 16 {
        return 12;
    }
    let outputs_at = 12 + 4 * counts.0 as usize;
    if args.len() < outputs_at + 4 * counts.1 as usize {
        return 10;
    }
    if counts.1 == 0 {
        return 11;
    }
    let (inputs, outputs) = args.split_at_mut(outputs_at);
    let status = match (be32(inputs, 0), counts) {
        (1, (2, 1)) => update_nodes::update_nodes(&inputs[12..], memory, journal),
        (4, (2, 1)) => update_properties::update_properties(&inputs[12..], memory, journal),
        (2, (5, 2)) => get_indices::get_indices(&inputs[12..], &mut outputs[4..8], memory, inventory, edition, reading),
        _ => Err(PARAMETER),
    };
    put_be32(outputs, 0, status.unwrap_or_else(|refusal| refusal) as u32);
    0
}
