//! The journals, inventories and work areas that are measured, with their names.

use crate::interface::{Asked, Wanted, LIMIT, SIDES};
use crate::partition::Partition;
use crate::report::grouped;
use crate::{inventory, journal};

/// The scope that is asked for where no other is named.
pub const SCOPE_1: Wanted = Wanted { scope: 1, unit: 0 };
/// The first of the two units.
pub const SCOPE_3: Wanted = Wanted { scope: 3, unit: journal::UNITS[0] };

pub struct Inputs {
    pub journals: Vec<(&'static str, Vec<u8>, Wanted)>,
    /// Of one node's properties.
    pub properties: Vec<(String, Vec<u8>)>,
    /// Of one node's long values, one and many, measured beside memcpy.
    pub copied: Vec<(String, Vec<u8>)>,
    /// Measured by scans, calls and sessions.
    pub inventories: Vec<Inventory>,
    /// Of several types, measured by the search and by one call alone.
    pub listings: Vec<Inventory>,
    pub node_areas: Vec<(&'static str, Vec<u8>)>,
    pub index_areas: Vec<(String, Vec<u8>)>,
    pub property_areas: Vec<(String, Vec<u8>)>,
}

/// An inventory with its name, and the entries that are asked for.
pub type Inventory = (String, Vec<u8>, Asked);

impl Inputs {
    pub fn all_inventories(&self) -> impl Iterator<Item = &Inventory> {
        self.inventories.iter().chain(&self.listings)
    }

    /// Those of several types, of which the last is asked for.
    pub fn of_several_types(&self) -> impl Iterator<Item = &Inventory> {
        self.all_inventories().filter(|(_, _, asked)| asked.kind > 1)
    }
}

pub fn inputs() -> Inputs {
    let journals = vec![
        ("uniform", journal::uniform(LIMIT), SCOPE_1),
        ("mixed", journal::mixed(LIMIT), SCOPE_1),
        ("uniform", journal::uniform(57_600), SCOPE_1),
        ("mixed", journal::mixed(57_600), SCOPE_1),
        ("two units, scope 3", journal::two_units(LIMIT), SCOPE_3),
        ("four kinds, scope 1", journal::four_kinds(LIMIT), SCOPE_1),
        ("four kinds, scope 3", journal::four_kinds(LIMIT), SCOPE_3),
    ];
    let properties = [8, 200, 32_768]
        .map(|length| (format!("{}-byte values", grouped(length)), journal::properties(length as usize)));
    let inventories: Vec<_> = [(1023, 1), (79, 1), (79, 16), (20, 1), (8, 1)].map(full_inventory).into();
    let listings = [(79, 2), (8, 16), (8, 2)].map(full_inventory).into();
    let node_areas = vec![
        ("deletes", node_area(&journal::uniform(LIMIT))),
        ("all three opcodes", node_area(&journal::mixed(14_000))),
    ];
    let index_areas = [&inventories[0], &inventories[1], &inventories[4]].map(|(name, bytes, asked)| {
        let mut partition = Partition::of_inventory(bytes, *asked);
        partition.answered_call(&SIDES[0], asked.number);
        (name.clone(), partition.area().to_vec())
    });
    let property_areas = properties.each_ref().map(|(name, journal)| (name.clone(), property_area(journal))).into();
    let copied = vec![(String::from("one 32,768-byte value"), journal::one_property(32_768)), properties[2].clone()];
    let (properties, index_areas) = (properties.into(), index_areas.into());
    Inputs { journals, properties, copied, inventories, listings, node_areas, index_areas, property_areas }
}

/// A full inventory with codes of this length and so many types. The last type is asked for, and of its list the entry
/// in the middle.
fn full_inventory((length, kinds): (usize, u32)) -> Inventory {
    let inventory = inventory::sensors(length, u64::from(kinds));
    let mut asked = Asked { flag: u32::from(inventory::FLAG), kind: kinds, number: 1 };
    asked.number = (SIDES[0].scan_inventory)(&inventory, asked) as u32 / 2;
    let types = if kinds == 1 { "type" } else { "types" };
    (format!("{}-byte codes, {kinds} {types}", grouped(length as u64)), inventory, asked)
}

/// The area that the first call over a journal fills.
fn node_area(journal: &[u8]) -> Vec<u8> {
    let mut partition = Partition::of_journal(journal, SCOPE_1);
    partition.answered_call(&SIDES[0], 0);
    partition.area().to_vec()
}

/// The area that the first call for the node's properties fills.
fn property_area(journal: &[u8]) -> Vec<u8> {
    let mut partition = Partition::of_properties(journal);
    partition.answered_call(&SIDES[0], 0);
    partition.area().to_vec()
}
