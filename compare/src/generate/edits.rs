//! Edits of an inventory (M-105).

use super::{damage, inventories};
use crate::buffers::{inventory_record, record_places};
use crate::random::Random;

/// The inventory after an edit; most edits are of the list of this flag and type, and some make it malformed.
pub fn edited(random: &mut Random, inventory: &[u8], flag: u32, kind: u32) -> Vec<u8> {
    let mut edited = inventory.to_vec();
    match random.below(10) {
        // An edit that changes no byte.
        0 => {}
        1..=3 => insert_entry(random, &mut edited, flag, kind),
        4 | 5 => remove_record(random, &mut edited),
        6 => {
            remove_record(random, &mut edited);
            insert_entry(random, &mut edited, flag, kind);
        }
        7 => edited = reversed(inventory),
        8 => {
            let entries = random.between(0, 12);
            edited = inventories::stock(random, flag, kind, entries).bytes;
        }
        _ => damage::damage_inventory(random, &mut edited),
    }
    edited
}

fn insert_entry(random: &mut Random, inventory: &mut Vec<u8>, flag: u32, kind: u32) {
    let code = inventories::code(random);
    let record = inventory_record(flag as u16, kind, random.word(), &code);
    damage::insert(random, inventory, &record);
}

fn remove_record(random: &mut Random, inventory: &mut Vec<u8>) {
    let places = record_places(inventory);
    if !places.is_empty() {
        let (from, to) = random.pick(&places);
        inventory.drain(from..to);
    }
}

/// The records in the opposite order.
fn reversed(inventory: &[u8]) -> Vec<u8> {
    record_places(inventory).iter().rev().flat_map(|&(from, to)| &inventory[from..to]).copied().collect()
}
