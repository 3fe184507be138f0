//! The readings of full work areas.

use super::{Row, Subject};
use crate::bare;
use crate::inputs::SCOPE_1;
use crate::partition::AREA_SIZE;
use crate::timing::Effort;
use std::hint::black_box;

/// Room for the operations, for the entries and for the properties of any area.
pub const NODES_ROOM: usize = 3 * (AREA_SIZE / 4);
pub const INDICES_ROOM: usize = 3 * (AREA_SIZE / 12);
pub const PROPERTIES_ROOM: usize = 5 * (AREA_SIZE / 6);

pub fn nodes(over: &str, area: &[u8], effort: Effort) -> Row {
    let stepping = bare::stepping_operators;
    let subject = Subject { what: "reading a node area", over, bytes: area, passes: 1, stepping };
    subject.measure(effort, |side| {
        let mut out = vec![0; NODES_ROOM];
        let scope = SCOPE_1.scope;
        Box::new(move || (side.read_nodes)(black_box(area), black_box(scope), black_box(&mut out)).entries as u64)
    })
}

pub fn indices(over: &str, area: &[u8], effort: Effort) -> Row {
    let stepping = bare::stepping_sets;
    let subject = Subject { what: "reading an index area", over, bytes: area, passes: 1, stepping };
    subject.measure(effort, |side| {
        let mut out = vec![0; INDICES_ROOM];
        Box::new(move || (side.read_indices)(black_box(area), black_box(&mut out)).entries as u64)
    })
}

pub fn properties(over: &str, area: &[u8], effort: Effort) -> Row {
    let stepping = bare::stepping_properties;
    let subject = Subject { what: "reading a property area", over, bytes: area, passes: 1, stepping };
    subject.measure(effort, |side| {
        let mut out = vec![0; PROPERTIES_ROOM];
        Box::new(move || (side.read_properties)(black_box(area), black_box(&mut out)).entries as u64)
    })
}
