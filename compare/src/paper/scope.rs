//! "What each scope reports (000)"

use super::records::{Change, Operation};

/// Which opcodes a scope reports for one node type.
#[derive(Clone, Copy)]
enum Reported {
    Nothing,
    Updates,
    All,
}

use Reported::{All, Nothing, Updates};

/// "a table with one row of node types for each scope": the entry for node type t stands at t - 1.
pub struct Row([Reported; 16]);

/// "any negative scope: 5, 8, 9 updates; 10 to 14 all three opcodes"
const NEGATIVE: Row = Row([
    Nothing, Nothing, Nothing, Nothing, Updates, Nothing, Nothing, Updates, Updates, All, All, All, All, All, Nothing,
    Nothing,
]);

/// "scope 1: 1 to 5, 7, 8 updates; 6, 9 to 14 all three"
const SCOPE_1: Row = Row([
    Updates, Updates, Updates, Updates, Updates, All, Updates, Updates, All, All, All, All, All, All, Nothing, Nothing,
]);

/// "scope 2: 3 updates"
const SCOPE_2: Row = Row([
    Nothing, Nothing, Updates, Nothing, Nothing, Nothing, Nothing, Nothing, Nothing, Nothing, Nothing, Nothing,
    Nothing, Nothing, Nothing, Nothing,
]);

/// M-100: "Node types 15 (coherent platform facility) and 16 (function) report updates, in scope 3 only."
const SCOPE_3: Row = Row([
    Nothing, Nothing, Nothing, Nothing, Nothing, Nothing, Nothing, Nothing, Nothing, Nothing, Nothing, Nothing,
    Nothing, Nothing, Updates, Updates,
]);

/// "A scope with a row of node types is valid." All others: -3.
pub fn row(scope: u64) -> Option<Row> {
    match scope {
        0x8000_0000..=0xffff_ffff => Some(NEGATIVE),
        1 => Some(SCOPE_1),
        2 => Some(SCOPE_2),
        3 => Some(SCOPE_3),
        _ => None,
    }
}

fn reports(row: &Row, change: &Change) -> bool {
    match row.0[change.node_type as usize - 1] {
        Nothing => false,
        Updates => change.operation.opcode == 2,
        All => true,
    }
}

/// M-100: in scope 3 a call "reports only that unit's records". The other scopes ask for no unit.
fn is_asked_for(change: &Change, unit: Option<u64>) -> bool {
    unit.is_none() || change.unit == unit
}

/// "The reportable list is all reportable deletes in journal order, then updates, then additions."
pub fn reportable_list(changes: &[Change], row: &Row, unit: Option<u64>) -> Vec<Operation> {
    let reported: Vec<&Change> =
        changes.iter().filter(|change| reports(row, change) && is_asked_for(change, unit)).collect();
    let mut list = Vec::new();
    for opcode in 1..=3 {
        let wanted = reported.iter().filter(|change| change.operation.opcode == opcode);
        list.extend(wanted.map(|change| change.operation));
    }
    list
}
