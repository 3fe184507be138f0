//! Counts each scope row, node type and opcode that a call was answered over.

use crate::case::CallCase;
use crate::compare::CallResult;
use crate::paper::records;

const SCOPES: [&str; 4] = ["negative", "1", "2", "3"];

/// Journals above this many bytes are not counted.
const MOST_BYTES: usize = 1000;

/// How often an answered call met a record of this scope, node type and opcode, reported or passed over.
pub struct Combinations {
    times: [[[u64; 3]; 16]; 4],
}

/// Node types 15 and 16 have updates alone.
fn is_possible(node_type: usize, opcode: usize) -> bool {
    node_type <= 14 || opcode == 2
}

impl Combinations {
    pub fn new() -> Combinations {
        Combinations { times: [[[0; 3]; 16]; 4] }
    }

    pub fn count(&mut self, case: &CallCase, result: &CallResult, scope: u64) {
        if !result.rule.is_empty() || case.journal.len() > MOST_BYTES {
            return;
        }
        let row = if scope >= 0x8000_0000 { 0 } else { scope as usize };
        for change in records::journal(&case.journal).unwrap_or_default() {
            let (node_type, opcode) = (change.node_type as usize - 1, change.operation.opcode as usize - 1);
            self.times[row][node_type][opcode] += 1;
        }
    }

    /// Every scope, node type and opcode that can come up, and how often it did.
    fn cells(&self) -> Vec<(String, u64)> {
        let mut cells = Vec::new();
        for (row, scope) in SCOPES.iter().enumerate() {
            for cell in 0..16 * 3 {
                let (node_type, opcode) = (cell / 3 + 1, cell % 3 + 1);
                if is_possible(node_type, opcode) {
                    let name = format!("scope {scope}, node type {node_type}, opcode {opcode}");
                    cells.push((name, self.times[row][node_type - 1][opcode - 1]));
                }
            }
        }
        cells
    }

    pub fn missing(&self) -> Vec<String> {
        self.cells().into_iter().filter(|cell| cell.1 == 0).map(|cell| cell.0).collect()
    }

    pub fn print(&self) {
        let cells = self.cells();
        let (number, least) = (cells.len(), cells.iter().map(|cell| cell.1).min().unwrap_or(0));
        println!("\nscope rows x node types x opcodes in answered calls: {number}, the rarest {least} times");
    }
}
