//! A partition with the buffers that its calls take.

use draugsten::{args, call, Answer, Edition, Fault, ReadingRecord, Registration};

/// Where the node area starts in memory.
pub const NODE_AREA: usize = 4096;

pub struct Partition {
    pub memory: Vec<u8>,
    pub journal: Vec<u8>,
    pub inventory: Vec<u8>,
    pub edition: Edition,
    pub registration: Registration,
    pub reading: ReadingRecord,
}

impl Partition {
    /// Two pages of zero bytes, an empty journal, an empty inventory in edition 0, nothing registered, no reading in
    /// progress.
    pub fn new() -> Partition {
        Partition {
            memory: vec![0; 8192],
            journal: vec![],
            inventory: vec![],
            edition: Edition(0),
            registration: Registration::none(),
            reading: ReadingRecord::none(),
        }
    }

    pub fn call(&mut self, args: &mut [u8]) -> Result<Answer, Fault> {
        let Partition { memory, journal, inventory, edition, registration, reading } = self;
        call(args, memory, journal, inventory, *edition, registration, reading)
    }

    pub fn update_nodes(&mut self, scope: i32) -> Result<Answer, Fault> {
        self.call(&mut args::update_nodes(NODE_AREA as u32, scope))
    }

    /// The work area is that of update-nodes.
    pub fn update_properties(&mut self, scope: i32) -> Result<Answer, Fault> {
        self.call(&mut args::update_properties(NODE_AREA as u32, scope))
    }

    pub fn node_area(&self) -> &[u8] {
        &self.memory[NODE_AREA..]
    }
}
