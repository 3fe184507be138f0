//! A partition that makes calls: its argument buffer, memory, registration and reading record, and what the platform
//! has for it.

use crate::interface::{Asked, ReadingRecord, Registration, Side, Wanted};
use crate::journal::NODE;
use crate::library;

/// The place and the size of every work area.
pub const AREA_AT: usize = 4096;
pub const AREA_SIZE: usize = 4096;

/// The tokens of the calls.
const UPDATE_NODES: u32 = 1;
const GET_INDICES: u32 = 2;
const UPDATE_PROPERTIES: u32 = 4;
/// Where get-indices has its flag, its type, its Starting Number and its outputs.
const FLAG: usize = 12;
const KIND: usize = 16;
const STARTING_NUMBER: usize = 28;
const NEXT_NUMBER: usize = 36;

/// The edition of every inventory.
const EDITION: u32 = 7;

#[derive(Clone, PartialEq)]
pub struct Partition<'a> {
    pub args: Vec<u8>,
    pub memory: Vec<u8>,
    pub journal: &'a [u8],
    pub inventory: &'a [u8],
    pub edition: u32,
    pub registration: Registration,
    pub reading: ReadingRecord,
    /// The unit that the first sixteen bytes of a node area name.
    unit: u64,
}

impl<'a> Partition<'a> {
    fn new(args: &[u32], journal: &'a [u8], inventory: &'a [u8]) -> Partition<'a> {
        Partition {
            args: args.iter().flat_map(|word| word.to_be_bytes()).collect(),
            memory: vec![0xa5; AREA_AT + 2 * AREA_SIZE],
            journal,
            inventory,
            edition: EDITION,
            registration: (library::SIDE.no_registration)(),
            reading: (library::SIDE.no_reading)(),
            unit: 0,
        }
    }

    /// A partition that asks for the node updates of a journal.
    pub fn of_journal(journal: &'a [u8], wanted: Wanted) -> Partition<'a> {
        let args = [UPDATE_NODES, 2, 1, AREA_AT as u32, wanted.scope, 0];
        Partition { unit: wanted.unit, ..Partition::new(&args, journal, &[]) }
    }

    /// A partition that asks for entries of an inventory.
    pub fn of_inventory(inventory: &'a [u8], asked: Asked) -> Partition<'a> {
        let (at, size) = (AREA_AT as u32, AREA_SIZE as u32);
        let args = [GET_INDICES, 5, 2, asked.flag, asked.kind, at, size, asked.number, 0, 0];
        Partition::new(&args, &[], inventory)
    }

    /// A partition that asks for the changes of a node's properties in a journal.
    pub fn of_properties(journal: &'a [u8]) -> Partition<'a> {
        Partition::new(&[UPDATE_PROPERTIES, 2, 1, AREA_AT as u32, 1, 0], journal, &[])
    }

    pub fn word(&self, at: usize) -> u32 {
        u32::from_be_bytes(self.args[at..at + 4].try_into().unwrap())
    }

    pub fn put_word(&mut self, at: usize, word: u32) {
        self.args[at..at + 4].copy_from_slice(&word.to_be_bytes());
    }

    pub fn area(&mut self) -> &mut [u8] {
        &mut self.memory[AREA_AT..AREA_AT + AREA_SIZE]
    }

    /// Makes ready for a call from a state on, or from a Starting Number on, which the reading record then names.
    pub fn begin(&mut self, from: u32) {
        match self.word(0) {
            UPDATE_NODES => {
                let unit = self.unit.to_be_bytes();
                self.area()[..4].copy_from_slice(&from.to_be_bytes());
                self.area()[4..12].copy_from_slice(&unit);
                self.area()[12..16].fill(0);
            }
            UPDATE_PROPERTIES => {
                self.area()[..4].copy_from_slice(&NODE.to_be_bytes());
                self.area()[4..8].copy_from_slice(&from.to_be_bytes());
                self.area()[8..16].fill(0);
            }
            _ => {
                self.put_word(STARTING_NUMBER, from);
                let (flag, kind) = (self.word(FLAG), self.word(KIND));
                self.reading = ReadingRecord { flag, kind, number: from, edition: self.edition };
            }
        }
    }

    /// Makes ready for the first call of a session.
    pub fn begin_session(&mut self) {
        self.begin(if self.word(0) == GET_INDICES { 1 } else { 0 });
        self.reading = (library::SIDE.no_reading)();
    }

    /// Makes ready for the call after an answered one.
    pub fn carry_on(&mut self) {
        if self.word(0) == GET_INDICES {
            self.put_word(STARTING_NUMBER, self.word(NEXT_NUMBER));
        }
    }

    /// One call, which gives its number.
    pub fn call(&mut self, side: &Side) -> u32 {
        let (journal, inventory, edition, reading) = (self.journal, self.inventory, self.edition, self.reading);
        let answer =
            (side.call)(&mut self.args, &mut self.memory, journal, inventory, edition, self.registration, reading);
        self.registration = answer.registration;
        self.reading = answer.reading;
        answer.number
    }

    /// The status of the last call.
    pub fn status(&self) -> i32 {
        self.word(12 + 4 * self.word(4) as usize) as i32
    }

    /// One call that is answered, from a state or a Starting Number on.
    pub fn answered_call(&mut self, side: &Side, from: u32) -> u64 {
        self.begin(from);
        let number = self.call(side);
        assert!(number == 0 && self.status() >= 0);
        self.status() as u64
    }

    /// The state that the area of update-properties carries.
    pub fn property_state(&mut self) -> u32 {
        u32::from_be_bytes(self.area()[4..8].try_into().unwrap())
    }

    /// The states that a session of update-properties carries, from 0 on.
    pub fn property_states(&mut self, side: &Side) -> Vec<u32> {
        self.begin_session();
        let mut states = vec![0];
        while self.call(side) == 0 && self.status() == 1 {
            states.push(self.property_state());
        }
        states
    }

    /// Calls until one says done. Gives their number.
    pub fn session(&mut self, side: &Side) -> u64 {
        self.begin_session();
        let mut calls = 1;
        while self.call(side) == 0 && self.status() == 1 {
            self.carry_on();
            calls += 1;
        }
        assert_eq!(self.status(), 0);
        calls
    }
}
