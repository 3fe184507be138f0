//! A journal that arrives in bursts: where it stands, and the sides that take it.

mod independent;
#[cfg(not(feature = "stand-in"))]
mod library;

use crate::tallies::{Tallied, Tallies};

/// The bytes of a store: of the longest record.
pub const STORE: usize = 32_808;

/// Where an intake stands: its journal's use and tallies, the number of the record that it is inside or comes to, the bytes
/// that are held, and its fault.
#[repr(C)]
#[derive(Clone, Copy, PartialEq, Eq, Debug)]
pub struct Intake {
    pub journal: Tallied,
    pub number: u64,
    pub held: usize,
    pub fault: u32,
}

/// What a burst gives: its number, that of the record, and where the intake stands then.
#[repr(C)]
#[derive(Clone, Copy, PartialEq, Eq, Debug)]
pub struct Burst {
    pub number: u32,
    pub in_record: u64,
    pub intake: Intake,
}

/// One implementation: a start over a journal, and a burst over the journal's buffer and the store.
pub struct Receiving {
    pub start: fn(Tallied) -> Intake,
    pub burst: fn(&mut [u8], &mut [u8], Intake, &[u8]) -> Burst,
}

/// The independent program.
pub const INDEPENDENT: Receiving = independent::RECEIVING;

/// The proved library.
#[cfg(not(feature = "stand-in"))]
pub const PROVED: Receiving = library::RECEIVING;
#[cfg(feature = "stand-in")]
pub const PROVED: Receiving = independent::RECEIVING;

/// What a stream has left: the bytes in use and their tallies, the record's number, the fault, and the bytes that are held.
#[derive(PartialEq, Eq, Debug)]
pub struct Left<'a> {
    pub used: usize,
    pub tallies: Tallies,
    pub number: u64,
    pub fault: u32,
    pub held: &'a [u8],
}

/// A journal that streams come to, one after the other. A burst answers its number.
pub trait Receiver {
    fn restart(&mut self);
    fn burst(&mut self, bytes: &[u8]) -> u32;
    fn left(&self) -> Left<'_>;
    fn buffer(&self) -> &[u8];
}

/// A journal with its store, by one implementation.
pub struct Received {
    receiving: &'static Receiving,
    buffer: Vec<u8>,
    store: Vec<u8>,
    intake: Intake,
}

impl Received {
    /// An empty journal in a buffer of so many bytes.
    pub fn new(receiving: &'static Receiving, size: usize) -> Received {
        let intake = (receiving.start)(Tallied::EMPTY);
        Received { receiving, buffer: vec![0; size], store: vec![0; STORE], intake }
    }
}

impl Receiver for Received {
    fn restart(&mut self) {
        self.intake = (self.receiving.start)(Tallied::EMPTY);
    }

    fn burst(&mut self, bytes: &[u8]) -> u32 {
        let burst = (self.receiving.burst)(&mut self.buffer, &mut self.store, self.intake, bytes);
        self.intake = burst.intake;
        burst.number
    }

    fn left(&self) -> Left<'_> {
        let Intake { journal: Tallied { used, tallies }, number, held, fault } = self.intake;
        Left { used, tallies, number, fault, held: &self.store[..held] }
    }

    fn buffer(&self) -> &[u8] {
        &self.buffer
    }
}
