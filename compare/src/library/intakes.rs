//! The C interface of intakes.

use super::tallies::Tallied;
#[cfg(not(feature = "without-library"))]
use super::Library;
#[cfg(not(feature = "without-library"))]
use crate::intakes::subject::Receiving;

/// Where an intake stands: its journal's use and tallies, the number of the record that it is inside or comes to, the bytes
/// that are held, and its fault (0, 50 or 51).
#[repr(C)]
#[derive(Clone, Copy, PartialEq, Eq, Debug)]
pub struct Intake {
    pub journal: Tallied,
    pub number: u64,
    pub held: u64,
    pub fault: u32,
}

impl Intake {
    pub fn text(&self) -> String {
        let Intake { journal, number, held, fault } = self;
        format!("{}, record {number}, {held} bytes held, fault {fault}", journal.text())
    }
}

/// What a burst gives back. The rule that refused it is told by the paper's side only.
#[derive(Clone, Copy, Debug)]
pub struct Burst {
    pub number: u32,
    pub in_record: u64,
    pub intake: Intake,
    pub rule: &'static str,
}

/// What an end gives back.
#[repr(C)]
#[derive(Clone, Copy, PartialEq, Eq, Debug)]
pub struct End {
    pub number: u32,
    pub in_record: u64,
}

#[cfg(not(feature = "without-library"))]
mod functions {
    //! The types and functions of include/draugsten.h.

    use super::{End, Intake, Tallied};

    #[repr(C)]
    pub struct Burst {
        pub number: u32,
        pub in_record: u64,
        pub intake: Intake,
    }

    extern "C" {
        pub fn draugsten_intake_start(journal: Tallied) -> Intake;

        pub fn draugsten_intake_burst(
            buffer: *mut u8,
            buffer_len: usize,
            store: *mut u8,
            store_len: usize,
            intake: Intake,
            bytes: *const u8,
            len: usize,
        ) -> Burst;

        pub fn draugsten_intake_end(
            buffer: *const u8,
            buffer_len: usize,
            store: *const u8,
            store_len: usize,
            intake: Intake,
        ) -> End;
    }
}

#[cfg(not(feature = "without-library"))]
impl Receiving for Library {
    fn start(&self, journal: &Tallied) -> Intake {
        // SAFETY: the function takes numbers alone.
        unsafe { functions::draugsten_intake_start(*journal) }
    }

    fn burst(&self, buffer: &mut [u8], store: &mut [u8], intake: &Intake, bytes: &[u8]) -> Burst {
        // SAFETY: each pointer comes with the length of the slice that it was taken from, here and below.
        let functions::Burst { number, in_record, intake } = unsafe {
            functions::draugsten_intake_burst(
                buffer.as_mut_ptr(),
                buffer.len(),
                store.as_mut_ptr(),
                store.len(),
                *intake,
                bytes.as_ptr(),
                bytes.len(),
            )
        };
        Burst { number, in_record, intake, rule: "" }
    }

    fn end(&self, buffer: &[u8], store: &[u8], intake: &Intake) -> End {
        let (bytes, length) = (buffer.as_ptr(), buffer.len());
        unsafe { functions::draugsten_intake_end(bytes, length, store.as_ptr(), store.len(), *intake) }
    }
}
