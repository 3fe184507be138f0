//! The kernel dump registration of a partition.

use crate::calling::Fault;
use crate::ffi;

/// The bytes of a copy.
pub const STRUCTURE_LIMIT: usize = 512;

/// Where a registration stands. `as u32` gives its number.
#[derive(Clone, Copy, PartialEq, Eq, Debug)]
pub enum Phase {
    /// Nothing is registered.
    None = 0,
    /// A structure is registered.
    Registered = 1,
    /// A dump is active. `Registration::run` makes a registration active; no call does.
    Active = 2,
}

/// A partition's registration. It is made by `none` or `restore` and changed by calls and runs alone, so it is always one
/// that the library takes.
#[derive(Clone, PartialEq, Eq, Debug)]
pub struct Registration {
    flat: ffi::Registration,
}

impl Registration {
    /// The registration that a partition starts with.
    pub fn none() -> Registration {
        Registration::of(ffi::no_registration())
    }

    /// A registration of its three parts: the phase's number, the length of the copied structure, and the copy. So a
    /// platform takes up again what it had stored. Any copy is taken as it is. A phase above 2 or a length above 512 is
    /// `Fault::NoRegistration`, as the library's number 13.
    ///
    /// ```
    /// use draugsten::{args, call, Answer, Edition, Phase, ReadingRecord, Registration};
    ///
    /// let mut active = Registration::restore(Phase::Active as u32, 0, [0; 512]).unwrap();
    /// let mut reading = ReadingRecord::none();
    /// let mut args = args::configure_kernel_dump(args::Command::Complete, 0, 0);
    /// let answer = call(&mut args, &mut [], &[], &[], Edition(0), &mut active, &mut reading);
    ///
    /// assert_eq!(answer, Ok(Answer::Done));
    /// assert_eq!(active, Registration::none());
    /// ```
    pub fn restore(phase: u32, length: usize, copy: [u8; STRUCTURE_LIMIT]) -> Result<Registration, Fault> {
        if phase > Phase::Active as u32 || length > STRUCTURE_LIMIT {
            return Err(Fault::NoRegistration);
        }
        Ok(Registration { flat: ffi::Registration { phase, length, copy } })
    }

    /// The length of the copied structure.
    pub fn length(&self) -> usize {
        self.flat.length
    }

    /// The whole copy; after the structure it has zero bytes, unless `restore` was given others.
    pub fn copy(&self) -> &[u8; STRUCTURE_LIMIT] {
        &self.flat.copy
    }

    /// Where it stands.
    pub fn phase(&self) -> Phase {
        match self.flat.phase {
            0 => Phase::None,
            1 => Phase::Registered,
            _ => Phase::Active,
        }
    }

    /// The copied dump structure; empty where nothing is registered. After a run it tells what came of it.
    pub fn structure(&self) -> &[u8] {
        &self.flat.copy[..self.flat.length]
    }

    pub(crate) fn of(flat: ffi::Registration) -> Registration {
        Registration { flat }
    }

    pub(crate) fn flat(&self) -> ffi::Registration {
        self.flat
    }

    pub(crate) fn replace(&mut self, flat: ffi::Registration) {
        self.flat = flat;
    }
}

impl Default for Registration {
    fn default() -> Registration {
        Registration::none()
    }
}
