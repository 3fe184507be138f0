//! The record of a partition's reading in progress, and the inventory's edition.

use crate::ffi;

/// The edition of an inventory: it rises by one with each edit.
#[derive(Clone, Copy, PartialEq, Eq, Debug)]
pub struct Edition(pub u32);

impl Edition {
    /// The edition after an edit. At the top, `u32::MAX`, there is none: the edit is not to be made.
    ///
    /// ```
    /// use draugsten::Edition;
    ///
    /// assert_eq!(Edition(7).edited(), Some(Edition(8)));
    /// assert_eq!(Edition(u32::MAX).edited(), None);
    /// ```
    pub fn edited(self) -> Option<Edition> {
        let edited = ffi::edit(self.0);
        (edited.taken != 0).then_some(Edition(edited.edition))
    }
}

/// The record of a partition's reading in progress, which the platform keeps from call to call: the list of get-indices
/// that is read, how far, and in which edition. Every value is one.
///
/// ```
/// use draugsten::args::{self, Flag, IndexRequest};
/// use draugsten::{call, Answer, Edition, Fault, ReadingRecord, Registration};
///
/// // Two sensors of type 9 with the codes "a" and "b". The area has room for one.
/// let inventory = [13, 0, 16, 0, 1, 0, 9, 0, 0, 0, 1, 0, 0, 0, b'a', 13, 0, 16, 0, 1, 0, 9, 0, 0, 0, 2, 0, 0, 0, b'b'];
/// let request = IndexRequest { flag: Flag::Sensor, type_number: 9, address: 0, size: 16, starting_number: 1 };
/// let mut memory = [0; 16];
/// let mut registration = Registration::none();
/// let mut reading = ReadingRecord::none();
/// let mut ask = |request, edition| {
///     let mut args = args::get_indices(request);
///     let answer = call(&mut args, &mut memory, &[], &inventory, edition, &mut registration, &mut reading);
///     (answer, reading)
/// };
///
/// let begun = ReadingRecord { flag: 1, type_number: 9, starting_number: 2, edition: Edition(7) };
/// assert_eq!(ask(&request, Edition(7)), (Ok(Answer::CallAgain), begun));
///
/// // After an edit the reading does not go on.
/// let second = IndexRequest { starting_number: 2, ..request };
/// assert_eq!(ask(&second, Edition(8)), (Err(Fault::Changed), ReadingRecord::none()));
/// ```
#[derive(Clone, Copy, PartialEq, Eq, Debug)]
pub struct ReadingRecord {
    /// 0 for indicators, 1 for sensors.
    pub flag: u32,
    /// Their type.
    pub type_number: u32,
    /// The first entry not yet handed out, counted from 1.
    pub starting_number: u32,
    /// The inventory's edition when the reading began.
    pub edition: Edition,
}

impl ReadingRecord {
    /// No reading in progress, which a partition starts with: Starting Number 1, and the rest 0.
    pub fn none() -> ReadingRecord {
        ReadingRecord::of(ffi::no_reading())
    }

    pub(crate) fn of(flat: ffi::Reading) -> ReadingRecord {
        ReadingRecord {
            flag: flat.flag,
            type_number: flat.type_number,
            starting_number: flat.number,
            edition: Edition(flat.edition),
        }
    }

    pub(crate) fn flat(&self) -> ffi::Reading {
        ffi::Reading {
            flag: self.flag,
            type_number: self.type_number,
            number: self.starting_number,
            edition: self.edition.0,
        }
    }
}

impl Default for ReadingRecord {
    fn default() -> ReadingRecord {
        ReadingRecord::none()
    }
}
