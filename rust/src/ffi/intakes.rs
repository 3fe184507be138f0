//! Intakes, which are a part of `libdraugsten_tallies.a` too.

use super::tallies::Tallied;

/// Where an intake stands: its journal's use and tallies, the number of the record that it is inside or comes to, how many
/// bytes its store holds, and its fault (0, 50 or 51). Only what a start or a burst gives is an intake.
#[repr(C)]
#[derive(Clone, Copy)]
pub struct Intake {
    pub journal: Tallied,
    pub number: u64,
    pub held: usize,
    pub fault: u32,
}

#[repr(C)]
pub struct Burst {
    pub number: u32,
    pub in_record: u64,
    pub intake: Intake,
}

#[repr(C)]
pub struct End {
    pub number: u32,
    pub in_record: u64,
}

extern "C" {
    fn draugsten_intake_start(journal: Tallied) -> Intake;

    fn draugsten_intake_burst(
        buffer: *mut u8,
        buffer_length: usize,
        store: *mut u8,
        store_length: usize,
        intake: Intake,
        bytes: *const u8,
        length: usize,
    ) -> Burst;

    fn draugsten_intake_end(
        buffer: *const u8,
        buffer_length: usize,
        store: *const u8,
        store_length: usize,
        intake: Intake,
    ) -> End;
}

pub fn start(journal: Tallied) -> Intake {
    // SAFETY: it takes any numbers, and there is no global state.
    unsafe { draugsten_intake_start(journal) }
}

pub fn burst(buffer: &mut [u8], store: &mut [u8], intake: Intake, bytes: &[u8]) -> Burst {
    let (pointer, length) = (store.as_mut_ptr(), store.len());
    // SAFETY: all pointers are slices', with their lengths; `buffer` and `store`, which are written, are borrowed by `&mut`.
    unsafe {
        draugsten_intake_burst(buffer.as_mut_ptr(), buffer.len(), pointer, length, intake, bytes.as_ptr(), bytes.len())
    }
}

pub fn end(buffer: &[u8], store: &[u8], intake: Intake) -> End {
    // SAFETY: both pointers are slices', with their lengths.
    unsafe { draugsten_intake_end(buffer.as_ptr(), buffer.len(), store.as_ptr(), store.len(), intake) }
}

/// The sizes and places of fields, which tests/intakes.c holds the header to.
#[cfg(test)]
mod tests {
    use super::{Burst, End, Intake};
    use std::mem::{offset_of, size_of};

    #[test]
    fn the_layout_of_an_intake() {
        assert_eq!([size_of::<Intake>(), size_of::<Burst>(), size_of::<End>()], [128, 144, 16]);
        assert_eq!([offset_of!(Intake, journal), offset_of!(Intake, number)], [0, 104]);
        assert_eq!([offset_of!(Intake, held), offset_of!(Intake, fault)], [112, 120]);
        assert_eq!([offset_of!(Burst, number), offset_of!(Burst, in_record), offset_of!(Burst, intake)], [0, 8, 16]);
        assert_eq!([offset_of!(End, number), offset_of!(End, in_record)], [0, 8]);
    }
}
