//! The C interface, as `include/draugsten.h` has it. All unsafe code of the crate stands here and in the folder beside.

#![allow(unsafe_code)]

pub mod intakes;
pub mod locations;
pub mod tables;
pub mod tallies;

/// A phase above 2 or a length above 512 is no registration.
#[repr(C)]
#[derive(Clone, Copy, PartialEq, Eq, Debug)]
pub struct Registration {
    pub phase: u32,
    pub length: usize,
    pub copy: [u8; 512],
}

/// Every value is a reading record.
#[repr(C)]
#[derive(Clone, Copy)]
pub struct Reading {
    pub flag: u32,
    pub type_number: u32,
    pub number: u32,
    pub edition: u32,
}

#[repr(C)]
pub struct Answer {
    pub number: u32,
    pub registration: Registration,
    pub reading: Reading,
}

#[repr(C)]
pub struct Run {
    pub number: u32,
    pub status: u32,
    pub registration: Registration,
}

#[repr(C)]
pub struct Edited {
    pub taken: u32,
    pub edition: u32,
}

/// Verdict 0, calls so far that agreed; 1, the call that differs, with the offset; 2, the record that is malformed.
#[repr(C)]
#[derive(Clone, Copy)]
pub struct Report {
    pub verdict: u32,
    pub offset: u32,
    pub number: u64,
}

/// Only what a start or a feed gives is a replay.
#[repr(C)]
#[derive(Clone, Copy)]
pub struct Replay {
    pub records: u64,
    pub report: Report,
    pub held: usize,
    pub waiting: u32,
    pub edition: u32,
    pub registration: Registration,
    pub reading: Reading,
}

#[repr(C)]
pub struct Fed {
    pub number: u32,
    pub replay: Replay,
}

#[repr(C)]
pub struct Ended {
    pub number: u32,
    pub report: Report,
}

/// The calls of the tokens 1 to 4, each by the seven statuses in the header's order, and what update-nodes handed out.
#[repr(C)]
#[derive(Clone, Copy, PartialEq, Eq, Debug)]
pub struct Counts {
    pub calls: [[u64; 7]; 4],
    pub operations: u64,
    pub used: u64,
}

/// Only what a start or a feed gives is a replay with its counts.
#[repr(C)]
#[derive(Clone, Copy)]
pub struct Counting {
    pub replay: Replay,
    pub counts: Counts,
}

#[repr(C)]
pub struct Counted {
    pub number: u32,
    pub counting: Counting,
}

/// Every value may be added to; merged are only those of traces.
#[repr(C)]
#[derive(Clone, Copy, PartialEq, Eq, Debug)]
pub struct Totals {
    pub calls: [[u64; 7]; 4],
    pub token_calls: [u64; 4],
    pub operations: u64,
    pub used: u64,
    pub available: u64,
}

#[repr(C)]
pub struct Added {
    pub number: u32,
    pub report: Report,
    pub totals: Totals,
}

#[repr(C)]
pub struct Merged {
    pub number: u32,
    pub totals: Totals,
}

#[repr(C)]
pub struct Share {
    pub part: u64,
    pub whole: u64,
}

#[repr(C)]
pub struct NodeReading {
    pub refusal: u32,
    pub state: u32,
    pub offset: usize,
    pub entries: usize,
}

#[repr(C)]
pub struct IndexReading {
    pub refusal: u32,
    pub offset: usize,
    pub entries: usize,
}

#[repr(C)]
pub struct PropertyReading {
    pub refusal: u32,
    pub phandle: u32,
    pub state: u32,
    pub offset: usize,
    pub entries: usize,
}

extern "C" {
    fn draugsten_no_registration() -> Registration;

    fn draugsten_no_reading() -> Reading;

    fn draugsten_edit(edition: u32) -> Edited;

    fn draugsten_call(
        args: *mut u8,
        args_length: usize,
        memory: *mut u8,
        memory_length: usize,
        journal: *const u8,
        journal_length: usize,
        inventory: *const u8,
        inventory_length: usize,
        edition: u32,
        registration: Registration,
        reading: Reading,
    ) -> Answer;

    fn draugsten_run_dump(
        registration: Registration,
        memory: *mut u8,
        memory_length: usize,
        platform: *const u8,
        platform_length: usize,
    ) -> Run;

    fn draugsten_replay_start(edition: u32) -> Replay;

    fn draugsten_replay_feed(
        held: *mut u8,
        held_length: usize,
        args: *mut u8,
        args_length: usize,
        memory: *mut u8,
        memory_length: usize,
        journal: *const u8,
        journal_length: usize,
        inventory: *const u8,
        inventory_length: usize,
        replay: Replay,
        bytes: *const u8,
        length: usize,
    ) -> Fed;

    fn draugsten_replay_end(replay: Replay) -> Ended;

    fn draugsten_month_start(edition: u32) -> Counting;

    fn draugsten_month_feed(
        held: *mut u8,
        held_length: usize,
        args: *mut u8,
        args_length: usize,
        memory: *mut u8,
        memory_length: usize,
        journal: *const u8,
        journal_length: usize,
        inventory: *const u8,
        inventory_length: usize,
        counting: Counting,
        bytes: *const u8,
        length: usize,
    ) -> Counted;

    fn draugsten_month_add(totals: Totals, counting: Counting) -> Added;

    fn draugsten_month_merge(totals: Totals, more: Totals) -> Merged;

    fn draugsten_month_share(totals: Totals) -> Share;

    fn draugsten_read_nodes(
        area: *const u8,
        area_length: usize,
        scope: u32,
        out: *mut u32,
        out_length: usize,
    ) -> NodeReading;

    fn draugsten_read_indices(area: *const u8, area_length: usize, out: *mut u64, out_length: usize) -> IndexReading;

    fn draugsten_read_properties(
        area: *const u8,
        area_length: usize,
        out: *mut u32,
        out_length: usize,
    ) -> PropertyReading;
}

pub fn no_registration() -> Registration {
    // SAFETY: it takes nothing, and there is no global state.
    unsafe { draugsten_no_registration() }
}

pub fn no_reading() -> Reading {
    // SAFETY: it takes nothing, and there is no global state.
    unsafe { draugsten_no_reading() }
}

pub fn edit(edition: u32) -> Edited {
    // SAFETY: it takes any number, and there is no global state.
    unsafe { draugsten_edit(edition) }
}

pub fn call(
    args: &mut [u8],
    memory: &mut [u8],
    journal: &[u8],
    inventory: &[u8],
    edition: u32,
    registration: Registration,
    reading: Reading,
) -> Answer {
    // SAFETY: each pointer is a slice's, so it is not null and goes with its length; the two buffers that are written
    // are borrowed by `&mut`, so no other buffer overlaps them.
    unsafe {
        draugsten_call(
            args.as_mut_ptr(),
            args.len(),
            memory.as_mut_ptr(),
            memory.len(),
            journal.as_ptr(),
            journal.len(),
            inventory.as_ptr(),
            inventory.len(),
            edition,
            registration,
            reading,
        )
    }
}

pub fn run_dump(registration: Registration, memory: &mut [u8], platform: &[u8]) -> Run {
    // SAFETY: both pointers are slices', with their lengths; `memory`, which is written, is borrowed by `&mut`.
    unsafe { draugsten_run_dump(registration, memory.as_mut_ptr(), memory.len(), platform.as_ptr(), platform.len()) }
}

pub fn replay_start(edition: u32) -> Replay {
    // SAFETY: it takes any number, and there is no global state.
    unsafe { draugsten_replay_start(edition) }
}

pub fn replay_feed(
    held: &mut [u8],
    args: &mut [u8],
    memory: &mut [u8],
    journal: &[u8],
    inventory: &[u8],
    replay: Replay,
    bytes: &[u8],
) -> Fed {
    // SAFETY: each pointer is a slice's, so it is not null and goes with its length; the three buffers that are written
    // are borrowed by `&mut`, so no other buffer overlaps them.
    unsafe {
        draugsten_replay_feed(
            held.as_mut_ptr(),
            held.len(),
            args.as_mut_ptr(),
            args.len(),
            memory.as_mut_ptr(),
            memory.len(),
            journal.as_ptr(),
            journal.len(),
            inventory.as_ptr(),
            inventory.len(),
            replay,
            bytes.as_ptr(),
            bytes.len(),
        )
    }
}

pub fn replay_end(replay: Replay) -> Ended {
    // SAFETY: it takes any replay, and there is no global state.
    unsafe { draugsten_replay_end(replay) }
}

pub fn month_start(edition: u32) -> Counting {
    // SAFETY: it takes any number, and there is no global state.
    unsafe { draugsten_month_start(edition) }
}

pub fn month_feed(
    held: &mut [u8],
    args: &mut [u8],
    memory: &mut [u8],
    journal: &[u8],
    inventory: &[u8],
    counting: Counting,
    bytes: &[u8],
) -> Counted {
    // SAFETY: each pointer is a slice's, so it is not null and goes with its length; the three buffers that are written
    // are borrowed by `&mut`, so no other buffer overlaps them.
    unsafe {
        draugsten_month_feed(
            held.as_mut_ptr(),
            held.len(),
            args.as_mut_ptr(),
            args.len(),
            memory.as_mut_ptr(),
            memory.len(),
            journal.as_ptr(),
            journal.len(),
            inventory.as_ptr(),
            inventory.len(),
            counting,
            bytes.as_ptr(),
            bytes.len(),
        )
    }
}

pub fn month_add(totals: Totals, counting: Counting) -> Added {
    // SAFETY: it takes any totals and any replay, and there is no global state.
    unsafe { draugsten_month_add(totals, counting) }
}

pub fn month_merge(totals: Totals, more: Totals) -> Merged {
    // SAFETY: it takes any totals, and there is no global state.
    unsafe { draugsten_month_merge(totals, more) }
}

pub fn month_share(totals: Totals) -> Share {
    // SAFETY: it takes any totals, and there is no global state.
    unsafe { draugsten_month_share(totals) }
}

/// Three words of `out` for each operation: opcode, first operand, second operand or 0.
pub fn read_nodes(area: &[u8], scope: u32, out: &mut [u32]) -> NodeReading {
    // SAFETY: both pointers are slices', with their lengths; `out`, which is written, is borrowed by `&mut`.
    unsafe { draugsten_read_nodes(area.as_ptr(), area.len(), scope, out.as_mut_ptr(), out.len()) }
}

/// Three numbers of `out` for each entry: index, byte offset of its code in the area, length of the code.
pub fn read_indices(area: &[u8], out: &mut [u64]) -> IndexReading {
    // SAFETY: both pointers are slices', with their lengths; `out`, which is written, is borrowed by `&mut`.
    unsafe { draugsten_read_indices(area.as_ptr(), area.len(), out.as_mut_ptr(), out.len()) }
}

/// Five words of `out` for each property: byte offset and length of its name, its descriptor, byte offset and length of
/// its value.
pub fn read_properties(area: &[u8], out: &mut [u32]) -> PropertyReading {
    // SAFETY: both pointers are slices', with their lengths; `out`, which is written, is borrowed by `&mut`.
    unsafe { draugsten_read_properties(area.as_ptr(), area.len(), out.as_mut_ptr(), out.len()) }
}

/// The sizes and places of fields, which tests/refusals.c holds the header to.
#[cfg(test)]
mod tests {
    use super::{Added, Counted, Counting, Counts, Merged, Registration, Run, Share, Totals};
    use std::mem::{offset_of, size_of};

    #[test]
    fn the_layout_of_a_registration_and_a_run() {
        assert_eq!([size_of::<Registration>(), size_of::<Run>()], [528, 536]);
        let registration =
            [offset_of!(Registration, phase), offset_of!(Registration, length), offset_of!(Registration, copy)];
        assert_eq!(registration, [0, 8, 16]);
        assert_eq!([offset_of!(Run, number), offset_of!(Run, status), offset_of!(Run, registration)], [0, 4, 8]);
    }

    #[test]
    fn the_layout_of_counts_and_totals() {
        assert_eq!([size_of::<Counts>(), size_of::<Totals>(), size_of::<Share>()], [240, 280, 16]);
        assert_eq!(
            [offset_of!(Counts, calls), offset_of!(Counts, operations), offset_of!(Counts, used)],
            [0, 224, 232]
        );
        assert_eq!([offset_of!(Totals, calls), offset_of!(Totals, token_calls)], [0, 224]);
        let words = [offset_of!(Totals, operations), offset_of!(Totals, used), offset_of!(Totals, available)];
        assert_eq!(words, [256, 264, 272]);
        assert_eq!([offset_of!(Share, part), offset_of!(Share, whole)], [0, 8]);
    }

    #[test]
    fn the_layout_of_what_the_functions_give() {
        assert_eq!([size_of::<Counting>(), size_of::<Counted>()], [824, 832]);
        assert_eq!([size_of::<Added>(), size_of::<Merged>()], [304, 288]);
        assert_eq!([offset_of!(Counting, replay), offset_of!(Counting, counts)], [0, 584]);
        assert_eq!([offset_of!(Counted, number), offset_of!(Counted, counting)], [0, 8]);
        assert_eq!([offset_of!(Added, number), offset_of!(Added, report), offset_of!(Added, totals)], [0, 8, 24]);
        assert_eq!([offset_of!(Merged, number), offset_of!(Merged, totals)], [0, 8]);
    }
}
