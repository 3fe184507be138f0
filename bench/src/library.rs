//! The proved side: the archives over their C interface. With the feature `stand-in` there is no libdraugsten.a, and the
//! independent program answers in its place, but for the scans and the search.

use crate::interface::{Asked, Judged, Side, Wanted};

#[cfg(feature = "stand-in")]
use crate::independent::{call, edit, no_reading, no_registration, read_indices, read_nodes, read_properties};
#[cfg(feature = "stand-in")]
pub use crate::independent::{count, replay, run_dump};
#[cfg(not(feature = "stand-in"))]
use archive::{call, edit, no_reading, no_registration, read_indices, read_nodes, read_properties};
#[cfg(not(feature = "stand-in"))]
pub use archive::{count, replay, run_dump};

/// Whether the library itself is measured.
pub const REAL: bool = cfg!(not(feature = "stand-in"));

pub const SIDE: Side = Side {
    name: if REAL { "proved" } else { "stand-in" },
    scan_journal,
    scan_inventory,
    search,
    no_registration,
    no_reading,
    edit,
    call,
    read_nodes,
    read_indices,
    read_properties,
};

extern "C" {
    fn draugsten_bench_scan(journal: *const u8, length: usize, scope: u32, unit: u64) -> u64;
    fn draugsten_bench_inventory(inventory: *const u8, length: usize, flag: u32, kind: u32, number: u32) -> u64;
    fn draugsten_bench_search(inventory: *const u8, length: usize, flag: u32, kind: u32, count: u64) -> u32;
}

fn scan_journal(journal: &[u8], wanted: Wanted) -> u64 {
    // SAFETY: the function reads the slice that is lent to it, writes nothing of ours, and keeps no pointer.
    unsafe { draugsten_bench_scan(journal.as_ptr(), journal.len(), wanted.scope, wanted.unit) }
}

fn scan_inventory(inventory: &[u8], asked: Asked) -> u64 {
    let (bytes, length) = (inventory.as_ptr(), inventory.len());
    // SAFETY: as above.
    unsafe { draugsten_bench_inventory(bytes, length, asked.flag, asked.kind, asked.number) }
}

fn search(judged: Judged) -> u32 {
    let (bytes, length) = (judged.inventory().as_ptr(), judged.inventory().len());
    // SAFETY: as above; and the scan has judged the inventory and counted its entries, as the function requires.
    unsafe { draugsten_bench_search(bytes, length, judged.asked().flag, judged.asked().kind, judged.count()) }
}

#[cfg(not(feature = "stand-in"))]
mod archive {
    use crate::interface::{
        Added, Answer, Edit, IndexReading, NodeReading, PropertyReading, ReadingRecord, Registration, ReplayBuffers,
        Replayed, Report, Run, Totals,
    };

    /// Where a replay stands.
    #[repr(C)]
    #[derive(Clone, Copy)]
    struct Replay {
        records: u64,
        report: Report,
        held: usize,
        waiting: u32,
        edition: u32,
        registration: Registration,
        reading: ReadingRecord,
    }

    #[repr(C)]
    struct Fed {
        number: u32,
        replay: Replay,
    }

    #[repr(C)]
    struct Ended {
        number: u32,
        report: Report,
    }

    /// Where a replay stands that counts.
    #[repr(C)]
    #[derive(Clone, Copy)]
    struct Counting {
        replay: Replay,
        counts: Counts,
    }

    #[repr(C)]
    #[derive(Clone, Copy)]
    struct Counts {
        calls: [[u64; 7]; 4],
        operations: u64,
        used: u64,
    }

    #[repr(C)]
    struct Counted {
        number: u32,
        counting: Counting,
    }

    extern "C" {
        fn draugsten_no_registration() -> Registration;

        fn draugsten_no_reading() -> ReadingRecord;

        fn draugsten_edit(edition: u32) -> Edit;

        fn draugsten_call(
            args: *mut u8,
            args_len: usize,
            memory: *mut u8,
            memory_len: usize,
            journal: *const u8,
            journal_len: usize,
            inventory: *const u8,
            inventory_len: usize,
            edition: u32,
            registration: Registration,
            reading: ReadingRecord,
        ) -> Answer;

        fn draugsten_run_dump(
            registration: Registration,
            memory: *mut u8,
            memory_len: usize,
            platform: *const u8,
            platform_len: usize,
        ) -> Run;

        fn draugsten_replay_start(edition: u32) -> Replay;

        fn draugsten_replay_feed(
            held: *mut u8,
            held_len: usize,
            args: *mut u8,
            args_len: usize,
            memory: *mut u8,
            memory_len: usize,
            journal: *const u8,
            journal_len: usize,
            inventory: *const u8,
            inventory_len: usize,
            replay: Replay,
            bytes: *const u8,
            len: usize,
        ) -> Fed;

        fn draugsten_replay_end(replay: Replay) -> Ended;

        fn draugsten_month_start(edition: u32) -> Counting;

        fn draugsten_month_feed(
            held: *mut u8,
            held_len: usize,
            args: *mut u8,
            args_len: usize,
            memory: *mut u8,
            memory_len: usize,
            journal: *const u8,
            journal_len: usize,
            inventory: *const u8,
            inventory_len: usize,
            counting: Counting,
            bytes: *const u8,
            len: usize,
        ) -> Counted;

        fn draugsten_month_add(totals: Totals, counting: Counting) -> Added;

        fn draugsten_read_nodes(
            area: *const u8,
            area_len: usize,
            scope: u32,
            out: *mut u32,
            out_len: usize,
        ) -> NodeReading;

        fn draugsten_read_indices(area: *const u8, area_len: usize, out: *mut u64, out_len: usize) -> IndexReading;

        fn draugsten_read_properties(
            area: *const u8,
            area_len: usize,
            out: *mut u32,
            out_len: usize,
        ) -> PropertyReading;
    }

    pub fn no_registration() -> Registration {
        // SAFETY: the function takes nothing.
        unsafe { draugsten_no_registration() }
    }

    pub fn no_reading() -> ReadingRecord {
        // SAFETY: as above.
        unsafe { draugsten_no_reading() }
    }

    pub fn edit(edition: u32) -> Edit {
        // SAFETY: the function takes a number alone.
        unsafe { draugsten_edit(edition) }
    }

    pub fn call(
        args: &mut [u8],
        memory: &mut [u8],
        journal: &[u8],
        inventory: &[u8],
        edition: u32,
        registration: Registration,
        reading: ReadingRecord,
    ) -> Answer {
        // SAFETY: each pointer comes with the length of the slice that it was taken from, and none is kept.
        unsafe {
            draugsten_call(
                args.as_mut_ptr(),
                args.len(),
                memory.as_mut_ptr(),
                memory.len(),
                journal.as_ptr(),
                journal.len(),
                inventory.as_ptr(),
                inventory.len(),
                edition,
                registration,
                reading,
            )
        }
    }

    /// The run of a registered dump.
    pub fn run_dump(registration: Registration, memory: &mut [u8], platform: &[u8]) -> Run {
        let (bytes, length) = (memory.as_mut_ptr(), memory.len());
        // SAFETY: each pointer comes with the length of the slice that it was taken from, and none is kept.
        unsafe { draugsten_run_dump(registration, bytes, length, platform.as_ptr(), platform.len()) }
    }

    /// A whole replay.
    pub fn replay(buffers: &mut ReplayBuffers, replayed: Replayed) -> Report {
        // SAFETY: the function takes a number alone.
        let mut replay = unsafe { draugsten_replay_start(replayed.edition) };
        for bytes in replayed.trace.chunks(replayed.burst) {
            let fed = feed(buffers, &replayed, replay, bytes);
            assert_eq!(fed.number, 0);
            replay = fed.replay;
        }
        // SAFETY: the function takes a replay alone.
        let ended = unsafe { draugsten_replay_end(replay) };
        assert_eq!(ended.number, 0);
        ended.report
    }

    fn feed(buffers: &mut ReplayBuffers, replayed: &Replayed, replay: Replay, bytes: &[u8]) -> Fed {
        let ReplayBuffers { held, args, memory } = buffers;
        let Replayed { journal, inventory, .. } = replayed;
        // SAFETY: each pointer comes with the length of the buffer that it was taken from, and none is kept.
        unsafe {
            draugsten_replay_feed(
                held.as_mut_ptr(),
                held.len(),
                args.as_mut_ptr(),
                args.len(),
                memory.as_mut_ptr(),
                memory.len(),
                journal.as_ptr(),
                journal.len(),
                inventory.as_ptr(),
                inventory.len(),
                replay,
                bytes.as_ptr(),
                bytes.len(),
            )
        }
    }

    /// A whole replay that counts, added to no other.
    pub fn count(buffers: &mut ReplayBuffers, replayed: Replayed) -> Added {
        // SAFETY: the function takes a number alone.
        let mut counting = unsafe { draugsten_month_start(replayed.edition) };
        for bytes in replayed.trace.chunks(replayed.burst) {
            let counted = feed_counting(buffers, &replayed, counting, bytes);
            assert_eq!(counted.number, 0);
            counting = counted.counting;
        }
        // SAFETY: the function takes figures alone.
        unsafe { draugsten_month_add(Totals::NONE, counting) }
    }

    fn feed_counting(buffers: &mut ReplayBuffers, replayed: &Replayed, counting: Counting, bytes: &[u8]) -> Counted {
        let ReplayBuffers { held, args, memory } = buffers;
        let Replayed { journal, inventory, .. } = replayed;
        // SAFETY: each pointer comes with the length of the buffer that it was taken from, and none is kept.
        unsafe {
            draugsten_month_feed(
                held.as_mut_ptr(),
                held.len(),
                args.as_mut_ptr(),
                args.len(),
                memory.as_mut_ptr(),
                memory.len(),
                journal.as_ptr(),
                journal.len(),
                inventory.as_ptr(),
                inventory.len(),
                counting,
                bytes.as_ptr(),
                bytes.len(),
            )
        }
    }

    pub fn read_nodes(area: &[u8], scope: u32, out: &mut [u32]) -> NodeReading {
        // SAFETY: as above.
        unsafe { draugsten_read_nodes(area.as_ptr(), area.len(), scope, out.as_mut_ptr(), out.len()) }
    }

    pub fn read_indices(area: &[u8], out: &mut [u64]) -> IndexReading {
        // SAFETY: as above.
        unsafe { draugsten_read_indices(area.as_ptr(), area.len(), out.as_mut_ptr(), out.len()) }
    }

    pub fn read_properties(area: &[u8], out: &mut [u32]) -> PropertyReading {
        // SAFETY: as above.
        unsafe { draugsten_read_properties(area.as_ptr(), area.len(), out.as_mut_ptr(), out.len()) }
    }
}
