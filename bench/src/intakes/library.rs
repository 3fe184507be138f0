//! The proved side: libdraugsten_tallies.a over its C interface.

use super::{Burst, Intake, Receiving};
use crate::tallies::Tallied;

pub const RECEIVING: Receiving = Receiving { start, burst };

extern "C" {
    fn draugsten_intake_start(journal: Tallied) -> Intake;

    fn draugsten_intake_burst(
        buffer: *mut u8,
        buffer_len: usize,
        store: *mut u8,
        store_len: usize,
        intake: Intake,
        bytes: *const u8,
        len: usize,
    ) -> Burst;
}

fn start(journal: Tallied) -> Intake {
    // SAFETY: the function takes numbers alone.
    unsafe { draugsten_intake_start(journal) }
}

fn burst(buffer: &mut [u8], store: &mut [u8], intake: Intake, bytes: &[u8]) -> Burst {
    let (held, length) = (store.as_mut_ptr(), store.len());
    // SAFETY: each pointer comes with the length of the slice that it was taken from, and none is kept.
    unsafe {
        draugsten_intake_burst(buffer.as_mut_ptr(), buffer.len(), held, length, intake, bytes.as_ptr(), bytes.len())
    }
}
