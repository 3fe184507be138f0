//! Partition memories.

use crate::random::Random;

/// The most bytes of a random memory.
const MOST_BYTES: usize = 32_768;

/// Memory of this length, as far as that is a small one: random bytes mostly, sometimes all zero or all 0xff.
pub fn memory(random: &mut Random, length: usize) -> Vec<u8> {
    let mut bytes = vec![0; length.min(MOST_BYTES)];
    match random.below(8) {
        0 => {}
        1 => bytes.fill(0xff),
        _ => random.fill(&mut bytes),
    }
    bytes
}

/// The length of a memory with whole pages, and the address of one of them.
pub fn page(random: &mut Random) -> (usize, u32) {
    let pages = random.pick(&[1, 1, 1, 2, 2, 3, 4]);
    let tail = match random.below(6) {
        0..=2 => 0,
        3 => random.pick(&[1, 4095]),
        _ => random.below(4096),
    };
    let page = if random.one_in(2) { pages - 1 } else { random.below(pages) };
    (4096 * pages + tail, 4096 * page as u32)
}

/// A length that is 0 in most cases, otherwise up to `most`.
pub fn gap(random: &mut Random, most: usize) -> usize {
    match random.below(5) {
        0..=2 => 0,
        3 => random.pick(&[1, 3, 4]).min(most),
        _ => random.between(0, most),
    }
}
