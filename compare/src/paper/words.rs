//! Numbers in bytes.

/// The number in these bytes, high byte first.
/// "All RTAS words are big-endian and 32 bits, unless a width is given."
pub fn big(bytes: &[u8]) -> u64 {
    bytes.iter().fold(0, |number, &byte| (number << 8) | u64::from(byte))
}

/// The number in these bytes, low byte first. "Journal and inventory numbers are little-endian."
pub fn little(bytes: &[u8]) -> u64 {
    bytes.iter().rev().fold(0, |number, &byte| (number << 8) | u64::from(byte))
}

/// The RTAS word at `at`.
pub fn word(bytes: &[u8], at: usize) -> u64 {
    big(&bytes[at..at + 4])
}

/// Writes an RTAS word at `at`.
pub fn put_word(bytes: &mut [u8], at: usize, value: u32) {
    bytes[at..at + 4].copy_from_slice(&value.to_be_bytes());
}

/// A number that is known to fit a word.
pub fn as_word(number: u64) -> u32 {
    u32::try_from(number).unwrap_or(u32::MAX)
}
