//! Buffers as text.

use crate::buffers::record_places;

const MOST_BYTES: usize = 640;
const MOST_RECORDS: usize = 40;

/// Bytes in hexadecimal.
pub fn hex(bytes: &[u8]) -> String {
    let digits: Vec<String> = bytes.iter().map(|byte| format!("{byte:02x}")).collect();
    digits.join(" ")
}

/// Bytes in hexadecimal, as far as they are not too many; sixteen zero bytes or more in a row are told by their number.
fn hex_with_zeros(bytes: &[u8]) -> String {
    let mut parts = Vec::new();
    let mut at = 0;
    while at < bytes.len().min(MOST_BYTES) {
        let zeros = bytes[at..].iter().take_while(|&&byte| byte == 0).count();
        if zeros >= 16 {
            parts.push(format!("({zeros} x 00)"));
        } else {
            parts.push(hex(&bytes[at..at + zeros.max(1)]));
        }
        at += zeros.max(1);
    }
    if at < bytes.len() {
        parts.push(format!("and {} bytes more", bytes.len() - at));
    }
    parts.join(" ")
}

/// A buffer by its name and length.
pub fn buffer(name: &str, bytes: &[u8]) -> String {
    format!("  {name}, {} bytes: {}\n", bytes.len(), hex_with_zeros(bytes))
}

/// A buffer of records, one to a line.
pub fn records(name: &str, bytes: &[u8]) -> String {
    let places = record_places(bytes);
    let mut text = format!("  {name}, {} bytes in {} records\n", bytes.len(), places.len());
    for &(from, to) in places.iter().take(MOST_RECORDS) {
        text += &format!("    {}\n", hex_with_zeros(&bytes[from..to]));
    }
    if places.len() > MOST_RECORDS {
        text += &format!("    and {} records more\n", places.len() - MOST_RECORDS);
    }
    text
}
