//! Records as bytes: length, kind, body, all little-endian.

pub fn record(kind: u16, body: &[u8]) -> Vec<u8> {
    let head = [2 + body.len() as u16, kind].into_iter().flat_map(u16::to_le_bytes);
    head.chain(body.iter().copied()).collect()
}

/// The trace of records by kind and body.
pub fn trace(records: &[(u16, Vec<u8>)]) -> Vec<u8> {
    records.iter().flat_map(|(kind, body)| record(*kind, body)).collect()
}

/// The records of a trace that has no fault, by kind and body.
pub fn records(mut trace: &[u8]) -> Vec<(u16, Vec<u8>)> {
    let mut found = vec![];
    while !trace.is_empty() {
        let end = 2 + u16::from_le_bytes([trace[0], trace[1]]) as usize;
        found.push((u16::from_le_bytes([trace[2], trace[3]]), trace[4..end].to_vec()));
        trace = &trace[end..];
    }
    found
}
