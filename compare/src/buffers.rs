//! Builders for the buffers that a case lends, and buffers between guard bytes.

/// Big-endian words, as a work area or an argument buffer has them.
pub fn words(list: &[u32]) -> Vec<u8> {
    list.iter().flat_map(|word| word.to_be_bytes()).collect()
}

pub fn put_word(bytes: &mut [u8], at: usize, value: u32) {
    bytes[at..at + 4].copy_from_slice(&value.to_be_bytes());
}

/// The big-endian word at `at`, if it is inside.
pub fn word_at(bytes: &[u8], at: usize) -> Option<u32> {
    let word: [u8; 4] = bytes.get(at..at.checked_add(4)?)?.try_into().ok()?;
    Some(u32::from_be_bytes(word))
}

/// A whole argument buffer.
pub fn arguments(token: u32, inputs: &[u32], outputs: &[u32]) -> Vec<u8> {
    let mut all = vec![token, inputs.len() as u32, outputs.len() as u32];
    all.extend(inputs);
    all.extend(outputs);
    words(&all)
}

/// A record of any kind with the length that its body needs.
pub fn record(kind: u16, body: &[u8]) -> Vec<u8> {
    let mut bytes = (2 + body.len() as u16).to_le_bytes().to_vec();
    bytes.extend(kind.to_le_bytes());
    bytes.extend(body);
    bytes
}

/// A journal record of kinds 1 to 3; kind 3 alone has the second operand.
pub fn journal_record(kind: u16, node_type: u16, first: u32, second: u32) -> Vec<u8> {
    let mut body = node_type.to_le_bytes().to_vec();
    body.extend(first.to_le_bytes());
    if kind == 3 {
        body.extend(second.to_le_bytes());
    }
    record(kind, &body)
}

/// A journal record of kind 4.
pub fn unit_record(node_type: u16, unit: u64, phandle: u32) -> Vec<u8> {
    let mut body = node_type.to_le_bytes().to_vec();
    body.extend(unit.to_le_bytes());
    body.extend(phandle.to_le_bytes());
    record(4, &body)
}

/// A journal record of kind 5, a property's new value, or of kind 6, a deleted property.
pub fn property_record(phandle: u32, name: &[u8], value: Option<&[u8]>) -> Vec<u8> {
    let kind = if value.is_some() { 5 } else { 6 };
    record(kind, &[&phandle.to_le_bytes(), name, &[0], value.unwrap_or(&[])].concat())
}

/// An inventory record.
pub fn inventory_record(flag: u16, kind: u32, index: u32, code: &[u8]) -> Vec<u8> {
    let mut body = flag.to_le_bytes().to_vec();
    body.extend(kind.to_le_bytes());
    body.extend(index.to_le_bytes());
    body.extend(code);
    record(16, &body)
}

/// The places of a buffer's records, as far as their lengths lead; what is left over is one place more.
pub fn record_places(buffer: &[u8]) -> Vec<(usize, usize)> {
    let mut places = Vec::new();
    let mut at = 0;
    while at < buffer.len() {
        let length = match buffer[at..] {
            [low, high, ..] => 2 + usize::from(u16::from_le_bytes([low, high])),
            _ => 2,
        };
        let end = (at + length).min(buffer.len());
        places.push((at, end));
        at = end;
    }
    places
}

const GUARD: usize = 48;
const GUARD_BYTE: u8 = 0xa5;

/// A buffer that is lent to a call, between guard bytes that nobody may write.
#[derive(Clone, PartialEq, Eq)]
pub struct Lent {
    bytes: Vec<u8>,
}

impl Lent {
    pub fn new(content: &[u8]) -> Lent {
        let mut bytes = Vec::with_capacity(content.len() + 2 * GUARD);
        bytes.resize(GUARD, GUARD_BYTE);
        bytes.extend_from_slice(content);
        bytes.resize(content.len() + 2 * GUARD, GUARD_BYTE);
        Lent { bytes }
    }

    pub fn content(&self) -> &[u8] {
        &self.bytes[GUARD..self.bytes.len() - GUARD]
    }

    pub fn content_mut(&mut self) -> &mut [u8] {
        let end = self.bytes.len() - GUARD;
        &mut self.bytes[GUARD..end]
    }

    /// Nobody wrote a guard byte.
    pub fn is_guarded(&self) -> bool {
        let (before, behind) = (&self.bytes[..GUARD], &self.bytes[self.bytes.len() - GUARD..]);
        before.iter().chain(behind).all(|&byte| byte == GUARD_BYTE)
    }

    /// A buffer of its first bytes alone.
    pub fn front(&self, length: usize) -> Lent {
        Lent::new(&self.content()[..length])
    }

    /// Where two buffers of one length first differ, in words, and the bytes of both from there on.
    pub fn first_difference<'a>(&'a self, other: &'a Lent) -> Option<(String, &'a [u8], &'a [u8])> {
        let at = self.bytes.iter().zip(&other.bytes).position(|(left, right)| left != right)?;
        let content_end = self.bytes.len() - GUARD;
        if at < GUARD || at >= content_end {
            let end = (at + 16).min(self.bytes.len());
            return Some((String::from("a guard byte outside"), &self.bytes[at..end], &other.bytes[at..end]));
        }
        let end = (at + 16).min(content_end);
        Some((format!("byte {}", at - GUARD), &self.bytes[at..end], &other.bytes[at..end]))
    }
}
