//! Which session one is: the digest of all that its calls rest on, and of its trace.

use crate::shared::sha256::Sha256;
use draugsten::table::Digest;
use std::io::{self, Read};

/// SHA-256 over these bytes: the journal's length and the journal, the inventory's length and the inventory, the
/// edition, the length of memory, the number of its bytes up to the last that is not zero, those bytes, and the trace.
/// A number is little-endian and has eight bytes, the edition four. The trace ends where the bytes end, so it needs no
/// length.
pub struct SessionHash {
    hash: Sha256,
}

impl SessionHash {
    /// Without a byte of the trace. Of memory its length is given, and its first bytes; all after those are zero.
    pub fn new(journal: &[u8], inventory: &[u8], edition: u32, size: usize, memory: &[u8]) -> SessionHash {
        let mut hash = Sha256::new();
        for records in [journal, inventory] {
            hash.update(&(records.len() as u64).to_le_bytes());
            hash.update(records);
        }
        let filled = filled(memory);
        hash.update(&edition.to_le_bytes());
        hash.update(&(size as u64).to_le_bytes());
        hash.update(&(filled.len() as u64).to_le_bytes());
        hash.update(filled);
        SessionHash { hash }
    }

    /// A trace that is hashed as it is read.
    pub fn over<R: Read>(&mut self, trace: R) -> Hashed<'_, R> {
        Hashed { hash: &mut self.hash, trace }
    }

    /// The digest of a session whose trace ends here.
    pub fn digest(self) -> Digest {
        self.hash.digest()
    }
}

/// A digest in hexadecimal digits.
pub fn digits(digest: &Digest) -> String {
    digest.iter().map(|byte| format!("{byte:02x}")).collect()
}

/// The bytes up to the last that is not zero. Pages of zeros are passed over at once.
fn filled(memory: &[u8]) -> &[u8] {
    let is_filled = |page: &&[u8]| page.iter().fold(0, |any, byte| any | byte) != 0;
    let pages = memory.chunks(4096).rev();
    let empty: usize = pages.take_while(|page| !is_filled(page)).map(<[u8]>::len).sum();
    let rest = &memory[..memory.len() - empty];
    &rest[..rest.iter().rposition(|byte| *byte != 0).map_or(0, |last| last + 1)]
}

pub struct Hashed<'a, R> {
    hash: &'a mut Sha256,
    trace: R,
}

impl<R: Read> Read for Hashed<'_, R> {
    fn read(&mut self, buffer: &mut [u8]) -> io::Result<usize> {
        let size = self.trace.read(buffer)?;
        self.hash.update(&buffer[..size]);
        Ok(size)
    }
}

#[cfg(test)]
mod tests {
    use super::{filled, SessionHash};
    use crate::shared::sha256::Sha256;
    use draugsten::table::Digest;
    use std::io::Read;

    fn digest(journal: &[u8], inventory: &[u8], edition: u32, memory: &[u8], mut trace: &[u8]) -> Digest {
        let mut hash = SessionHash::new(journal, inventory, edition, memory.len(), memory);
        hash.over(&mut trace).read_to_end(&mut vec![]).unwrap();
        hash.digest()
    }

    #[test]
    fn a_digest_is_over_these_bytes() {
        let mut hash = Sha256::new();
        hash.update(&[2, 0, 0, 0, 0, 0, 0, 0, 11, 12, 1, 0, 0, 0, 0, 0, 0, 0, 21, 4, 3, 2, 1]);
        hash.update(&[5, 0, 0, 0, 0, 0, 0, 0, 3, 0, 0, 0, 0, 0, 0, 0, 31, 0, 33, 41, 42, 43]);
        assert_eq!(digest(&[11, 12], &[21], 0x0102_0304, &[31, 0, 33, 0, 0], &[41, 42, 43]), hash.digest());
    }

    #[test]
    fn sessions_that_differ_have_different_digests() {
        let mut digests = vec![
            digest(&[1], &[1], 1, &[1], &[1]),
            digest(&[], &[1, 1], 1, &[1], &[1]),
            digest(&[1, 1], &[], 1, &[1], &[1]),
            digest(&[1], &[1], 2, &[1], &[1]),
            digest(&[1], &[1], 1, &[1, 0], &[1]),
            digest(&[1], &[1], 1, &[0, 1], &[1]),
            digest(&[1], &[1], 1, &[0], &[1]),
            digest(&[1], &[1], 1, &[], &[1]),
            digest(&[1], &[1], 1, &[1], &[]),
            digest(&[1], &[1], 1, &[1], &[1, 0]),
            digest(&[1], &[1], 1, &[1, 1], &[]),
        ];
        let all = digests.len();
        digests.sort();
        digests.dedup();
        assert_eq!(digests.len(), all);
    }

    #[test]
    fn zeros_need_not_be_given() {
        let by_size = |size| SessionHash::new(&[1], &[], 7, size, &[]).digest();
        for size in [0, 1, 4096, 10_000] {
            assert_eq!(digest(&[1], &[], 7, &vec![0; size], &[]), by_size(size));
        }
    }

    #[test]
    fn memory_is_filled_up_to_its_last_byte_that_is_not_zero() {
        for size in [1, 4095, 4096, 4097, 12_288] {
            let mut memory = vec![0; size];
            assert!(filled(&memory).is_empty());
            for place in [0, size / 2, size - 1] {
                memory[place] = 1;
                assert_eq!(filled(&memory).len(), place + 1);
            }
        }
        assert!(filled(&[]).is_empty());
    }
}
