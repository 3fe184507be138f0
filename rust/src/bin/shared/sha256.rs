//! SHA-256, as FIPS 180-4 gives it.

const BLOCK: usize = 64;

/// The words of a digest before the first block: 32 bits of the square roots of the first 8 primes, after the point.
#[rustfmt::skip]
const START: [u32; 8] = [
    0x6a09e667, 0xbb67ae85, 0x3c6ef372, 0xa54ff53a, 0x510e527f, 0x9b05688c, 0x1f83d9ab, 0x5be0cd19,
];

/// A word for each round: 32 bits of the cube roots of the first 64 primes, after the point.
#[rustfmt::skip]
const ROUNDS: [u32; 64] = [
    0x428a2f98, 0x71374491, 0xb5c0fbcf, 0xe9b5dba5, 0x3956c25b, 0x59f111f1, 0x923f82a4, 0xab1c5ed5,
    0xd807aa98, 0x12835b01, 0x243185be, 0x550c7dc3, 0x72be5d74, 0x80deb1fe, 0x9bdc06a7, 0xc19bf174,
    0xe49b69c1, 0xefbe4786, 0x0fc19dc6, 0x240ca1cc, 0x2de92c6f, 0x4a7484aa, 0x5cb0a9dc, 0x76f988da,
    0x983e5152, 0xa831c66d, 0xb00327c8, 0xbf597fc7, 0xc6e00bf3, 0xd5a79147, 0x06ca6351, 0x14292967,
    0x27b70a85, 0x2e1b2138, 0x4d2c6dfc, 0x53380d13, 0x650a7354, 0x766a0abb, 0x81c2c92e, 0x92722c85,
    0xa2bfe8a1, 0xa81a664b, 0xc24b8b70, 0xc76c51a3, 0xd192e819, 0xd6990624, 0xf40e3585, 0x106aa070,
    0x19a4c116, 0x1e376c08, 0x2748774c, 0x34b0bcb5, 0x391c0cb3, 0x4ed8aa4a, 0x5b9cca4f, 0x682e6ff3,
    0x748f82ee, 0x78a5636f, 0x84c87814, 0x8cc70208, 0x90befffa, 0xa4506ceb, 0xbef9a3f7, 0xc67178f2,
];

/// The digest of bytes that come piece by piece.
pub struct Sha256 {
    words: [u32; 8],
    /// Begins with the bytes of a block that is not full yet.
    block: [u8; BLOCK],
    /// The bytes so far.
    size: u64,
}

impl Sha256 {
    pub fn new() -> Sha256 {
        Sha256 { words: START, block: [0; BLOCK], size: 0 }
    }

    pub fn update(&mut self, bytes: &[u8]) {
        let used = self.used();
        self.size += bytes.len() as u64;
        let (front, rest) = bytes.split_at(bytes.len().min((BLOCK - used) % BLOCK));
        self.block[used..used + front.len()].copy_from_slice(front);
        if used > 0 && used + front.len() == BLOCK {
            compress(&mut self.words, &self.block);
        }
        let (blocks, rest) = rest.as_chunks();
        for block in blocks {
            compress(&mut self.words, block);
        }
        if !rest.is_empty() {
            self.block[..rest.len()].copy_from_slice(rest);
        }
    }

    /// The digest of all bytes: after them come one bit, zeros, and the number of their bits at the end of a block.
    pub fn digest(mut self) -> [u8; 32] {
        let mut end = [0; BLOCK + 8];
        end[0] = 0x80;
        let place = 1 + (2 * BLOCK - 9 - self.used()) % BLOCK;
        end[place..place + 8].copy_from_slice(&(8 * self.size).to_be_bytes());
        self.update(&end[..place + 8]);
        let mut digest = [0; 32];
        for (place, word) in digest.as_chunks_mut().0.iter_mut().zip(self.words) {
            *place = word.to_be_bytes();
        }
        digest
    }

    /// The bytes of the block that is not full yet.
    fn used(&self) -> usize {
        (self.size % BLOCK as u64) as usize
    }
}

/// Takes a block into the words of a digest.
fn compress(words: &mut [u32; 8], block: &[u8; BLOCK]) {
    let [mut a, mut b, mut c, mut d, mut e, mut f, mut g, mut h] = *words;
    for (word, round) in schedule(block).iter().zip(&ROUNDS) {
        let chosen = g ^ (e & (f ^ g));
        let turned = e.rotate_right(6) ^ e.rotate_right(11) ^ e.rotate_right(25);
        let first = h.wrapping_add(turned).wrapping_add(chosen).wrapping_add(*round).wrapping_add(*word);
        let major = (a & b) ^ (a & c) ^ (b & c);
        let second = (a.rotate_right(2) ^ a.rotate_right(13) ^ a.rotate_right(22)).wrapping_add(major);
        (h, g, f, e) = (g, f, e, d.wrapping_add(first));
        (d, c, b, a) = (c, b, a, first.wrapping_add(second));
    }
    for (word, more) in words.iter_mut().zip([a, b, c, d, e, f, g, h]) {
        *word = word.wrapping_add(more);
    }
}

/// The words of a block, and those that are made of them.
fn schedule(block: &[u8; BLOCK]) -> [u32; 64] {
    let mut words = [0; 64];
    for (word, bytes) in words.iter_mut().zip(block.as_chunks().0) {
        *word = u32::from_be_bytes(*bytes);
    }
    for at in 16..64 {
        let (early, late) = (words[at - 15], words[at - 2]);
        let early = early.rotate_right(7) ^ early.rotate_right(18) ^ (early >> 3);
        let late = late.rotate_right(17) ^ late.rotate_right(19) ^ (late >> 10);
        words[at] = late.wrapping_add(words[at - 7]).wrapping_add(early).wrapping_add(words[at - 16]);
    }
    words
}

#[cfg(test)]
mod tests {
    use super::Sha256;

    /// The digest of bytes that come in pieces of so many.
    fn digest(bytes: &[u8], piece: usize) -> String {
        let mut hash = Sha256::new();
        bytes.chunks(piece).for_each(|part| hash.update(part));
        hash.digest().iter().map(|byte| format!("{byte:02x}")).collect()
    }

    /// The messages that FIPS 180-4 has examples of, the empty one, and a million of one letter.
    #[test]
    fn the_examples_of_the_standard() {
        let million = "a".repeat(1_000_000);
        let cases = [
            ("", "e3b0c44298fc1c149afbf4c8996fb92427ae41e4649b934ca495991b7852b855"),
            ("abc", "ba7816bf8f01cfea414140de5dae2223b00361a396177a9cb410ff61f20015ad"),
            (
                "abcdbcdecdefdefgefghfghighijhijkijkljklmklmnlmnomnopnopq",
                "248d6a61d20638b8e5c026930c3e6039a33ce45964ff2167f6ecedd419db06c1",
            ),
            (
                "abcdefghbcdefghicdefghijdefghijkefghijklfghijklmghijklmnhijklmnoijklmnopjklmnopqklmnopqrlmnopqrsmnopqrstnopqrstu",
                "cf5b16a778af8380036ce59e7b0492370b249b11e8f07a51afac45037afee9d1",
            ),
            (&million, "cdc76e5c9914fb9281a1c7e284d73e67f1809a48a497200e046d39ccc7112cd0"),
        ];
        for (text, expected) in cases {
            for piece in [1, 3, 63, 64, 65, 127, 1000, 1_000_000] {
                assert_eq!(digest(text.as_bytes(), piece), expected);
            }
        }
    }

    #[test]
    fn pieces_may_be_cut_anywhere() {
        let bytes: Vec<u8> = (0..=255).collect();
        for size in 0..bytes.len() {
            let whole = digest(&bytes[..size], 256);
            for piece in [1, 7, 55, 56, 63, 64, 65, 120] {
                assert_eq!(digest(&bytes[..size], piece), whole, "{size} in pieces of {piece}");
            }
        }
    }
}
