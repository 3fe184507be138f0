//! A small generator of its own, so that every run measures the same bytes.

pub struct Xorshift(u64);

impl Xorshift {
    pub fn new() -> Xorshift {
        Xorshift(0x9e37_79b9_7f4a_7c15)
    }

    pub fn next(&mut self) -> u64 {
        self.0 ^= self.0 << 13;
        self.0 ^= self.0 >> 7;
        self.0 ^= self.0 << 17;
        self.0
    }

    pub fn below(&mut self, n: u64) -> u16 {
        ((self.next() >> 32) % n) as u16
    }
}
