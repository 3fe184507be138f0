//! A file from where it is not taken yet, over a buffer of one size.

use std::io::{self, ErrorKind, Read};

/// Two records of any length take no more bytes: a length has two bytes, and does not count itself.
const LONGEST: usize = 2 * (2 + 65_535);
const BUFFER: usize = 4 * LONGEST;

pub struct Rest<R> {
    input: R,
    buffer: Box<[u8]>,
    start: usize,
    end: usize,
    is_whole: bool,
    offset: u64,
}

impl<R: Read> Rest<R> {
    pub fn new(input: R) -> Rest<R> {
        Rest { input, buffer: vec![0; BUFFER].into(), start: 0, end: 0, is_whole: false, offset: 0 }
    }

    /// The bytes that are not taken: as many as two records may have, or all that the file has.
    pub fn bytes(&mut self) -> io::Result<&[u8]> {
        if self.end - self.start < LONGEST && !self.is_whole {
            self.buffer.copy_within(self.start..self.end, 0);
            (self.start, self.end) = (0, self.end - self.start);
            self.fill()?;
        }
        Ok(&self.buffer[self.start..self.end])
    }

    /// Reads until the buffer is full or the file ends.
    fn fill(&mut self) -> io::Result<()> {
        while self.end < BUFFER && !self.is_whole {
            match self.input.read(&mut self.buffer[self.end..]) {
                Ok(0) => self.is_whole = true,
                Ok(size) => self.end += size,
                Err(error) if error.kind() == ErrorKind::Interrupted => {}
                Err(error) => return Err(error),
            }
        }
        Ok(())
    }

    /// Takes so many bytes, which are there.
    pub fn take(&mut self, size: usize) {
        self.start += size;
        self.offset += size as u64;
    }

    /// The bytes that were taken.
    pub fn offset(&self) -> u64 {
        self.offset
    }

    /// The bytes that were read.
    pub fn read(&self) -> u64 {
        self.offset + (self.end - self.start) as u64
    }
}

#[cfg(test)]
mod tests {
    use super::{Rest, LONGEST};
    use std::io::{self, ErrorKind, Read};

    /// Gives few bytes at a time, and is interrupted in between.
    struct Slow(Vec<u8>, bool);

    impl Read for Slow {
        fn read(&mut self, buffer: &mut [u8]) -> io::Result<usize> {
            self.1 = !self.1;
            let size = buffer.len().min(self.0.len()).min(999);
            match self.1 {
                true => Err(ErrorKind::Interrupted.into()),
                false => {
                    buffer[..size].copy_from_slice(&self.0[..size]);
                    self.0.drain(..size);
                    Ok(size)
                }
            }
        }
    }

    #[test]
    fn all_bytes_come_in_order() {
        let all: Vec<u8> = (0..900_000u32).map(|number| (number % 251) as u8).collect();
        let mut rest = Rest::new(Slow(all.clone(), false));
        let mut found = vec![];
        for size in (1..).map(|number| 1 + number * 7919 % 40_000) {
            let bytes = rest.bytes().unwrap();
            let left = all.len() - found.len();
            assert!(bytes.len() >= LONGEST.min(left));
            let size = size.min(bytes.len());
            found.extend_from_slice(&bytes[..size]);
            rest.take(size);
            assert_eq!(rest.offset(), found.len() as u64);
            if size == 0 {
                break;
            }
        }
        assert!(found == all && rest.read() == all.len() as u64);
    }

    #[test]
    fn an_error_is_given_on() {
        struct Broken;
        impl Read for Broken {
            fn read(&mut self, _: &mut [u8]) -> io::Result<usize> {
                Err(ErrorKind::PermissionDenied.into())
            }
        }
        assert_eq!(Rest::new(Broken).bytes().unwrap_err().kind(), ErrorKind::PermissionDenied);
    }
}
