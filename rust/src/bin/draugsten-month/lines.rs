//! The lines of a text, one after the other, each of a limited length.

use std::io::{self, BufRead, BufReader, Read};

/// The bytes of a line, at the most.
pub const LINE_LIMIT: u64 = 65_536;

pub struct Lines<R> {
    reader: BufReader<R>,
    number: u64,
    bytes: u64,
}

/// A line without its end, and its number, from 1 on; nothing of it, where it is too long.
#[derive(PartialEq, Eq, Debug)]
pub struct Line {
    pub number: u64,
    pub text: Option<Vec<u8>>,
}

impl<R: Read> Lines<R> {
    pub fn new(reader: R) -> Lines<R> {
        Lines { reader: BufReader::new(reader), number: 0, bytes: 0 }
    }

    /// The next line, where there is one.
    pub fn next(&mut self) -> io::Result<Option<Line>> {
        let mut text = vec![];
        let size = (&mut self.reader).take(LINE_LIMIT + 1).read_until(b'\n', &mut text)? as u64;
        if size == 0 {
            return Ok(None);
        }
        self.bytes += size;
        self.number += 1;
        let is_ended = text.last() == Some(&b'\n');
        if is_ended {
            text.pop();
        } else if size > LINE_LIMIT {
            self.bytes += self.reader.skip_until(b'\n')? as u64;
            return Ok(Some(Line { number: self.number, text: None }));
        }
        Ok(Some(Line { number: self.number, text: Some(text) }))
    }

    /// The bytes of the lines so far.
    pub fn bytes(&self) -> u64 {
        self.bytes
    }
}

#[cfg(test)]
mod tests {
    use super::{Line, Lines, LINE_LIMIT};

    /// The lines, and the bytes of all of them.
    fn lines(text: &[u8]) -> (Vec<Option<Vec<u8>>>, u64) {
        let mut lines = Lines::new(text);
        let mut found = vec![];
        while let Some(Line { number, text }) = lines.next().unwrap() {
            found.push(text);
            assert_eq!(number, found.len() as u64);
        }
        (found, lines.bytes())
    }

    #[test]
    fn lines_are_told_apart() {
        let some = |text: &str| Some(text.as_bytes().to_vec());
        assert_eq!(lines(b""), (vec![], 0));
        assert_eq!(lines(b"\n\na"), (vec![some(""), some(""), some("a")], 3));
        assert_eq!(lines(b"a\r\n\xff\n"), (vec![some("a\r"), Some(vec![0xff])], 5));
    }

    #[test]
    fn a_line_that_is_too_long_is_passed_over() {
        let most = LINE_LIMIT as usize;
        for end in ["", "\n"] {
            let longest = vec![b'a'; most];
            let text = [&longest[..], end.as_bytes()].concat();
            assert_eq!(lines(&text), (vec![Some(longest)], text.len() as u64));
        }
        let long = [&vec![b'a'; 3 * most][..], b"\nb"].concat();
        assert_eq!(lines(&long), (vec![None, Some(vec![b'b'])], long.len() as u64));
        assert_eq!(lines(&long[..most + 1]), (vec![None], LINE_LIMIT + 1));
    }
}
