//! The readings of a month's table, by docs/DECISIONS.md, "The table of a month".

use crate::library::tables::{Found, Written};
use crate::paper::table::Figures;
use crate::subject::Subject;
use crate::tables::buffer;

/// The text of the figures and digests below.
const TEXT: &str = "token,status,count
1,0,0
1,1,1
1,-1,2
1,-3,3
1,-4,4
1,-9,5
1,-10,6
1,all,28
2,0,7
2,1,8
2,-1,9
2,-3,10
2,-4,11
2,-9,12
2,-10,13
2,all,29
3,0,14
3,1,15
3,-1,16
3,-3,17
3,-4,18
3,-9,19
3,-10,20
3,all,30
4,0,21
4,1,22
4,-1,23
4,-3,24
4,-4,25
4,-9,26
4,-10,27
4,all,31
operations,,32
used,,33
available,,18446744073709551615
sessions,added,35
sessions,refused,36
sessions,unread,37
calls,agreed,38
session,000102030405060708090a0b0c0d0e0f101112131415161718191a1b1c1d1e1f,1
session,f7f6f5f4f3f2f1f0efeeedecebeae9e8e7e6e5e4e3e2e1e0dfdedddcdbdad9d8,1
";

/// The bytes of the text, and of each row of a session.
const LENGTH: usize = 544;
const SESSION: usize = 75;

/// Each figure by its place, but for one.
fn figures() -> Figures {
    std::array::from_fn(|place| if place == 34 { u64::MAX } else { place as u64 })
}

fn digests() -> Vec<u8> {
    (0..32).chain((0xd8..0xf8).rev()).collect()
}

/// Figures and digests, the bytes of the buffer, and what writing has to come to: the length of the text, or a number and the
/// length that it gives.
struct WriteReading {
    name: &'static str,
    digests: Vec<u8>,
    room: usize,
    told: Result<&'static str, (u32, usize)>,
}

/// A text, the bytes for its digests, and what reading has to come to: the number of sessions, or a number with the line or
/// the number of sessions.
struct ReadReading {
    name: &'static str,
    text: String,
    room: usize,
    told: Result<u64, (u32, u64)>,
}

pub struct TableReadings {
    writes: Vec<WriteReading>,
    reads: Vec<ReadReading>,
}

pub fn readings() -> TableReadings {
    TableReadings {
        writes: writes(),
        reads: [whole(), changed(), counts(), sessions()].into_iter().flatten().collect(),
    }
}

impl TableReadings {
    pub fn text(&self) -> String {
        format!("{} tables written and {} read", self.writes.len(), self.reads.len())
    }

    /// What a side does otherwise than written.
    pub fn failures<'a>(&'a self, subject: &'a dyn Subject) -> impl Iterator<Item = Option<String>> + 'a {
        let of_writes = self.writes.iter().map(|reading| reading.failure(subject));
        of_writes.chain(self.reads.iter().map(|reading| reading.failure(subject)))
    }
}

impl WriteReading {
    fn failure(&self, subject: &dyn Subject) -> Option<String> {
        let mut out = buffer(self.room);
        let mut after = out.content().to_vec();
        let given = subject.tabling().write(&figures(), &self.digests, out.content_mut());
        let written = match self.told {
            Ok(text) => {
                after[..text.len()].copy_from_slice(text.as_bytes());
                Written { number: 0, length: text.len() }
            }
            Err((number, length)) => Written { number, length },
        };
        let same = given == written && out.content() == after && out.is_guarded();
        (!same).then(|| format!("fixed reading '{}' on {}: {given:?}, written {written:?}", self.name, subject.name()))
    }
}

impl ReadReading {
    fn failure(&self, subject: &dyn Subject) -> Option<String> {
        let mut out = buffer(self.room);
        let mut after = out.content().to_vec();
        let (given, _) = subject.tabling().read(self.text.as_bytes(), out.content_mut());
        let written = match self.told {
            Ok(sessions) => {
                let length = 32 * sessions as usize;
                after[..length].copy_from_slice(&digests()[..length]);
                Found { number: 0, line: 0, sessions, figures: figures() }
            }
            Err((60, sessions)) => Found { number: 60, line: 0, sessions, figures: [0; 39] },
            Err((number, line)) => Found { number, line, sessions: 0, figures: [0; 39] },
        };
        let same = given == written && out.content() == after && out.is_guarded();
        (!same).then(|| format!("fixed reading '{}' on {}: {given:?}, written {written:?}", self.name, subject.name()))
    }
}

fn writes() -> Vec<WriteReading> {
    let of = |name, digests: usize, room, told| WriteReading {
        name,
        digests: self::digests()[..digests].to_vec(),
        room,
        told,
    };
    vec![
        of("a table", 64, LENGTH, Ok(TEXT)),
        of("a table, and more room", 64, LENGTH + 9, Ok(TEXT)),
        of("one byte too few", 64, LENGTH - 1, Err((60, LENGTH))),
        of("no buffer", 64, 0, Err((60, LENGTH))),
        of("one session", 32, LENGTH, Ok(&TEXT[..LENGTH - SESSION])),
        of("no session", 0, LENGTH, Ok(&TEXT[..LENGTH - 2 * SESSION])),
        of("no session, one byte too few", 0, LENGTH - 2 * SESSION - 1, Err((60, LENGTH - 2 * SESSION))),
        of("63 bytes of digests", 63, LENGTH, Err((62, 0))),
        of("33 bytes of digests", 33, LENGTH, Err((62, 0))),
        of("1 byte of digests, and no buffer", 1, 0, Err((62, 0))),
    ]
}

fn read(name: &'static str, text: &str, room: usize, told: Result<u64, (u32, u64)>) -> ReadReading {
    ReadReading { name, text: String::from(text), room, told }
}

fn whole() -> Vec<ReadReading> {
    vec![
        read("a table", TEXT, 64, Ok(2)),
        read("a table, and more room", TEXT, 70, Ok(2)),
        read("one byte too few for digests", TEXT, 63, Err((60, 2))),
        read("no buffer for digests", TEXT, 0, Err((60, 2))),
        read("one session", &TEXT[..LENGTH - SESSION], 32, Ok(1)),
        read("no session, and no buffer", &TEXT[..LENGTH - 2 * SESSION], 0, Ok(0)),
        read("no text", "", 64, Err((61, 1))),
        read("the first line alone", &TEXT[..19], 64, Err((61, 2))),
        read("the first line without its newline", &TEXT[..18], 64, Err((61, 1))),
        read("no newline at the end", &TEXT[..LENGTH - 1], 64, Err((61, 42))),
        read("no newline at the end, and no buffer", &TEXT[..LENGTH - 1], 0, Err((61, 42))),
        read("no newline after the last figure", &TEXT[..LENGTH - 2 * SESSION - 1], 64, Err((61, 40))),
    ]
}

/// The text with one part replaced, which is refused at this line.
fn with(name: &'static str, part: &str, other: &str, line: u64) -> ReadReading {
    read(name, &TEXT.replacen(part, other, 1), 64, Err((61, line)))
}

fn changed() -> Vec<ReadReading> {
    vec![
        with("another first line", "count", "Count", 1),
        with("an empty line first", "token", "\ntoken", 1),
        with("CR LF at the first line", "count\n", "count\r\n", 1),
        with("CR LF at a row", "1,1,1\n", "1,1,1\r\n", 3),
        with("a row left out", "1,1,1\n", "", 3),
        with("a row twice", "1,1,1\n", "1,1,1\n1,1,1\n", 4),
        with("two rows exchanged", "1,-9,5\n1,-10,6\n", "1,-10,6\n1,-9,5\n", 7),
        with("another status", "1,-10,6", "1,-11,6", 8),
        with("another token", "4,all", "5,all", 33),
        with("the earlier form", &TEXT[TEXT.find("sessions,added").unwrap_or(0)..], "", 37),
        read("CR LF at every line", &TEXT.replace('\n', "\r\n"), 64, Err((61, 1))),
    ]
}

fn counts() -> Vec<ReadReading> {
    vec![
        with("a zero before a count", "1,1,1\n", "1,1,01\n", 3),
        with("two zeros", "1,0,0\n", "1,0,00\n", 2),
        with("a plus", "1,1,1\n", "1,1,+1\n", 3),
        with("a minus", "1,0,0\n", "1,0,-0\n", 2),
        with("a space", "1,1,1\n", "1,1,1 \n", 3),
        with("no count", "1,1,1\n", "1,1,\n", 3),
        with("two counts", "1,1,1\n", "1,1,1,1\n", 3),
        with("2^64", "18446744073709551615", "18446744073709551616", 36),
        with("2^64 + 9", "18446744073709551615", "18446744073709551625", 36),
        with("ten times 2^64 - 1", "18446744073709551615", "184467440737095516150", 36),
        with("2^128", "18446744073709551615", "340282366920938463463374607431768211456", 36),
    ]
}

fn sessions() -> Vec<ReadReading> {
    vec![
        with("a capital digit", "0a0b0c", "0A0b0c", 41),
        with("a digit that is none", "session,f7", "session,g7", 42),
        with("63 digits", "session,00", "session,0", 41),
        with("65 digits", "session,f7", "session,ff7", 42),
        with("a session twice", "d8,1\n", "d8,2\n", 42),
        with("an empty line at the end", "d8,1\n", "d8,1\n\n", 43),
        with("a byte at the end", "d8,1\n", "d8,1\nx", 43),
        with("a figure among the sessions", "session,f7", "calls,agreed,38\nsession,f7", 42),
    ]
}
