//! The rules and lines of a month's table.

use super::{Coverage, Line, Table};
use crate::library::tables::{Found, Written};
use crate::paper::table::Figures;

/// What is written, and what came of it.
struct Writing {
    figures: Figures,
    digests: usize,
    room: usize,
    written: Written,
}

const WRITES: &[Line<Writing>] = &[
    ("written", |f| f.written.number == 0),
    ("60 no room", |f| f.written.number == 60),
    ("62 digests that are not whole", |f| f.written.number == 62),
    ("written, no session", |f| f.written.number == 0 && f.digests == 0),
    ("written, ten sessions or more", |f| f.written.number == 0 && f.digests >= 320),
    ("written, exactly as long as the buffer", |f| f.written.number == 0 && f.written.length == f.room),
    ("60, one byte too few", |f| f.written.number == 60 && f.written.length == f.room + 1),
    ("60, no buffer", |f| f.written.number == 60 && f.room == 0),
    ("62, no buffer", |f| f.written.number == 62 && f.room == 0),
    ("62, 1 byte too many", |f| f.written.number == 62 && f.digests % 32 == 1),
    ("62, 31 bytes too many", |f| f.written.number == 62 && f.digests % 32 == 31),
    ("a figure 0", |f| f.written.number == 0 && f.figures.contains(&0)),
    ("a figure 2^64 - 1", |f| f.written.number == 0 && f.figures.contains(&u64::MAX)),
    ("all figures of 20 digits", |f| f.written.number == 0 && f.figures.iter().all(|&one| one >= 10u64.pow(19))),
];

/// A text that is read, and what came of it.
struct Reading {
    text: Vec<u8>,
    room: usize,
    found: Found,
}

impl Reading {
    fn is_read(&self) -> bool {
        self.found.number == 0
    }

    fn is_wrong_at(&self, line: u64) -> bool {
        (self.found.number, self.found.line) == (61, line)
    }

    /// The line that is wrong, with its end.
    fn wrong_line(&self) -> &[u8] {
        let mut lines = self.text.split_inclusive(|&byte| byte == b'\n');
        match self.found.line {
            0 => &[],
            line => lines.nth(line as usize - 1).unwrap_or(&[]),
        }
    }

    /// The digits that the wrong line ends with.
    fn wrong_count(&self) -> &[u8] {
        let line = self.wrong_line();
        let line = line.strip_suffix(b"\n").unwrap_or(line);
        let from = line.iter().rposition(|byte| !byte.is_ascii_digit()).map_or(0, |place| place + 1);
        &line[from..]
    }
}

const RULES: [&str; 8] = [
    "read",
    "the first line",
    "the row of a figure",
    "the row of a session",
    "cut off inside the first lines",
    "cut off after a line",
    "cut off inside a session",
    "no room",
];

const READS: &[Line<Reading>] = &[
    ("read, no session", |f| f.is_read() && f.found.sessions == 0),
    ("read, ten sessions or more", |f| f.is_read() && f.found.sessions >= 10),
    ("read, with exactly the room that is due", |f| f.is_read() && f.room as u64 == 32 * f.found.sessions),
    ("read, a figure 2^64 - 1", |f| f.is_read() && f.found.figures.contains(&u64::MAX)),
    ("60, one byte too few", |f| f.found.number == 60 && f.room as u64 + 1 == 32 * f.found.sessions),
    ("60, no buffer", |f| f.found.number == 60 && f.room == 0),
    ("61, no buffer", |f| f.found.number == 61 && f.room == 0),
    ("61, no text", |f| f.is_wrong_at(1) && f.text.is_empty()),
    ("61, the first line cut off", |f| f.is_wrong_at(1) && b"token,status,count\n".starts_with(&f.text)),
    ("61, the first figure", |f| f.is_wrong_at(2)),
    ("61, the last figure", |f| f.is_wrong_at(40)),
    ("61, the first session", |f| f.is_wrong_at(41)),
    ("61, a later session", |f| f.found.line > 41),
    ("61, the earlier form", |f| f.is_wrong_at(37) && f.text.ends_with(b"\n") && f.wrong_line().is_empty()),
    ("61, a carriage return at the end", |f| f.wrong_line().ends_with(b"\r\n")),
    ("61, a line of a newline alone", |f| f.wrong_line() == b"\n"),
    ("61, a zero before a count", |f| f.wrong_count().starts_with(b"0") && f.wrong_count().len() > 1),
    ("61, a count of 2^64", |f| f.wrong_count() == b"18446744073709551616"),
    ("61, a count of 20 digits", |f| f.found.line < 41 && f.wrong_count().len() == 20),
    ("61, a count of 21 digits or more", |f| f.found.line < 41 && f.wrong_count().len() > 20),
    ("61, no count", |f| (2..41).contains(&f.found.line) && f.wrong_line().ends_with(b",\n")),
    ("61, a digest with a capital digit", |f| f.found.line > 40 && f.wrong_line().iter().any(u8::is_ascii_uppercase)),
    ("61, a digest of 63 digits", |f| f.found.line > 40 && f.wrong_line().len() == 74),
    ("61, a digest of 65 digits", |f| f.found.line > 40 && f.wrong_line().len() == 76),
    ("61, the last newline is missing", |f| f.found.number == 61 && f.wrong_line().ends_with(b",1")),
];

pub fn tables() -> [Table; 3] {
    [
        Table::of_lines("tables written", WRITES),
        Table::new("tables read, by rule", RULES.into_iter()),
        Table::of_lines("tables read, lines", READS),
    ]
}

impl Coverage {
    pub fn table_written(&mut self, figures: &Figures, digests: &[u8], room: usize, written: &Written) {
        let facts = Writing { figures: *figures, digests: digests.len(), room, written: *written };
        self.month_tables[0].count_lines(WRITES, &facts);
    }

    pub fn table_read(&mut self, text: &[u8], room: usize, found: &Found, rule: &'static str) {
        self.month_tables[1].add(if rule.is_empty() { RULES[0] } else { rule }, 1);
        self.month_tables[2].count_lines(READS, &Reading { text: text.to_vec(), room, found: *found });
    }
}
