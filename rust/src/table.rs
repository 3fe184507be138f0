//! The table of a month: the text of totals and of which sessions are in them, which one machine writes and another reads.
//!
//! ```
//! use draugsten::table::{self, NotATable, Table};
//! use draugsten::Totals;
//!
//! let totals = Totals::none();
//! let month = Table { figures: totals.figures(), added: 1, refused: 0, unread: 0, agreed: 0 };
//! let text = table::write(&month, &[[0xa9; 32]]);
//! assert!(text.starts_with(b"token,status,count\n1,0,0\n1,1,0\n1,-1,0\n"));
//! assert_eq!(table::read(&text), Ok((month, vec![[0xa9; 32]])));
//!
//! // The second row is missing.
//! let other = b"token,status,count\n1,0,0\n1,-1,0\n";
//! assert_eq!(table::read(other), Err(NotATable { line: 3 }));
//! ```

use crate::ffi::tables;
use crate::month::Figures;
use crate::text::words;
use std::fmt;

/// The bytes of a digest.
pub const DIGEST_SIZE: usize = 32;

/// Which session one is. `./draugsten month` has a SHA-256 there, of all that its calls rest on and of its trace.
pub type Digest = [u8; DIGEST_SIZE];

/// A row of a session has so many bytes.
const SESSION_ROW: usize = 75;

/// The figures of a month, the sessions that were added, refused and unread, and the calls of those that were added.
#[derive(Clone, Copy, PartialEq, Eq, Debug, Default)]
pub struct Table {
    /// Those of the totals.
    pub figures: Figures,
    /// The sessions that are in them.
    pub added: u64,
    /// The sessions that were refused.
    pub refused: u64,
    /// The sessions that could not be read.
    pub unread: u64,
    /// The calls of the sessions that are in the totals.
    pub agreed: u64,
}

impl Table {
    fn of(flat: tables::Table) -> Table {
        let tables::Table { totals, added, refused, unread, agreed } = flat;
        Table { figures: Figures::of(totals), added, refused, unread, agreed }
    }

    fn flat(&self) -> tables::Table {
        let Table { figures, added, refused, unread, agreed } = *self;
        tables::Table { totals: figures.flat(), added, refused, unread, agreed }
    }
}

/// A text that was not written as a table's.
#[derive(Clone, Copy, PartialEq, Eq, Debug)]
pub struct NotATable {
    /// The first line, from 1 on, that is not as it is written.
    pub line: u64,
}

impl fmt::Display for NotATable {
    fn fmt(&self, f: &mut fmt::Formatter<'_>) -> fmt::Result {
        write!(f, "line {}: {}", self.line, words("TABLE_NUMBER", 61))
    }
}

impl std::error::Error for NotATable {}

/// Why a table is not written to a buffer, or not read with one. The buffer is as it was.
#[derive(Clone, Copy, PartialEq, Eq, Debug)]
pub enum TableError {
    /// The buffer is too short.
    NoRoom {
        /// The bytes that it needs.
        needed: usize,
    },
    /// The text was not written as a table's.
    NotATable(NotATable),
    /// The length of the digests is no multiple of 32.
    Digests,
}

impl fmt::Display for TableError {
    fn fmt(&self, f: &mut fmt::Formatter<'_>) -> fmt::Result {
        match self {
            TableError::NoRoom { needed } => write!(f, "{}; it needs {needed} bytes", words("TABLE_NUMBER", 60)),
            TableError::NotATable(wrong) => wrong.fmt(f),
            TableError::Digests => f.write_str(words("TABLE_NUMBER", 62)),
        }
    }
}

impl std::error::Error for TableError {}

/// The text of a table, and a row for each of its sessions.
pub fn write(table: &Table, sessions: &[Digest]) -> Vec<u8> {
    let digests = sessions.as_flattened();
    let mut text = vec![0; tables::write(table.flat(), digests, &mut []).length];
    let written = write_to(table, digests, &mut text);
    assert_eq!(written, Ok(text.len()), "the library writes a text of the length that it gave");
    text
}

/// Writes the text of a table, and of the digests of its sessions, 32 bytes each, to the front of a buffer, and gives the
/// text's length. Bytes after the text stay as they were.
pub fn write_to(table: &Table, digests: &[u8], out: &mut [u8]) -> Result<usize, TableError> {
    let written = tables::write(table.flat(), digests, out);
    match written.number {
        0 => Ok(written.length),
        60 => Err(TableError::NoRoom { needed: written.length }),
        62 => Err(TableError::Digests),
        number => unreachable!("the library gives no number {number}"),
    }
}

/// The table of a text that was written, and the digests of its sessions; or the line that shows that it is none.
pub fn read(text: &[u8]) -> Result<(Table, Vec<Digest>), NotATable> {
    let mut digests = vec![[0; DIGEST_SIZE]; text.len() / SESSION_ROW];
    match read_to(text, digests.as_flattened_mut()) {
        Ok((table, sessions)) => {
            digests.truncate(sessions);
            Ok((table, digests))
        }
        Err(TableError::NotATable(wrong)) => Err(wrong),
        Err(error) => unreachable!("the digests have room for a session in each row: {error}"),
    }
}

/// Reads the table of a text that was written, and stores the digests of its sessions, 32 bytes each, at the front of a
/// buffer, whose other bytes stay as they were. Gives the table and the number of sessions.
pub fn read_to(text: &[u8], digests: &mut [u8]) -> Result<(Table, usize), TableError> {
    let found = tables::read(text, digests);
    // A session has more bytes in the text than in its digest, so no number of them passes the largest.
    let sessions = found.sessions as usize;
    match found.number {
        0 => Ok((Table::of(found.table), sessions)),
        60 => Err(TableError::NoRoom { needed: DIGEST_SIZE * sessions }),
        61 => Err(TableError::NotATable(NotATable { line: found.line })),
        number => unreachable!("the library gives no number {number}"),
    }
}

#[cfg(test)]
mod tests;
