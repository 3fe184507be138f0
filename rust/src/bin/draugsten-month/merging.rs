//! A table of --merge: its file, and what is wrong with it.

use crate::digest::digits;
use crate::shared::input::Stream;
use draugsten::table::{self, Digest, NotATable, Table};
use std::io::Read;
use std::path::Path;

/// A table has at most so many bytes: more than 14 million sessions.
const TABLE_LIMIT: u64 = 1 << 30;

/// So many bytes of a file show whether it begins as a table does.
const FRONT: u64 = 64;

/// The lines of a table in the earlier form, which had no sessions.
const EARLIER_LINES: u64 = 36;

/// Why a table is not merged.
#[derive(PartialEq, Eq, Debug)]
pub enum TableError {
    /// It cannot be read.
    Unread(String),
    /// What is wrong with a line.
    Line(u64, String),
    /// What is wrong with the whole.
    Whole(String),
}

/// The table of a file and its sessions.
pub fn read(path: &Path) -> Result<(Table, Vec<Digest>), TableError> {
    let text = read_file(path)?;
    let (table, sessions) = table::read(&text).map_err(|NotATable { line }| wrong(&text, line))?;
    check(&table, sessions.len() as u64).map_err(TableError::Whole)?;
    Ok((table, sessions))
}

/// The bytes of a file. One that does not begin as a table does is not read on.
fn read_file(path: &Path) -> Result<Vec<u8>, TableError> {
    let mut stream = Stream::open("table", Some(path)).map_err(TableError::Unread)?;
    let mut text = vec![];
    read_part(&mut stream, &mut text, FRONT)?;
    if table::read(&text).is_err_and(|wrong| wrong.line == 1) {
        return Ok(text);
    }
    read_part(&mut stream, &mut text, TABLE_LIMIT + 1 - FRONT)?;
    match text.len() as u64 > TABLE_LIMIT {
        true => Err(TableError::Whole(format!("it has more than {TABLE_LIMIT} bytes, the most that --merge takes"))),
        false => Ok(text),
    }
}

fn read_part(stream: &mut Stream, text: &mut Vec<u8>, most: u64) -> Result<(), TableError> {
    let read = stream.file().take(most).read_to_end(text);
    read.map(|_| ()).map_err(|error| TableError::Unread(stream.failed(&error, text.len() as u64)))
}

/// What is wrong with a text that has no table's line at this number.
fn wrong(text: &[u8], line: u64) -> TableError {
    let (row, lines) = (row(line), text.split_inclusive(|byte| *byte == b'\n').count() as u64);
    match lines {
        EARLIER_LINES if line == EARLIER_LINES + 1 => TableError::Whole(String::from(
            "it is of the earlier form, without its sessions; make it again from its list",
        )),
        _ if lines < line => TableError::Whole(format!("it ends before line {line}, {row}; make it again")),
        _ => TableError::Line(line, format!("it is not {row}, as --csv writes it; make the table again")),
    }
}

/// What a table has at a line, with words in the places of its number and its digest.
fn row(line: u64) -> String {
    let digest = [0; 32];
    let text = String::from_utf8_lossy(&table::write(&Table::default(), &[digest])).into_owned();
    let rows: Vec<&str> = text.lines().collect();
    let row = rows[rows.len().min(line as usize) - 1];
    match row.strip_suffix('0') {
        Some(label) => format!("{label}N"),
        None => row.replace(&digits(&digest), "DIGEST"),
    }
}

/// Refuses counts that no month has: it has a row for each session that was added, and their calls agreed.
fn check(table: &Table, rows: u64) -> Result<(), String> {
    let calls: u128 = table.figures.token_calls.into_iter().map(u128::from).sum();
    match *table {
        Table { added, .. } if added != rows => {
            Err(format!("sessions,added is {added}, and it has {rows} rows of sessions; make it again"))
        }
        Table { agreed, .. } if u128::from(agreed) < calls => {
            Err(format!("calls,agreed is {agreed}, and its tokens have {calls} calls; make it again"))
        }
        _ => Ok(()),
    }
}

#[cfg(test)]
mod tests {
    use super::{check, row, wrong, TableError, EARLIER_LINES};
    use draugsten::table::{self, Table};

    #[test]
    fn a_row_is_that_of_the_line() {
        let rows =
            [(1, "token,status,count"), (2, "1,0,N"), (33, "4,all,N"), (36, "available,,N"), (37, "sessions,added,N")];
        for (line, expected) in
            rows.into_iter().chain([(40, "calls,agreed,N"), (41, "session,DIGEST,1"), (99, "session,DIGEST,1")])
        {
            assert_eq!(row(line), expected);
        }
    }

    #[test]
    fn what_is_wrong_is_told() {
        let text = table::write(&Table::default(), &[]);
        let lines: Vec<&[u8]> = text.split_inclusive(|byte| *byte == b'\n').collect();
        let of = |count: u64| wrong(&lines[..count as usize].concat(), count + 1);
        let whole = |what: &str| TableError::Whole(String::from(what));
        assert_eq!(
            of(EARLIER_LINES),
            whole("it is of the earlier form, without its sessions; make it again from its list")
        );
        assert_eq!(of(35), whole("it ends before line 36, available,,N; make it again"));
        assert_eq!(of(37), whole("it ends before line 38, sessions,refused,N; make it again"));
        assert_eq!(of(0), whole("it ends before line 1, token,status,count; make it again"));
        let line =
            TableError::Line(37, String::from("it is not sessions,added,N, as --csv writes it; make the table again"));
        assert_eq!(wrong(&text, 37), line);
    }

    #[test]
    fn counts_of_no_month_are_refused() {
        let mut table = Table { added: 2, agreed: 3, ..Table::default() };
        table.figures.token_calls = [1, 0, 2, 0];
        assert_eq!(check(&table, 2), Ok(()));
        assert_eq!(
            check(&table, 1),
            Err(String::from("sessions,added is 2, and it has 1 rows of sessions; make it again"))
        );
        table.agreed = 2;
        assert_eq!(
            check(&table, 2),
            Err(String::from("calls,agreed is 2, and its tokens have 3 calls; make it again"))
        );
        table.figures.token_calls = [u64::MAX; 4];
        assert!(check(&table, 2).unwrap_err().contains("have 73786976294838206460 calls"));
    }
}
