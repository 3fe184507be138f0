//! Files of records, and how it is told that a file cannot be read.

use super::judge::RECORDS_LIMIT;
use super::names::shown;
use std::fs::File;
use std::io::{self, ErrorKind, Read};
use std::path::Path;

/// A journal or an inventory. Of a file that is too long, enough to be too long.
pub fn read_file(what: &str, path: &Path) -> Result<Vec<u8>, String> {
    read(path).map_err(|error| failed(&named(what, path), &error))
}

fn read(path: &Path) -> io::Result<Vec<u8>> {
    let mut bytes = vec![];
    File::open(path)?.take(RECORDS_LIMIT + 1).read_to_end(&mut bytes)?;
    Ok(bytes)
}

pub fn named(what: &str, path: &Path) -> String {
    format!("the {what} {}", shown(path))
}

/// What cannot be read, why, and what helps.
pub fn failed(name: &str, error: &io::Error) -> String {
    let help = match error.kind() {
        ErrorKind::NotFound => "check the name",
        ErrorKind::PermissionDenied => "ask for the right to read it",
        ErrorKind::IsADirectory => "name a file",
        ErrorKind::OutOfMemory => "it needs a machine with more memory",
        _ => "see that it is open, and can be read to its end",
    };
    format!("{name} cannot be read: {error}; {help}")
}

#[cfg(test)]
mod tests {
    use super::{read_file, RECORDS_LIMIT};
    use std::path::Path;

    const HEADER: &str = include_str!("../../../../include/draugsten.h");

    #[test]
    fn of_records_one_byte_too_many_is_read() {
        assert!(HEADER.contains(&format!("#define DRAUGSTEN_RECORDS_LIMIT {RECORDS_LIMIT} ")));
        let read = read_file("journal", Path::new("/dev/zero")).unwrap();
        assert_eq!(read.len() as u64, RECORDS_LIMIT + 1);
    }
}
