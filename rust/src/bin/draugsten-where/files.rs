//! The two files.

use crate::shared::records::{failed, named};
use std::fs::File;
use std::io::{self, Read};
use std::path::Path;

pub const AREA: &str = "area";
pub const FIXED: &str = "fixed list";

/// The length of a work area and of a property is a word of 32 bits.
const MOST: u64 = u32::MAX as u64;

/// All bytes of a file, by what it is for.
pub fn read(what: &str, path: &Path) -> Result<Vec<u8>, String> {
    read_within(what, path, MOST)
}

fn read_within(what: &str, path: &Path, most: u64) -> Result<Vec<u8>, String> {
    let name = named(what, path);
    let bytes = read_most(path, most).map_err(|error| failed(&name, &error))?;
    bytes.ok_or(format!("{name} has more than {most} bytes, which is no length of one; check the name"))
}

/// The bytes of a file; none where it has more than the most. One that tells its size is not read for that.
fn read_most(path: &Path, most: u64) -> io::Result<Option<Vec<u8>>> {
    let file = File::open(path)?;
    if file.metadata()?.len() > most {
        return Ok(None);
    }
    let mut bytes = vec![];
    file.take(most + 1).read_to_end(&mut bytes)?;
    Ok((bytes.len() as u64 <= most).then_some(bytes))
}

#[cfg(test)]
mod tests {
    use super::{read_within, AREA};
    use std::path::Path;

    #[test]
    fn a_file_is_read_up_to_the_most() {
        let file = Path::new(concat!(env!("CARGO_MANIFEST_DIR"), "/src/bin/draugsten-where/usage.txt"));
        let bytes = std::fs::read(file).unwrap();
        let size = bytes.len() as u64;
        assert_eq!(read_within(AREA, file, size).as_ref(), Ok(&bytes));
        assert!(read_within(AREA, file, size - 1).unwrap_err().contains(&format!("has more than {} bytes", size - 1)));
        // A device tells no size.
        let message = "the area /dev/zero has more than 99 bytes, which is no length of one; check the name";
        assert_eq!(read_within(AREA, Path::new("/dev/zero"), 99), Err(String::from(message)));
        assert_eq!(read_within(AREA, Path::new("/dev/null"), 0), Ok(vec![]));
    }
}
