//! The files that replays go over.

use super::flaws::{flaw, Flaws, Records};
use super::records::{failed, named, read_file};
use std::fs::File;
use std::hint::black_box;
use std::io::{self, ErrorKind, Read, Seek};
use std::os::fd::AsFd;
use std::path::{Path, PathBuf};

/// Memory has at most so many bytes here. An address is below 2^32; a record sets up to 4,096 bytes from it on, a dump
/// structure has up to 512, and the areas of the other calls end at 2^32. The bytes after these change no report.
pub const MEMORY_LIMIT: u64 = (1 << 32) + 4096;

/// What memory is before the first record.
#[derive(PartialEq, Eq, Debug)]
pub enum Memory {
    File(PathBuf),
    Zeros(u64),
}

/// A journal and an inventory, and what is wrong with them. One that has no file is empty.
pub struct Inputs {
    pub journal: Vec<u8>,
    pub inventory: Vec<u8>,
    pub flaws: Flaws,
}

pub fn read_inputs(journal: Option<&Path>, inventory: Option<&Path>) -> Result<Inputs, String> {
    let (journal, journal_flaw) = read_records(Records::Journal, journal)?;
    let (inventory, inventory_flaw) = read_records(Records::Inventory, inventory)?;
    Ok(Inputs { journal, inventory, flaws: Flaws { journal: journal_flaw, inventory: inventory_flaw } })
}

fn read_records(what: Records, path: Option<&Path>) -> Result<(Vec<u8>, Option<String>), String> {
    let bytes = path.map_or(Ok(vec![]), |path| read_file(what.name(), path))?;
    let flaw = flaw(what, path, &bytes);
    Ok((bytes, flaw))
}

pub fn read_memory(memory: &Memory) -> Result<Vec<u8>, String> {
    match memory {
        Memory::File(path) => read_image(path, MEMORY_LIMIT),
        Memory::Zeros(size) => {
            zeros(*size).ok_or(format!("{size} bytes of memory cannot be had here; give a smaller size"))
        }
    }
}

/// All of memory from a file, of so many bytes at the most.
fn read_image(path: &Path, most: u64) -> Result<Vec<u8>, String> {
    let name = named("memory", path);
    let image = read_within(path, most).map_err(|error| failed(&name, &error))?;
    image.ok_or(format!(
        "{name} has more than {most} bytes; give its first {most}; no call and no record reaches past them"
    ))
}

/// The bytes of a file; none where it has more than the most. One that tells its size is not read for that.
fn read_within(path: &Path, most: u64) -> io::Result<Option<Vec<u8>>> {
    let file = File::open(path)?;
    let size = file.metadata()?.len();
    if size > most {
        return Ok(None);
    }
    let mut bytes: Vec<u8> = vec![];
    bytes.try_reserve_exact(size as usize).map_err(|_| ErrorKind::OutOfMemory)?;
    file.take(most + 1).read_to_end(&mut bytes)?;
    Ok((bytes.len() as u64 <= most).then_some(bytes))
}

/// So many zero bytes, which take no room before they are used.
pub fn zeros(size: u64) -> Option<Vec<u8>> {
    let size = usize::try_from(size).ok()?;
    let mut attempt: Vec<u8> = vec![];
    attempt.try_reserve_exact(size).ok()?;
    black_box(attempt);
    Some(vec![0; size])
}

/// What is read piece by piece, from a file or from standard input.
pub struct Stream {
    name: String,
    file: File,
}

/// How a stream is named: by what it is for, and by its file. Without a file it is standard input.
pub fn name(what: &str, path: Option<&Path>) -> String {
    path.map_or_else(|| format!("standard input, the {what},"), |path| named(what, path))
}

impl Stream {
    /// Opens it by what it is for. Without a file it is standard input.
    pub fn open(what: &str, path: Option<&Path>) -> Result<Stream, String> {
        let name = name(what, path);
        let file = match path {
            Some(path) => File::open(path),
            None => io::stdin().as_fd().try_clone_to_owned().map(File::from),
        };
        match file {
            Ok(file) => Ok(Stream { name, file }),
            Err(error) => Err(failed(&name, &error)),
        }
    }

    pub fn file(&mut self) -> &mut File {
        &mut self.file
    }

    /// The bytes still to be read, where that is known.
    pub fn size(&mut self) -> Option<u64> {
        let length = self.file.metadata().ok().filter(|data| data.is_file())?.len();
        length.checked_sub(self.file.stream_position().ok()?)
    }

    /// Why it cannot be read any further, after so many bytes.
    pub fn failed(&self, error: &io::Error, bytes: u64) -> String {
        let place = if bytes == 0 { String::new() } else { format!(" after byte {bytes}") };
        failed(&format!("{}{place}", self.name), error)
    }
}

#[cfg(test)]
mod tests {
    use super::{read_image, read_inputs};
    use std::path::Path;

    #[test]
    fn memory_is_read_up_to_its_limit() {
        let file = Path::new(concat!(env!("CARGO_MANIFEST_DIR"), "/src/bin/draugsten-replay/usage.txt"));
        let bytes = std::fs::read(file).unwrap();
        let size = bytes.len() as u64;
        assert_eq!(read_image(file, size).as_ref(), Ok(&bytes));
        assert_eq!(read_image(file, size + 1).as_ref(), Ok(&bytes));
        assert!(read_image(file, size - 1).unwrap_err().contains(&format!("has more than {} bytes", size - 1)));
        // A device tells no size.
        let message =
            "the memory /dev/zero has more than 99 bytes; give its first 99; no call and no record reaches past them";
        assert_eq!(read_image(Path::new("/dev/zero"), 99), Err(String::from(message)));
        assert_eq!(read_image(Path::new("/dev/null"), 0), Ok(vec![]));
    }

    #[test]
    fn without_a_file_records_are_empty() {
        let nothing = Some(Path::new("/dev/null"));
        for (journal, inventory) in [(None, None), (nothing, None), (None, nothing)] {
            let inputs = read_inputs(journal, inventory).unwrap();
            assert!(inputs.journal.is_empty() && inputs.inventory.is_empty() && inputs.flaws.all().next().is_none());
        }
    }

    #[test]
    fn records_are_judged() {
        let zeros = Some(Path::new("/dev/zero"));
        let flaws = read_inputs(zeros, None).unwrap().flaws;
        assert_eq!(
            flaws.all().collect::<Vec<_>>(),
            ["the journal /dev/zero is malformed: record 1, at byte 0: length 0, which does not count its kind"]
        );
        let flaws = read_inputs(zeros, zeros).unwrap().flaws;
        assert_eq!(
            flaws.inventory.unwrap(),
            "the inventory /dev/zero is malformed: record 1, at byte 0: length 0, which does not count its kind"
        );
    }
}
