//! Which of the files that a program is given are the same.

use std::fs::{self, File, Metadata};
use std::io;
use std::os::fd::AsFd;
use std::os::unix::fs::{FileTypeExt, MetadataExt};
use std::path::Path;

/// A file by what it is for, and what the system knows of it.
pub struct Source {
    name: &'static str,
    data: Metadata,
    is_input: bool,
}

impl Source {
    /// None, where it cannot be looked at: that is told when it is read.
    pub fn file(name: &'static str, path: &Path) -> Option<Source> {
        Some(Source { name, data: fs::metadata(path).ok()?, is_input: false })
    }

    pub fn standard_input(name: &'static str) -> Option<Source> {
        let input = File::from(io::stdin().as_fd().try_clone_to_owned().ok()?);
        Some(Source { name, data: input.metadata().ok()?, is_input: true })
    }

    /// A pipe can be read once. Where standard input is read, it is nothing else, of whatever kind it is.
    fn takes_bytes_of(&self, later: &Source) -> bool {
        let place = |source: &Source| (source.data.dev(), source.data.ino());
        place(self) == place(later) && (later.is_input || later.data.file_type().is_fifo())
    }
}

/// Refuses two files, in the order in which they are read, of which the first would take the bytes of the second.
pub fn check(sources: &[Source]) -> Result<(), String> {
    for (number, later) in sources.iter().enumerate() {
        if let Some(first) = sources[..number].iter().find(|first| first.takes_bytes_of(later)) {
            return Err(format!("{} and {} are the same file; give each its own", first.name, later.name));
        }
    }
    Ok(())
}
