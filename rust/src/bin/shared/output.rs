//! Standard output.

use std::io::{self, Write};

/// Writes a text, or says why it cannot be written, and what helps.
pub fn write(text: &(impl AsRef<[u8]> + ?Sized)) -> Result<(), String> {
    let mut output = io::stdout().lock();
    let written = output.write_all(text.as_ref()).and_then(|()| output.flush());
    written.map_err(|error| failed(&error))
}

/// What to say of an error.
pub fn failed(error: &io::Error) -> String {
    format!("standard output cannot be written whole: {error}; make room, or write to another file")
}
