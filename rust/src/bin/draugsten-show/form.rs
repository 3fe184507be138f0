//! What is written, whichever form it has.

use crate::buffers::Buffers;
use crate::items::{File, Item, Place};
use crate::shared::judge::Flaw;
use crate::walk::Counts;
use std::fmt;
use std::io::{self, Write};

/// A form: lines of text, or of JSON.
pub trait Form {
    /// A record, or the two of a call.
    fn item(&self, out: &mut dyn Write, place: Place, item: &Item<'_>) -> io::Result<()>;

    /// The end of a whole file.
    fn end(&self, out: &mut dyn Write, file: File, counts: Counts) -> io::Result<()>;

    /// The first record that is malformed, after which nothing is shown.
    fn malformed(&self, out: &mut dyn Write, file: File, flaw: &Flaw) -> io::Result<()>;

    /// A file without a record, by its name, and what it is if that is known.
    fn no_record(&self, out: &mut dyn Write, name: &str, file: Option<File>) -> io::Result<()>;

    /// One call of a trace, word by word.
    fn call(&self, out: &mut dyn Write, place: Place, buffers: &Buffers<'_>) -> io::Result<()>;

    /// A trace that ends before the call with this number.
    fn no_call(&self, out: &mut dyn Write, call: u64, counts: Counts) -> io::Result<()>;
}

/// Bytes as hexadecimal digits.
pub struct Digits<'a>(pub &'a [u8]);

impl fmt::Display for Digits<'_> {
    fn fmt(&self, f: &mut fmt::Formatter<'_>) -> fmt::Result {
        let digit = |number: u8| b"0123456789abcdef"[usize::from(number & 15)];
        let digits = self.0.iter().flat_map(|byte| [digit(byte >> 4), digit(*byte)]).collect();
        f.pad(&String::from_utf8(digits).unwrap_or_default())
    }
}
