//! The way through a file, from its first record to its end or its first flaw.

use crate::items::{first_item, File, Item, Place};
use crate::rest::Rest;
use crate::shared::judge::Flaw;
use std::io::{self, Read};

/// How a way through a file ended.
#[derive(PartialEq, Eq, Debug)]
pub enum Ended {
    /// At the file's end.
    Whole(Counts),
    /// At a record that is malformed.
    Flaw(Flaw),
    /// Where whoever looked at the items had seen enough.
    Enough,
}

/// What a whole file has. Calls are those of a trace.
#[derive(Clone, Copy, PartialEq, Eq, Debug)]
pub struct Counts {
    pub records: u64,
    pub bytes: u64,
    pub calls: u64,
}

/// Why a way did not end.
#[derive(Debug)]
pub enum Failed {
    Reading(io::Error),
    Writing(io::Error),
    /// The first record does not say what the file is, for a reason.
    Unknown(String),
}

/// What the file is by its first record.
pub fn recognise(rest: &mut Rest<impl Read>) -> Result<File, Failed> {
    match *rest.bytes().map_err(Failed::Reading)? {
        [] => Err(Failed::Unknown(String::from("it is empty"))),
        [_, _, low, high, ..] => {
            let kind = u16::from_le_bytes([low, high]);
            File::of_kind(kind).ok_or_else(|| Failed::Unknown(format!("its first record has kind {kind}")))
        }
        _ => Err(Failed::Unknown(String::from("its first record has no kind"))),
    }
}

/// Hands each item to whoever looks at it, who says whether to go on.
pub fn walk(
    rest: &mut Rest<impl Read>,
    file: File,
    mut look: impl FnMut(Place, &Item<'_>) -> io::Result<bool>,
) -> Result<Ended, Failed> {
    let mut place = Place { record: 1, offset: 0, call: 1 };
    loop {
        let bytes = rest.bytes().map_err(Failed::Reading)?;
        if bytes.is_empty() {
            let Place { record, offset, call } = place;
            return Ok(Ended::Whole(Counts { records: record - 1, bytes: offset, calls: call - 1 }));
        }
        let (item, size) = match first_item(file, bytes, place) {
            Ok(found) => found,
            Err(flaw) => return Ok(Ended::Flaw(flaw)),
        };
        if !look(place, &item).map_err(Failed::Writing)? {
            return Ok(Ended::Enough);
        }
        let is_call = u64::from(item.is_call());
        rest.take(size);
        place = Place { record: place.record + 1 + is_call, offset: rest.offset(), call: place.call + is_call };
    }
}
