//! The independent side: compare/src/paper, which is not meant to be fast.

use super::Location;
use draugsten_compare::paper::locations::{self, Holder, Missed};

pub fn lookup(area: &[u8], fixed: &[u8], index: u32) -> Location {
    match locations::lookup(area, fixed, u64::from(index)) {
        Ok(code) => {
            let buffer = if code.holder == Holder::Area { 1 } else { 2 };
            Location { number: 0, buffer, offset: code.at as usize, length: code.length as usize }
        }
        Err(Missed::NotFound(_)) => Location::NOT_FOUND,
        Err(Missed::Refused(refused)) => Location::refused(refused.number, refused.offset as usize),
    }
}
