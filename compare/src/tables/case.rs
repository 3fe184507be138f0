//! The cases of a month's table.

use crate::paper::table::Figures;
use crate::text;

#[derive(Clone)]
#[allow(clippy::large_enum_variant)]
pub enum TableCase {
    /// Figures and digests that are written to a buffer of so many bytes.
    Write { figures: Figures, digests: Vec<u8>, room: usize },
    /// A text that is read with so many bytes for its digests.
    Read { text: Vec<u8>, room: usize },
}

impl TableCase {
    pub fn text(&self) -> String {
        match self {
            TableCase::Write { figures, digests, room } => {
                format!("a table written to {room} bytes\n  figures {figures:?}\n{}", text::buffer("digests", digests))
            }
            TableCase::Read { text, room } => {
                format!("a table read with {room} bytes for digests\n{}", String::from_utf8_lossy(text))
            }
        }
    }

    /// The digests that are written, or the text that is read.
    pub fn bytes(&self) -> &[u8] {
        match self {
            TableCase::Write { digests, .. } => digests,
            TableCase::Read { text, .. } => text,
        }
    }

    pub fn bytes_mut(&mut self) -> &mut Vec<u8> {
        match self {
            TableCase::Write { digests, .. } => digests,
            TableCase::Read { text, .. } => text,
        }
    }

    /// The figures that are written.
    pub fn figures_mut(&mut self) -> &mut [u64] {
        match self {
            TableCase::Write { figures, .. } => figures,
            TableCase::Read { .. } => &mut [],
        }
    }
}
