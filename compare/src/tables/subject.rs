//! The table of a month on the two sides behind one trait.

use crate::library::tables::{Found, Written};
use crate::paper;
use crate::paper::table::Figures;
use crate::subject::Paper;
#[cfg(feature = "without-library")]
use crate::subject::{second, Second};

/// Writing and reading as the library's C interface has them.
pub trait Tabling {
    /// Writes the text of figures and digests to a buffer.
    fn write(&self, figures: &Figures, digests: &[u8], out: &mut [u8]) -> Written;

    /// Reads a text, and stores its digests. The rule that refused it is told by the paper's side only.
    fn read(&self, text: &[u8], digests: &mut [u8]) -> (Found, &'static str);
}

/// Puts an implementation of the paper behind the trait.
macro_rules! paper_tabling {
    ($subject:ident, $rules:ident) => {
        impl Tabling for $subject {
            fn write(&self, figures: &Figures, digests: &[u8], out: &mut [u8]) -> Written {
                match $rules::table::write(figures, digests, out) {
                    Ok(length) => Written { number: 0, length },
                    Err(refused) => Written { number: refused.number, length: refused.needed },
                }
            }

            fn read(&self, text: &[u8], digests: &mut [u8]) -> (Found, &'static str) {
                match $rules::table::read(text, digests) {
                    Ok((figures, sessions)) => (Found { number: 0, line: 0, sessions: sessions as u64, figures }, ""),
                    Err(refused) => {
                        let $rules::table::NotRead { number, line, sessions, rule } = refused;
                        (Found { number, line, sessions: sessions as u64, figures: [0; 39] }, rule)
                    }
                }
            }
        }
    };
}

paper_tabling!(Paper, paper);

#[cfg(feature = "without-library")]
paper_tabling!(Second, second);
