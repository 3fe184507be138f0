//! The tallies on the two sides behind one trait.

use crate::library::tallies::{Forecast, Kept, Recount, Tallied, Tallies};
use crate::paper;
use crate::subject::Paper;
#[cfg(feature = "without-library")]
use crate::subject::{second, Second};

/// The tallies and forecasts as the library's C interface has them.
pub trait Keeping {
    /// What an empty journal has beside its buffer.
    fn cleared(&self) -> Tallied;

    /// Appends one record.
    fn append(&self, buffer: &mut [u8], journal: &Tallied, record: &[u8]) -> Kept;

    /// Joins a whole journal.
    fn join(&self, buffer: &mut [u8], journal: &Tallied, part: &[u8]) -> Kept;

    /// The tallies of a journal, counted anew.
    fn recount(&self, journal: &[u8]) -> Recount;

    /// What update-nodes would answer.
    fn forecast(&self, tallies: &Tallies, scope: u32, state: u32) -> Forecast;
}

/// Puts an implementation of the paper behind the trait.
macro_rules! paper_keeping {
    ($subject:ident, $rules:ident) => {
        /// What crosses between the interface and the paper.
        impl $subject {
            fn tallied(tallied: &$rules::tallies::Tallied) -> Tallied {
                Tallied { used: tallied.used, tallies: Tallies { rows: tallied.tallies } }
            }

            fn tallied_given(given: &Tallied) -> $rules::tallies::Tallied {
                $rules::tallies::Tallied { used: given.used, tallies: given.tallies.rows }
            }

            fn kept(before: &Tallied, result: Result<$rules::tallies::Tallied, $rules::tallies::Refused>) -> Kept {
                match result {
                    Ok(after) => Kept { number: 0, journal: Self::tallied(&after), rule: "" },
                    Err(refused) => Kept { number: refused.number, journal: *before, rule: refused.rule },
                }
            }
        }

        impl Keeping for $subject {
            fn cleared(&self) -> Tallied {
                Self::tallied(&$rules::tallies::EMPTY)
            }

            fn append(&self, buffer: &mut [u8], journal: &Tallied, record: &[u8]) -> Kept {
                Self::kept(journal, $rules::tallies::append(buffer, &Self::tallied_given(journal), record))
            }

            fn join(&self, buffer: &mut [u8], journal: &Tallied, part: &[u8]) -> Kept {
                Self::kept(journal, $rules::tallies::join(buffer, &Self::tallied_given(journal), part))
            }

            fn recount(&self, journal: &[u8]) -> Recount {
                match $rules::tallies::recount(journal) {
                    Ok(rows) => Recount { number: 0, tallies: Tallies { rows } },
                    Err(refused) => Recount { number: refused.number, tallies: Tallies::ZERO },
                }
            }

            fn forecast(&self, tallies: &Tallies, scope: u32, state: u32) -> Forecast {
                let (status, next) = $rules::tallies::forecast(&tallies.rows, u64::from(scope), u64::from(state));
                Forecast { status: status as u32, next: next as u64 }
            }
        }
    };
}

paper_keeping!(Paper, paper);

#[cfg(feature = "without-library")]
paper_keeping!(Second, second);
