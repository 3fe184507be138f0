//! Intakes on the two sides behind one trait.

use crate::library::intakes::{Burst, End, Intake};
use crate::library::tallies::{Tallied, Tallies};
use crate::paper;
use crate::subject::Paper;
#[cfg(feature = "without-library")]
use crate::subject::{second, Second};

/// Intakes as the library's C interface has them.
pub trait Receiving {
    /// An intake over a journal as it is.
    fn start(&self, journal: &Tallied) -> Intake;

    /// The next bytes of the stream.
    fn burst(&self, buffer: &mut [u8], store: &mut [u8], intake: &Intake, bytes: &[u8]) -> Burst;

    /// What an end says.
    fn end(&self, buffer: &[u8], store: &[u8], intake: &Intake) -> End;
}

/// Puts an implementation of the paper behind the trait.
macro_rules! paper_receiving {
    ($subject:ident, $rules:ident) => {
        /// What crosses between the interface and the paper.
        impl $subject {
            fn intake(state: &$rules::intakes::State) -> Intake {
                let $rules::intakes::State { journal, number, held, fault } = *state;
                let journal = Tallied { used: journal.used, tallies: Tallies { rows: journal.tallies } };
                Intake { journal, number, held, fault }
            }

            fn intake_given(given: &Intake) -> $rules::intakes::State {
                let Intake { journal, number, held, fault } = *given;
                let journal = $rules::tallies::Tallied { used: journal.used, tallies: journal.tallies.rows };
                $rules::intakes::State { journal, number, held, fault }
            }
        }

        impl Receiving for $subject {
            fn start(&self, journal: &Tallied) -> Intake {
                let journal = $rules::tallies::Tallied { used: journal.used, tallies: journal.tallies.rows };
                Self::intake(&$rules::intakes::start(&journal))
            }

            fn burst(&self, buffer: &mut [u8], store: &mut [u8], intake: &Intake, bytes: &[u8]) -> Burst {
                let mut lent = $rules::intakes::Lent { buffer, store };
                let told = $rules::intakes::burst(&mut lent, &Self::intake_given(intake), bytes);
                let intake = Self::intake(&told.state);
                Burst { number: told.number, in_record: told.record, intake, rule: told.rule }
            }

            fn end(&self, buffer: &[u8], store: &[u8], intake: &Intake) -> End {
                let (number, in_record) = $rules::intakes::end(buffer, store, &Self::intake_given(intake));
                End { number, in_record }
            }
        }
    };
}

paper_receiving!(Paper, paper);

#[cfg(feature = "without-library")]
paper_receiving!(Second, second);
