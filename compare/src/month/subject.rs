//! The month on the two sides behind one trait.

use crate::library::month::{Added, Counted, Counting, Counts, Merged, Share, Totals};
use crate::paper;
use crate::subject::{report, Feeding, Paper};
#[cfg(feature = "without-library")]
use crate::subject::{second, Second};

/// The month as the library's C interface has it.
pub trait Month {
    /// The replay of a trace that begins, with nothing counted.
    fn start(&self, edition: u32) -> Counting;

    /// The next bytes of a replay's trace.
    fn feed(&self, feeding: Feeding, counting: &Counting, bytes: &[u8]) -> Counted;

    /// Adds the counts of a trace that ends here.
    fn add(&self, totals: &Totals, counting: &Counting) -> Added;

    /// Adds the totals of other traces.
    fn merge(&self, totals: &Totals, more: &Totals) -> Merged;

    /// The share of the available words that were used.
    fn share(&self, totals: &Totals) -> Share;
}

/// Totals that are known to have room in 64 bits.
fn totals(figures: &[u128; 35]) -> Totals {
    Totals::of_figures(&figures.map(|figure| u64::try_from(figure).expect("no total passes 2^64 - 1")))
}

/// Puts an implementation of the paper behind the trait.
macro_rules! paper_month {
    ($subject:ident, $rules:ident) => {
        /// What crosses between the interface and the paper.
        impl $subject {
            fn counting(counting: &$rules::month::Counting) -> Counting {
                let $rules::month::Counts { calls, operations, used } = counting.counts;
                Counting { replay: Self::replay(&counting.state), counts: Counts { calls, operations, used } }
            }

            fn counting_given(given: &Counting) -> $rules::month::Counting {
                let Counts { calls, operations, used } = given.counts;
                let counts = $rules::month::Counts { calls, operations, used };
                $rules::month::Counting { state: Self::replay_given(&given.replay), counts }
            }
        }

        impl Month for $subject {
            fn start(&self, edition: u32) -> Counting {
                Self::counting(&$rules::month::start(u64::from(edition)))
            }

            fn feed(&self, feeding: Feeding, counting: &Counting, bytes: &[u8]) -> Counted {
                let Feeding { held, args, memory, journal, inventory } = feeding;
                let mut lent = $rules::replay_states::Lent { held, args, memory };
                let over = $rules::replay::Over { journal, inventory, edition: u64::from(counting.replay.edition) };
                match $rules::month::feed(&mut lent, &over, &Self::counting_given(counting), bytes) {
                    Ok(fed) => Counted { number: 0, counting: Self::counting(&fed), rule: "" },
                    Err(refused) => Counted { number: refused.number, counting: *counting, rule: refused.rule },
                }
            }

            fn add(&self, given: &Totals, counting: &Counting) -> Added {
                let mut figures = given.figures().map(u128::from);
                let added = $rules::month::add(&mut figures, &Self::counting_given(counting));
                let (number, report, rule) = (added.number, report(added.report), added.rule);
                Added { number, report, totals: totals(&figures), rule }
            }

            fn merge(&self, given: &Totals, more: &Totals) -> Merged {
                let mut figures = given.figures().map(u128::from);
                let (number, rule) = $rules::month::merge(&mut figures, &more.figures().map(u128::from));
                Merged { number, totals: totals(&figures), rule }
            }

            fn share(&self, given: &Totals) -> Share {
                let (part, whole) = $rules::month::share(&given.figures().map(u128::from));
                Share { part: part as u64, whole: whole as u64 }
            }
        }
    };
}

paper_month!(Paper, paper);

#[cfg(feature = "without-library")]
paper_month!(Second, second);
