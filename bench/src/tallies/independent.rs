//! The independent side: compare/src/paper, which is not meant to be fast.

use super::{Keeping, Kept, Recount, Tallied, Tallies};
use draugsten_compare::paper::tallies::{self, Refused};

pub const KEEPING: Keeping = Keeping { append, join, recount };

fn to_paper(journal: Tallied) -> tallies::Tallied {
    tallies::Tallied { used: journal.used as u64, tallies: journal.tallies.rows }
}

fn from_paper(before: Tallied, result: Result<tallies::Tallied, Refused>) -> Kept {
    match result {
        Ok(after) => {
            let tallies = Tallies { rows: after.tallies };
            Kept { number: 0, journal: Tallied { used: after.used as usize, tallies } }
        }
        Err(refused) => Kept { number: refused.number, journal: before },
    }
}

fn append(buffer: &mut [u8], journal: Tallied, record: &[u8]) -> Kept {
    from_paper(journal, tallies::append(buffer, &to_paper(journal), record))
}

fn join(buffer: &mut [u8], journal: Tallied, part: &[u8]) -> Kept {
    from_paper(journal, tallies::join(buffer, &to_paper(journal), part))
}

fn recount(journal: &[u8]) -> Recount {
    match tallies::recount(journal) {
        Ok(rows) => Recount { number: 0, tallies: Tallies { rows } },
        Err(refused) => Recount { number: refused.number, tallies: Tallies::ZERO },
    }
}
