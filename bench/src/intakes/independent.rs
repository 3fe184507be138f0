//! The independent side: compare/src/paper, which is not meant to be fast.

use super::{Burst, Intake, Receiving};
use crate::tallies::{Tallied, Tallies};
use draugsten_compare::paper::{intakes, tallies};

pub const RECEIVING: Receiving = Receiving { start, burst };

fn to_paper(intake: Intake) -> intakes::State {
    let Intake { journal, number, held, fault } = intake;
    let journal = tallies::Tallied { used: journal.used as u64, tallies: journal.tallies.rows };
    intakes::State { journal, number, held: held as u64, fault }
}

fn from_paper(state: intakes::State) -> Intake {
    let intakes::State { journal, number, held, fault } = state;
    let journal = Tallied { used: journal.used as usize, tallies: Tallies { rows: journal.tallies } };
    Intake { journal, number, held: held as usize, fault }
}

fn start(journal: Tallied) -> Intake {
    Intake { journal, number: 1, held: 0, fault: 0 }
}

fn burst(buffer: &mut [u8], store: &mut [u8], intake: Intake, bytes: &[u8]) -> Burst {
    let told = intakes::burst(&mut intakes::Lent { buffer, store }, &to_paper(intake), bytes);
    Burst { number: told.number, in_record: told.record, intake: from_paper(told.state) }
}
