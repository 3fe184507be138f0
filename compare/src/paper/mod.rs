//! Document 01, written out in its order and words, with the requests of document 02 that landed. Nothing here is meant
//! to be fast.

pub mod dump_run;
pub mod get_indices;
pub mod intakes;
pub mod kernel_dump;
pub mod locations;
pub mod month;
pub mod readers;
pub mod reading_record;
pub mod records;
pub mod replay;
pub mod replay_states;
pub mod scope;
pub mod table;
pub mod tallies;
#[cfg(test)]
mod tests;
pub mod update_nodes;
pub mod update_properties;
pub mod words;

pub use kernel_dump::{Phase, Registration};
pub use reading_record::{ReadingRecord, NO_READING};
use words::{put_word, word};

/// A status below 0, and the rule that gives it.
#[derive(Clone, Copy, PartialEq, Eq, Debug)]
pub struct Refusal {
    pub status: i32,
    pub rule: &'static str,
}

fn refused<T>(status: i32, rule: &'static str) -> Result<T, Refusal> {
    Err(Refusal { status, rule })
}

/// What the platform has for a call of a partition: the journal, the inventory with its edition (M-105), and what it
/// keeps for the partition from call to call.
pub struct Platform<'a> {
    pub journal: &'a [u8],
    pub inventory: &'a [u8],
    pub edition: u64,
    pub registration: Registration,
    pub reading: ReadingRecord,
}

/// What a call gives back, with the rule that refused it; the rule is empty for an answered call.
pub struct Told {
    pub number: u32,
    pub registration: Registration,
    pub reading: ReadingRecord,
    pub rule: &'static str,
}

/// What an answered call writes behind its inputs, and what it hands back.
struct Answered {
    outputs: Vec<u32>,
    registration: Registration,
    reading: ReadingRecord,
}

/// The call through the argument buffer.
pub fn call(args: &mut [u8], memory: &mut [u8], platform: &Platform) -> Told {
    let Platform { registration, reading, .. } = *platform;
    if let Some((number, rule)) = number_above_0(args) {
        return Told { number, registration, reading, rule };
    }
    let outputs_at = 12 + 4 * word(args, 4) as usize;
    match answer(args, memory, platform) {
        Ok(answered) => {
            for (place, &output) in answered.outputs.iter().enumerate() {
                put_word(args, outputs_at + 4 * place, output);
            }
            Told { number: 0, registration: answered.registration, reading: answered.reading, rule: "" }
        }
        // "Each status below 0 writes the status word only." M-105: the record is read "beside the work area".
        Err(refusal) => {
            put_word(args, outputs_at, refusal.status as u32);
            let reading = reading_record::after_refusal(&refusal, reading);
            Told { number: 0, registration, reading, rule: refusal.rule }
        }
    }
}

/// "The 12-byte test comes first, then 12, then the declared size, then 11."
fn number_above_0(args: &[u8]) -> Option<(u32, &'static str)> {
    if args.len() < 12 {
        return Some((10, "under 12 bytes"));
    }
    let inputs = word(args, 4);
    let outputs = word(args, 8);
    if inputs > 16 || outputs > 16 {
        return Some((12, "inputs or outputs above 16"));
    }
    if (args.len() as u64) < 12 + 4 * (inputs + outputs) {
        return Some((10, "under the declared size"));
    }
    if outputs == 0 {
        return Some((11, "no outputs"));
    }
    None
}

/// "Tokens here: 1 update-nodes, 2 get-indices, 3 configure-kernel-dump." M-103: "ibm,update-properties, .. token 4".
/// "an unknown token or counts unlike the call's own give status -3"
fn answer(args: &[u8], memory: &mut [u8], platform: &Platform) -> Result<Answered, Refusal> {
    let Platform { journal, inventory, edition, registration, reading } = *platform;
    let counts = (word(args, 4), word(args, 8));
    let input = |place: usize| word(args, 12 + 4 * place);
    let with_outputs = |outputs: Vec<u32>| Answered { outputs, registration, reading };
    match (word(args, 0), counts) {
        (1, (2, 1)) => {
            let status = update_nodes::update_nodes(memory, journal, input(0), input(1))?;
            Ok(with_outputs(vec![status]))
        }
        (2, (5, 2)) => {
            let (flag, kind, address, size, start) = (input(0), input(1), input(2), input(3), input(4));
            let inputs = get_indices::Inputs { flag, kind, address, size, start };
            let outputs = get_indices::get_indices(memory, inventory, &inputs, edition, &reading)?;
            let reading = reading_record::after_answer(&inputs, edition, &outputs);
            Ok(Answered { reading, ..with_outputs(vec![outputs.status, outputs.next]) })
        }
        (3, (3, 1)) => {
            let inputs = kernel_dump::Inputs { command: input(0), address: input(1), length: input(2) };
            let registration = kernel_dump::configure_kernel_dump(memory, &inputs, &registration)?;
            Ok(Answered { registration, ..with_outputs(vec![0]) })
        }
        // 001: "Number Inputs 2", "Number Outputs 1"
        (4, (2, 1)) => {
            let status = update_properties::update_properties(memory, journal, input(0), input(1))?;
            Ok(with_outputs(vec![status]))
        }
        (1..=4, _) => refused(-3, "counts unlike the call's own"),
        _ => refused(-3, "unknown token"),
    }
}
