//! The slowest call of a session.

use super::Range;
use crate::inputs::Inputs;
use crate::interface::{Side, SIDES};
use crate::partition::Partition;
use crate::timing::{median, Effort};
use std::time::{Duration, Instant};

/// What source document 002 allows a call, in microseconds.
pub const ALLOWED: f64 = 250.0;

/// Each call is measured so often at the least: of fewer times the median may be one in which another process ran.
const LEAST_TURNS: usize = 9;

/// The slowest call of a session of the proved library, with its median time in microseconds.
pub struct Slowest {
    pub what: &'static str,
    pub over: String,
    pub bytes: usize,
    pub calls: usize,
    /// Its place among the calls, from 1 on.
    pub place: usize,
    pub time: f64,
    /// The least and the largest such time, over the runs.
    pub times: Range,
}

/// The slowest call over each journal, each inventory and each journal of properties.
pub fn slowest(inputs: &Inputs, effort: Effort) -> Vec<Slowest> {
    let journals = inputs.journals.iter().map(|(name, journal, wanted)| {
        let partition = Partition::of_journal(journal, *wanted);
        of_session("update-nodes", name, journal.len(), partition, effort)
    });
    let inventories = inputs.inventories.iter().map(|(name, inventory, asked)| {
        let partition = Partition::of_inventory(inventory, *asked);
        of_session("get-indices", name, inventory.len(), partition, effort)
    });
    let properties = inputs.properties.iter().map(|(name, journal)| {
        let partition = Partition::of_properties(journal);
        of_session("update-properties", name, journal.len(), partition, effort)
    });
    journals.chain(inventories).chain(properties).collect()
}

fn of_session(what: &'static str, over: &str, bytes: usize, mut partition: Partition, effort: Effort) -> Slowest {
    let [.., library] = &SIDES;
    let calls = partition.session(library) as usize;
    let mut times = vec![Vec::new(); calls];
    let begin = Instant::now();
    while times[0].len() < LEAST_TURNS || begin.elapsed() < effort.time {
        time_session(&mut partition, library, &mut times);
    }
    let medians = times.into_iter().map(median);
    let (place, time) =
        medians.enumerate().fold((0, 0.0), |most, (place, time)| if time > most.1 { (place, time) } else { most });
    Slowest { what, over: over.to_string(), bytes, calls, place: place + 1, time, times: (time, time) }
}

/// Runs a session, and adds the time of each of its calls to those of the sessions before.
fn time_session(partition: &mut Partition, side: &Side, times: &mut [Vec<Duration>]) {
    partition.begin_session();
    for call in times {
        let start = Instant::now();
        partition.call(side);
        call.push(start.elapsed());
        partition.carry_on();
    }
}
