//! Replays: of recorded sessions beside the same calls made directly, and of records that set memory beside memcpy. Of both
//! also the replay that counts, beside the replay alone.

use super::{joined, Range};
use crate::bare;
use crate::inputs::Inputs;
use crate::interface::{ReplayBuffers, Replayed, SIDES};
use crate::library;
use crate::partition::Partition;
use crate::timing::{medians, Effort, Work};
use crate::trace::{self, Recorded, PAGE};
use std::hint::black_box;

/// The bytes of a burst, where a trace comes in several.
pub const BURST: usize = 65_536;

/// Short sessions are also recorded so many times over, so that the trace takes several bursts.
const MANY: usize = 400;

/// Numbers of records that set a page each.
const PAGES: [usize; 3] = [16, 256, 4_096];

/// A session, or several, with the median times in microseconds: of the calls made directly, of reading the trace once,
/// and of the replay in one burst and in several.
pub struct Replay {
    pub what: &'static str,
    pub over: String,
    pub bytes: usize,
    pub calls: u64,
    pub trace: usize,
    pub calling: f64,
    pub reading: f64,
    pub fed: Fed,
    pub counted: Fed,
}

/// Records that set so many bytes of memory, with the median times in microseconds.
pub struct Setting {
    pub records: usize,
    pub bytes: usize,
    pub memcpy: f64,
    pub fed: Fed,
    pub counted: Fed,
}

/// The times of a replay in one burst and in several, and their ratios to what it is measured by, of each run.
pub struct Fed {
    pub one_burst: f64,
    pub bursts: f64,
    pub ratios: [Vec<f64>; 2],
}

impl Fed {
    /// Measured by these, in one burst and in several.
    fn new([one_burst, bursts]: [f64; 2], yardsticks: [f64; 2]) -> Fed {
        let ratios = [vec![one_burst / yardsticks[0]], vec![bursts / yardsticks[1]]];
        Fed { one_burst, bursts, ratios }
    }

    /// Takes in the ratios of the runs before.
    pub fn widen(&mut self, before: &Fed) {
        for (ratios, before) in self.ratios.iter_mut().zip(&before.ratios) {
            ratios.extend(before);
            ratios.sort_by(f64::total_cmp);
        }
    }

    /// The median of the ratios over the runs, in one burst and in several.
    pub fn medians(&self) -> [f64; 2] {
        self.ratios.each_ref().map(|ratios| ratios[ratios.len() / 2])
    }

    /// The least and the largest ratio over the runs, in one burst or in several.
    pub fn range(&self) -> Range {
        let all = self.ratios.iter().flatten();
        all.fold((f64::INFINITY, 0.0), |range, &ratio| joined(range, (ratio, ratio)))
    }
}

/// A session, what it is of, and its name.
type Named<'a> = (&'static str, String, Recorded<'a>);

/// All sessions that are replayed.
pub fn sessions(inputs: &Inputs) -> impl Iterator<Item = Named<'_>> {
    let journals = inputs.journals.iter().map(|(name, journal, wanted)| {
        let recorded = Recorded::new(Partition::of_journal(journal, *wanted), 1);
        ("update-nodes", name.to_string(), recorded)
    });
    let short = inputs.journals.iter().filter(|(_, journal, _)| journal.len() <= BURST);
    let many = short.map(|(name, journal, wanted)| {
        let recorded = Recorded::new(Partition::of_journal(journal, *wanted), MANY);
        ("update-nodes", format!("{name}, {MANY} sessions"), recorded)
    });
    let properties = inputs.properties.iter().map(|(name, journal)| {
        ("update-properties", name.clone(), Recorded::new(Partition::of_properties(journal), 1))
    });
    let inventories = inputs.inventories.iter().map(|(name, inventory, asked)| {
        ("get-indices", name.clone(), Recorded::new(Partition::of_inventory(inventory, *asked), 1))
    });
    journals.chain(many).chain(properties).chain(inventories)
}

pub fn replays(inputs: &Inputs, effort: Effort) -> Vec<Replay> {
    sessions(inputs).map(|(what, over, recorded)| replay(what, over, &recorded, effort)).collect()
}

fn replay(what: &'static str, over: String, recorded: &Recorded, effort: Effort) -> Replay {
    let [.., library] = &SIDES;
    let mut partition = recorded.partition.clone();
    let calling: Work = Box::new(move || (0..recorded.sessions).map(|_| partition.session(library)).sum());
    let reading: Work = Box::new(|| bare::streaming(black_box(&recorded.trace)));
    let memory = &recorded.partition.memory;
    let [one, one_counted, some, some_counted] = alone_and_counted(memory, |burst| recorded.replayed(burst));
    let works = [calling, reading, one, one_counted, some, some_counted];
    let [calling, reading, one, one_counted, some, some_counted] = medians(works, effort);
    let Partition { journal, inventory, .. } = recorded.partition;
    let (bytes, calls, trace) = (journal.len() + inventory.len(), recorded.calls, recorded.trace.len());
    let fed = Fed::new([one, some], [calling + reading; 2]);
    let counted = Fed::new([one_counted, some_counted], [one, some]);
    Replay { what, over, bytes, calls, trace, calling, reading, fed, counted }
}

/// The replay alone and the one that counts, in one burst, then both in several.
fn alone_and_counted<'a>(memory: &[u8], replayed: impl Fn(usize) -> Replayed<'a>) -> [Work<'a>; 4] {
    let buffers = || ReplayBuffers::new(memory);
    let [one, some] = [usize::MAX, BURST].map(replayed);
    [replaying(buffers(), one), counting(buffers(), one), replaying(buffers(), some), counting(buffers(), some)]
}

fn counting<'a>(mut buffers: ReplayBuffers, replayed: Replayed<'a>) -> Work<'a> {
    Box::new(move || {
        let added = library::count(&mut buffers, black_box(replayed));
        assert_eq!(added.number, 0);
        added.report.number + added.totals.used
    })
}

fn replaying<'a>(mut buffers: ReplayBuffers, replayed: Replayed<'a>) -> Work<'a> {
    Box::new(move || library::replay(&mut buffers, black_box(replayed)).number)
}

/// What is replayed where memory alone is set.
pub fn replayed_pages(trace: &[u8], burst: usize) -> Replayed<'_> {
    Replayed { journal: &[], inventory: &[], edition: 0, trace, burst }
}

pub fn settings(effort: Effort) -> Vec<Setting> {
    PAGES.iter().map(|&records| setting(records, effort)).collect()
}

fn setting(records: usize, effort: Effort) -> Setting {
    let trace = trace::pages(records);
    let memory = vec![0; PAGE * records];
    let [one, one_counted, some, some_counted] = alone_and_counted(&memory, |burst| replayed_pages(&trace, burst));
    let works = [copying(&trace, records), one, one_counted, some, some_counted];
    let [memcpy, one, one_counted, some, some_counted] = medians(works, effort);
    let fed = Fed::new([one, some], [memcpy; 2]);
    let counted = Fed::new([one_counted, some_counted], [one, some]);
    Setting { records, bytes: PAGE * records, memcpy, fed, counted }
}

/// Copies the bytes that the records set, a page at a time.
fn copying(trace: &[u8], records: usize) -> Work<'_> {
    let mut memory = vec![0; PAGE * records];
    Box::new(move || {
        for (page, bytes) in black_box(&mut memory).chunks_exact_mut(PAGE).zip(trace::set_bytes(black_box(trace))) {
            page.copy_from_slice(bytes);
        }
        memory[PAGE].into()
    })
}
