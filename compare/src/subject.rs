//! The two sides of the comparison behind one trait.

use crate::intakes::subject::Receiving;
use crate::library::{Edit, Reading, ReadingRecord, Registration, Replay, Report, NO_REGISTRATION, PARAMETER};
use crate::locations::subject::Locating;
use crate::month::subject::Month;
use crate::paper;
use crate::tables::subject::Tabling;
use crate::tallies::subject::Keeping;

/// With no library at hand the other side is a second copy of the paper's implementation.
#[cfg(feature = "without-library")]
#[allow(dead_code, clippy::duplicate_mod)]
#[path = "paper/mod.rs"]
pub mod second;

/// What the platform has for a call of a partition.
pub struct Platform<'a> {
    pub journal: &'a [u8],
    pub inventory: &'a [u8],
    pub edition: u32,
    pub registration: Registration,
    pub reading: ReadingRecord,
}

/// What a call gives back. The rule that refused it is told by the paper's side only.
pub struct Answered {
    pub number: u32,
    pub registration: Registration,
    pub reading: ReadingRecord,
    pub rule: &'static str,
}

/// What a run of a dump gives back. The rule that refused it is told by the paper's side only.
pub struct Ran {
    pub number: u32,
    pub status: u32,
    pub registration: Registration,
    pub rule: &'static str,
}

/// What a feed of a replay is given beside the replay and the burst.
pub struct Feeding<'a> {
    pub held: &'a mut [u8],
    pub args: &'a mut [u8],
    pub memory: &'a mut [u8],
    pub journal: &'a [u8],
    pub inventory: &'a [u8],
}

/// What a feed gives back. The rule that refused the replay is told by the paper's side only.
pub struct Fed {
    pub number: u32,
    pub replay: Replay,
    pub rule: &'static str,
}

/// What the end of a trace gives back.
#[derive(Clone, Copy, PartialEq, Eq, Debug)]
pub struct Ended {
    pub number: u32,
    pub report: Report,
}

/// One side: the calls, the run of a dump, the replay, the month and its table, the tallies, intakes, the locations and the
/// readers as the library's C interface has them.
pub trait Subject {
    fn name(&self) -> &'static str;

    fn call(&self, args: &mut [u8], memory: &mut [u8], platform: &Platform) -> Answered;

    /// The run of a registered dump, over the memories of the partition and of the platform.
    fn run_dump(&self, registration: &Registration, memory: &mut [u8], platform: &[u8]) -> Ran;

    /// The record that a partition starts with.
    fn no_reading(&self) -> ReadingRecord;

    /// An edit of an inventory of this edition.
    fn edit(&self, edition: u32) -> Edit;

    /// The replay of a trace that begins.
    fn replay_start(&self, edition: u32) -> Replay;

    /// The next bytes of a replay's trace.
    fn replay_feed(&self, feeding: Feeding, replay: &Replay, bytes: &[u8]) -> Fed;

    /// What a replay comes to whose trace ends here.
    fn replay_end(&self, replay: &Replay) -> Ended;

    /// Replays that count, and totals over them.
    fn month(&self) -> &dyn Month;

    /// The table of a month.
    fn tabling(&self) -> &dyn Tabling;

    /// A journal that is kept with its tallies, and forecasts.
    fn keeping(&self) -> &dyn Keeping;

    /// A journal that arrives in bursts.
    fn receiving(&self) -> &dyn Receiving;
    /// Lookups of location codes, and views of index areas.
    fn locating(&self) -> &dyn Locating;

    /// With entries, writes three words for each that fits in `out`, and nothing else.
    fn read_nodes(&self, area: &[u8], scope: u32, out: &mut [u32]) -> Reading;

    /// As above, with three numbers for each entry.
    fn read_indices(&self, area: &[u8], out: &mut [u64]) -> Reading;

    /// As above, with five words for each property.
    fn read_properties(&self, area: &[u8], out: &mut [u32]) -> Reading;
}

/// Writes as many whole entries as fit.
fn put_entries<T: Copy, const ELEMENTS: usize>(out: &mut [T], entries: impl Iterator<Item = [T; ELEMENTS]>) {
    for (place, entry) in out.chunks_exact_mut(ELEMENTS).zip(entries) {
        place.copy_from_slice(&entry);
    }
}

/// A report of verdict, offset and number; the first two are known to fit a word.
pub fn report((verdict, offset, number): (u64, u64, u64)) -> Report {
    Report { verdict: verdict as u32, offset: offset as u32, number }
}

fn refused_reading(refusal: u32, offset: u64) -> Reading {
    Reading { refusal, phandle_or_zero: 0, state_or_zero: 0, offset, entries: 0 }
}

/// Puts an implementation of the paper behind the trait.
macro_rules! paper_subject {
    ($subject:ident, $rules:ident, $name:literal) => {
        pub struct $subject;

        /// What crosses between the interface and the paper.
        impl $subject {
            fn record(record: &$rules::ReadingRecord) -> ReadingRecord {
                let [flag, kind, number, edition] =
                    [record.flag, record.kind, record.number, record.edition].map(|field| field as u32);
                ReadingRecord { flag, kind, number, edition }
            }

            fn record_given(given: &ReadingRecord) -> $rules::ReadingRecord {
                let [flag, kind, number, edition] =
                    [given.flag, given.kind, given.number, given.edition].map(u64::from);
                $rules::ReadingRecord { flag, kind, number, edition }
            }

            fn registration(registration: &$rules::Registration) -> Registration {
                let phase = match registration.phase {
                    $rules::Phase::None => 0,
                    $rules::Phase::Registered => 1,
                    $rules::Phase::Active => 2,
                };
                Registration { phase, length: registration.length, copy: registration.copy }
            }

            /// Nothing where it is no registration.
            fn registration_given(given: &Registration) -> Option<$rules::Registration> {
                let phase = match given.phase {
                    0 if given.length <= 512 => $rules::Phase::None,
                    1 if given.length <= 512 => $rules::Phase::Registered,
                    2 if given.length <= 512 => $rules::Phase::Active,
                    _ => return None,
                };
                Some($rules::Registration { phase, length: given.length, copy: given.copy })
            }

            /// The replay of a state that has a registration.
            pub fn replay(state: &$rules::replay_states::State) -> Replay {
                let registration = state.registration.as_ref().expect("a replay that is taken has a registration");
                Replay {
                    records: state.records,
                    report: report((state.verdict, state.offset, state.number)),
                    held: state.held,
                    waiting: state.waiting as u32,
                    edition: state.edition as u32,
                    registration: Self::registration(registration),
                    reading: Self::record(&state.reading),
                }
            }

            pub fn replay_given(given: &Replay) -> $rules::replay_states::State {
                $rules::replay_states::State {
                    records: given.records,
                    verdict: u64::from(given.report.verdict),
                    offset: u64::from(given.report.offset),
                    number: given.report.number,
                    held: given.held,
                    waiting: u64::from(given.waiting),
                    edition: u64::from(given.edition),
                    registration: Self::registration_given(&given.registration),
                    reading: Self::record_given(&given.reading),
                }
            }
        }

        impl Subject for $subject {
            fn name(&self) -> &'static str {
                $name
            }

            fn call(&self, args: &mut [u8], memory: &mut [u8], platform: &Platform) -> Answered {
                let Platform { journal, inventory, edition, registration: given, reading } = *platform;
                let Some(registration) = Self::registration_given(&given) else {
                    let rule = "no registration";
                    return Answered { number: NO_REGISTRATION, registration: given, reading, rule };
                };
                let platform = $rules::Platform {
                    journal,
                    inventory,
                    edition: u64::from(edition),
                    registration,
                    reading: Self::record_given(&reading),
                };
                let told = $rules::call(args, memory, &platform);
                let (registration, reading) = (Self::registration(&told.registration), Self::record(&told.reading));
                Answered { number: told.number, registration, reading, rule: told.rule }
            }

            fn run_dump(&self, given: &Registration, memory: &mut [u8], platform: &[u8]) -> Ran {
                let Some(registration) = Self::registration_given(given) else {
                    let (number, status, rule) = (NO_REGISTRATION, PARAMETER, "no registration");
                    return Ran { number, status, registration: *given, rule };
                };
                match $rules::dump_run::run_dump(&registration, memory, platform) {
                    Ok(after) => Ran { number: 0, status: 0, registration: Self::registration(&after), rule: "" },
                    Err(refusal) => {
                        let (status, rule) = (refusal.status as u32, refusal.rule);
                        Ran { number: 0, status, registration: *given, rule }
                    }
                }
            }

            fn no_reading(&self) -> ReadingRecord {
                Self::record(&$rules::NO_READING)
            }

            fn edit(&self, edition: u32) -> Edit {
                match $rules::reading_record::edit(u64::from(edition)) {
                    Some(next) => Edit { taken: 1, edition: next as u32 },
                    None => Edit { taken: 0, edition },
                }
            }

            fn replay_start(&self, edition: u32) -> Replay {
                Self::replay(&$rules::replay_states::start(u64::from(edition)))
            }

            fn replay_feed(&self, feeding: Feeding, replay: &Replay, bytes: &[u8]) -> Fed {
                let Feeding { held, args, memory, journal, inventory } = feeding;
                let mut lent = $rules::replay_states::Lent { held, args, memory };
                let over = $rules::replay::Over { journal, inventory, edition: u64::from(replay.edition) };
                match $rules::replay_states::feed(&mut lent, &over, &Self::replay_given(replay), bytes) {
                    Ok(state) => Fed { number: 0, replay: Self::replay(&state), rule: "" },
                    Err(refused) => Fed { number: refused.number, replay: *replay, rule: refused.rule },
                }
            }

            fn replay_end(&self, replay: &Replay) -> Ended {
                match $rules::replay_states::end(&Self::replay_given(replay)) {
                    Ok(told) => Ended { number: 0, report: report(told) },
                    Err(refused) => Ended { number: refused.number, report: report((2, 0, 0)) },
                }
            }

            fn month(&self) -> &dyn Month {
                self
            }

            fn tabling(&self) -> &dyn Tabling {
                self
            }

            fn keeping(&self) -> &dyn Keeping {
                self
            }

            fn receiving(&self) -> &dyn Receiving {
                self
            }

            fn locating(&self) -> &dyn Locating {
                self
            }

            fn read_nodes(&self, area: &[u8], scope: u32, out: &mut [u32]) -> Reading {
                match $rules::readers::read_nodes(area, u64::from(scope)) {
                    Ok(nodes) => {
                        put_entries(out, nodes.operations.iter().map(|o| [o.opcode, o.first, o.second]));
                        let entries = nodes.operations.len() as u64;
                        Reading { refusal: 0, phandle_or_zero: 0, state_or_zero: nodes.state, offset: 0, entries }
                    }
                    Err(refused) => refused_reading(refused.number, refused.offset),
                }
            }

            fn read_indices(&self, area: &[u8], out: &mut [u64]) -> Reading {
                match $rules::readers::read_indices(area) {
                    Ok(indices) => {
                        put_entries(out, indices.iter().map(|i| [u64::from(i.index), i.code_at, i.code_length]));
                        let entries = indices.len() as u64;
                        Reading { refusal: 0, phandle_or_zero: 0, state_or_zero: 0, offset: 0, entries }
                    }
                    Err(refused) => refused_reading(refused.number, refused.offset),
                }
            }

            fn read_properties(&self, area: &[u8], out: &mut [u32]) -> Reading {
                match $rules::readers::read_properties(area) {
                    Ok(read) => {
                        let words = |p: &$rules::readers::Property| {
                            [p.name_at, p.name_length, p.descriptor, p.value_at, p.value_length]
                        };
                        put_entries(out, read.list.iter().map(words));
                        let entries = read.list.len() as u64;
                        let (phandle_or_zero, state_or_zero) = (read.phandle, read.state);
                        Reading { refusal: 0, phandle_or_zero, state_or_zero, offset: 0, entries }
                    }
                    Err(refused) => refused_reading(refused.number, refused.offset),
                }
            }
        }
    };
}

paper_subject!(Paper, paper, "paper");

#[cfg(feature = "without-library")]
paper_subject!(Second, second, "second copy");

/// The side that is compared with the paper's.
#[cfg(feature = "without-library")]
pub fn under_test() -> &'static dyn Subject {
    &Second
}

/// The side that is compared with the paper's.
#[cfg(not(feature = "without-library"))]
pub fn under_test() -> &'static dyn Subject {
    &crate::library::Library
}
