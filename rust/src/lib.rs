//! Safe Rust over `libdraugsten.a`, `libdraugsten_dump.a`, `libdraugsten_replay.a`, `libdraugsten_tallies.a` and
//! `libdraugsten_locations.a`: the RTAS calls ibm,update-nodes, ibm,get-indices, ibm,configure-kernel-dump and
//! ibm,update-properties on the platform's side, readers of the work areas that all but the dump fill, the run of a
//! registered kernel dump, which is the second archive, the recording of a session of calls, its replay, the counts of its
//! calls in totals over sessions, and the text of these, of which the last three are the third, a journal that is kept with
//! its tallies and may arrive in bursts, with forecasts from the tallies, which is the fourth, and lookups of location codes
//! with views of index areas, which are the fifth.
//! `include/draugsten.h` has what each buffer holds and which bytes are written, and `include/draugsten_text.h` the words that
//! `Display` has for its numbers.
//!
//! The crate needs `std`: readings are handed back in vectors, and traces are written and read through `std::io`. Firmware
//! without `std` links the archives themselves, which need neither `std` nor an allocator, through the header's functions.
//!
//! ```
//! use draugsten::{args, call, read_nodes, Answer, Edition, Operation, ReadingRecord, Registration};
//!
//! // One record: a node of type 11 was deleted. Its phandle is 0x2a.
//! let journal = [8, 0, 1, 0, 11, 0, 0x2a, 0, 0, 0];
//! let mut memory = vec![0; 8192];
//! let mut registration = Registration::none();
//! let mut reading = ReadingRecord::none();
//!
//! let mut args = args::update_nodes(4096, 1);
//! let answer = call(&mut args, &mut memory, &journal, &[], Edition(0), &mut registration, &mut reading);
//!
//! assert_eq!(answer, Ok(Answer::Done));
//! assert_eq!(read_nodes(&memory[4096..], 1), Ok(vec![Operation::Delete { phandle: 0x2a }]));
//! ```

#![deny(unsafe_code)]
#![warn(missing_docs)]

pub mod args;
mod calling;
mod dump;
mod ffi;
mod intake;
mod locations;
mod month;
mod properties;
mod reading;
mod reading_record;
mod record_error;
mod recorder;
mod registration;
mod replay;
pub mod table;
mod tallies;
mod text;
pub mod trace;
mod trace_writer;

pub use calling::{call, Answer, Fault};
pub use dump::{Section, DUMP_ERROR, DUMP_PERFORMED};
pub use intake::{Intake, NotWhole, Refused, LONGEST_RECORD};
pub use locations::{lookup, IndexView, NotLocated, ViewEntries, ViewStep};
pub use month::{Counted, CountingReplay, Figures, NotAdded, NotMerged, Share, Status, Token, Totals};
pub use properties::{read_properties, Descriptor, Property, PropertyArea, NAME_LIMIT, VALUE_LIMIT};
pub use reading::{read_indices, read_nodes, read_state, Entry, Operation, Reason, Refusal, CODE_LIMIT, FIELD_LIMIT};
pub use reading_record::{Edition, ReadingRecord};
pub use record_error::RecordError;
pub use recorder::{Recorded, Recorder};
pub use registration::{Phase, Registration, STRUCTURE_LIMIT};
pub use replay::{Difference, Replay, Report};
pub use tallies::{forecast, recount, Forecast, NotKept, TalliedJournal, Tallies, Tally};
pub use trace_writer::TraceWriter;
