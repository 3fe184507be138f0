//! Calls that are recorded as a trace.

use crate::calling::{call, Answer, Fault};
use crate::reading_record::{Edition, ReadingRecord};
use crate::record_error::RecordError;
use crate::registration::Registration;
use crate::trace::Kind;
use crate::trace_writer::TraceWriter;
use std::io::{self, Write};

/// Makes a partition's calls as [`call`] does and writes the session as a trace, which a [`Replay`](crate::Replay) agrees
/// with. It starts from no registration and no reading in progress, as a replay does, and borrows memory, so that nobody
/// sets a byte of it but by [`set_memory`](Recorder::set_memory). Whoever wants to replay the trace keeps a copy of memory
/// as it was before, and of the journal, the inventory and its edition. The calls of another firmware are recorded by a
/// [`TraceWriter`].
///
/// The records of each use go to the writer at once; give it a `BufWriter` around a file, and call
/// [`flush`](Recorder::flush) at the end. If a write fails, nothing is lost: what was asked for has been done, and its
/// records wait in the recorder, which writes them first when it is used again. While that fails, it does nothing else, so
/// the trace has no gap.
pub struct Recorder<'a, W: Write> {
    trace: TraceWriter<W>,
    memory: &'a mut [u8],
    journal: &'a [u8],
    inventory: &'a [u8],
    edition: Edition,
    registration: Registration,
    reading: ReadingRecord,
}

/// What a recorder leaves.
pub struct Recorded<W> {
    /// The writer, which may have to be flushed.
    pub writer: W,
    /// The bytes of the trace that the writer has not taken; none, if no write failed.
    pub unwritten: Vec<u8>,
    /// The registration that the last call left.
    pub registration: Registration,
    /// The reading record that the last call left.
    pub reading: ReadingRecord,
}

impl<'a, W: Write> Recorder<'a, W> {
    /// A recorder of a session that begins here.
    pub fn new(
        writer: W,
        memory: &'a mut [u8],
        journal: &'a [u8],
        inventory: &'a [u8],
        edition: Edition,
    ) -> Recorder<'a, W> {
        Recorder {
            trace: TraceWriter::new(writer, memory.len()),
            memory,
            journal,
            inventory,
            edition,
            registration: Registration::none(),
            reading: ReadingRecord::none(),
        }
    }

    /// Runs the call that the argument buffer asks for, as [`call`] does, and records it. The buffer has at most
    /// [`BODY_LIMIT`](crate::trace::BODY_LIMIT) bytes. The outer result is the recording's, the inner one the call's.
    pub fn call(&mut self, args: &mut [u8]) -> Result<Result<Answer, Fault>, RecordError> {
        self.trace.check_call(args.len())?;
        self.trace.catch_up()?;
        self.trace.put(Kind::Before, args, &[]);
        let Recorder { memory, journal, inventory, edition, registration, reading, .. } = self;
        let answer = call(args, memory, journal, inventory, *edition, registration, reading);
        self.trace.put(Kind::After, args, &[]);
        self.trace.write().map_err(|error| RecordError::Unwritten { answer: Some(answer), error })?;
        Ok(answer)
    }

    /// Sets bytes of memory from an address on, all or none of them, and records it in pieces of at most 4,096 bytes.
    pub fn set_memory(&mut self, address: u32, bytes: &[u8]) -> Result<(), RecordError> {
        self.trace.check_setting(address, bytes.len())?;
        self.trace.catch_up()?;
        self.memory[address as usize..][..bytes.len()].copy_from_slice(bytes);
        self.trace.put_setting(address, bytes)
    }

    /// Writes what waits in the recorder, and flushes the writer.
    pub fn flush(&mut self) -> io::Result<()> {
        self.trace.flush()
    }

    /// Whether the writer has taken every record.
    pub fn is_whole(&self) -> bool {
        self.trace.is_whole()
    }

    /// The records of the trace so far.
    pub fn records(&self) -> u32 {
        self.trace.records()
    }

    /// The partition's memory.
    pub fn memory(&self) -> &[u8] {
        self.memory
    }

    /// The registration that the last call left.
    pub fn registration(&self) -> &Registration {
        &self.registration
    }

    /// The reading record that the last call left.
    pub fn reading(&self) -> &ReadingRecord {
        &self.reading
    }

    /// Ends the recording. It writes nothing: what waits, if a write failed, is handed back too.
    pub fn into_parts(self) -> Recorded<W> {
        let Recorder { trace, registration, reading, .. } = self;
        let (writer, unwritten) = trace.into_parts();
        Recorded { writer, unwritten, registration, reading }
    }
}

#[cfg(test)]
mod tests {
    use super::{RecordError, Recorder};
    use crate::{args, Edition};

    #[test]
    fn no_record_follows_the_last_number() {
        let (mut trace, mut memory) = (vec![], [1; 8192]);
        let mut recorder = Recorder::new(&mut trace, &mut memory, &[], &[], Edition(0));
        recorder.trace.pretend(u32::MAX - 1);
        let mut args = args::update_nodes(0, 0);
        assert!(matches!(recorder.call(&mut args), Err(RecordError::Full)));
        assert!(matches!(recorder.set_memory(0, &[0; 4097]), Err(RecordError::Full)));
        assert_eq!(args, args::update_nodes(0, 0));
        recorder.set_memory(0, &[2; 4096]).unwrap();
        assert!(matches!(recorder.set_memory(0, &[0]), Err(RecordError::Full)));
        assert_eq!(recorder.records(), u32::MAX);
        assert_eq!(recorder.memory()[4095..4097], [2, 1]);
        assert_eq!(trace.len(), 4104);
    }
}
