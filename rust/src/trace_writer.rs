//! A trace that is written record by record.

use crate::record_error::RecordError;
use crate::trace::{put, Kind, BODY_LIMIT, RECORDS_LIMIT};
use std::io::{self, ErrorKind, Write};

/// The bytes that one record sets, at the most: a body without its address.
const PIECE: usize = BODY_LIMIT - 4;

/// What an address of four bytes reaches.
const ADDRESSES: u64 = 1 << 32;

/// Writes the session of another firmware as a trace: the calls that it made, and the bytes that the partition set in its
/// memory between them. A [`Replay`](crate::Replay) makes the same calls with this library, and reports the first one whose
/// argument buffer it leaves otherwise. To record calls of this library, use a [`Recorder`](crate::Recorder).
///
/// A replay starts from no registration and no reading in progress, so the trace has to begin there too. Whoever wants to
/// replay it keeps a copy of memory as it was then, and of the journal, the inventory and its edition. What the firmware
/// itself wrote to memory is not recorded: the calls of the replay write their own answers there.
///
/// The records of each use go to the writer at once; give it a `BufWriter` around a file, and call
/// [`flush`](TraceWriter::flush) at the end. If a write fails, nothing is lost: the records wait here, those of later uses
/// after them, and each use writes first what waits. So the trace has no gap, but for what is refused as `TooLong`,
/// `OutsideMemory` or `Full`: end the trace there, or give it again in a form that a record holds.
///
/// ```
/// use draugsten::{args, Edition, Replay, TraceWriter};
///
/// // Another firmware, which answers each update-nodes with -1.
/// let other_firmware = |args: &mut [u8; 24]| args[20..].copy_from_slice(&(-1i32).to_be_bytes());
///
/// let mut file = vec![];
/// let mut trace = TraceWriter::new(&mut file, 8192);
/// trace.set_memory(4096, &[0; 16])?;
/// let mut args = args::update_nodes(4096, 1);
/// let before = args;
/// other_firmware(&mut args);
/// trace.record(&before, &args)?;
/// trace.flush()?;
///
/// // Over an empty journal, this library answers with 0.
/// let mut memory = vec![0; 8192];
/// let mut replay = Replay::new(&mut memory, &[], &[], Edition(0));
/// assert_eq!(replay.read(&file[..])?.to_string(), "differs call 1 at 20");
/// # Ok::<(), Box<dyn std::error::Error>>(())
/// ```
pub struct TraceWriter<W: Write> {
    writer: W,
    memory_size: usize,
    records: u32,
    unwritten: Vec<u8>,
}

impl<W: Write> TraceWriter<W> {
    /// A trace that begins here, of a partition with so many bytes of memory.
    pub fn new(writer: W, memory_size: usize) -> TraceWriter<W> {
        TraceWriter { writer, memory_size, records: 0, unwritten: vec![] }
    }

    /// Records a call that was made: its argument buffer before it and after it, each of at most [`BODY_LIMIT`] bytes. If
    /// their lengths are not the same, a replay reports a difference.
    pub fn record(&mut self, before: &[u8], after: &[u8]) -> Result<(), RecordError> {
        self.check_call(before.len().max(after.len()))?;
        self.put(Kind::Before, before, &[]);
        self.put(Kind::After, after, &[]);
        self.write().map_err(|error| RecordError::Unwritten { answer: None, error })
    }

    /// Records bytes that were set in memory from an address on, in pieces of at most 4,096 bytes.
    pub fn set_memory(&mut self, address: u32, bytes: &[u8]) -> Result<(), RecordError> {
        self.check_setting(address, bytes.len())?;
        self.put_setting(address, bytes)
    }

    /// Writes what waits, and flushes the writer.
    pub fn flush(&mut self) -> io::Result<()> {
        self.write()?;
        self.writer.flush()
    }

    /// Whether the writer has taken every record.
    pub fn is_whole(&self) -> bool {
        self.unwritten.is_empty()
    }

    /// The records of the trace so far.
    pub fn records(&self) -> u32 {
        self.records
    }

    /// Ends the trace. It writes nothing: the writer, which may have to be flushed, is handed back with the bytes that it
    /// has not taken; none, if no write failed.
    pub fn into_parts(self) -> (W, Vec<u8>) {
        (self.writer, self.unwritten)
    }

    /// Whether a call can be recorded whose longer argument buffer has so many bytes.
    pub(crate) fn check_call(&self, length: usize) -> Result<(), RecordError> {
        if length > BODY_LIMIT {
            return Err(RecordError::TooLong { length });
        }
        self.check_room(2)
    }

    /// Whether it can be recorded that so many bytes are set at an address.
    pub(crate) fn check_setting(&self, address: u32, length: usize) -> Result<(), RecordError> {
        let end = address as u64 + length as u64;
        if end > ADDRESSES || end > self.memory_size as u64 {
            return Err(RecordError::OutsideMemory { address, length });
        }
        self.check_room(length.div_ceil(PIECE))
    }

    fn check_room(&self, records: usize) -> Result<(), RecordError> {
        if records > (RECORDS_LIMIT - self.records) as usize {
            return Err(RecordError::Full);
        }
        Ok(())
    }

    /// Writes what waits, before anything else is done.
    pub(crate) fn catch_up(&mut self) -> Result<(), RecordError> {
        self.write().map_err(RecordError::Behind)
    }

    /// Puts a record after those that wait. Whether it can be recorded has been checked.
    pub(crate) fn put(&mut self, kind: Kind, front: &[u8], rest: &[u8]) {
        put(&mut self.unwritten, kind, front, rest);
        self.records += 1;
    }

    /// Writes what waits and then the records of bytes that are set, each before the next, so that few wait at a time.
    pub(crate) fn put_setting(&mut self, address: u32, bytes: &[u8]) -> Result<(), RecordError> {
        let mut written = self.write();
        for (number, piece) in bytes.chunks(PIECE).enumerate() {
            let place = address + (number * PIECE) as u32;
            self.put(Kind::Memory, &place.to_le_bytes(), piece);
            written = written.and_then(|()| self.write());
        }
        written.map_err(|error| RecordError::Unwritten { answer: None, error })
    }

    /// Writes what waits, as far as the writer takes it.
    pub(crate) fn write(&mut self) -> io::Result<()> {
        let (mut written, mut end) = (0, Ok(()));
        while end.is_ok() && written < self.unwritten.len() {
            match self.writer.write(&self.unwritten[written..]) {
                Ok(0) => end = Err(ErrorKind::WriteZero.into()),
                Ok(size) => written += size,
                Err(error) if error.kind() == ErrorKind::Interrupted => {}
                Err(error) => end = Err(error),
            }
        }
        self.unwritten.drain(..written);
        end
    }
}

#[cfg(test)]
impl<W: Write> TraceWriter<W> {
    /// Goes on as if the trace had so many records.
    pub(crate) fn pretend(&mut self, records: u32) {
        self.records = records;
    }
}

#[cfg(test)]
mod tests {
    use super::{RecordError, TraceWriter};

    #[test]
    fn no_record_follows_the_last_number() {
        let mut bytes = vec![];
        let mut trace = TraceWriter::new(&mut bytes, 8192);
        trace.pretend(u32::MAX - 3);
        trace.record(&[1], &[2]).unwrap();
        assert!(matches!(trace.record(&[], &[]), Err(RecordError::Full)));
        assert!(matches!(trace.set_memory(0, &[0; 4097]), Err(RecordError::Full)));
        trace.set_memory(0, &[3; 4096]).unwrap();
        assert!(matches!(trace.set_memory(0, &[0]), Err(RecordError::Full)));
        assert_eq!(trace.records(), u32::MAX);
        assert_eq!(bytes[..10], [3, 0, 32, 0, 1, 3, 0, 33, 0, 2]);
        assert_eq!(bytes.len(), 10 + 4104);
    }
}
