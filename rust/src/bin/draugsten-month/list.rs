//! The list of sessions.

use crate::lines::{Lines, LINE_LIMIT};
use crate::shared::input::{Memory, Stream, MEMORY_LIMIT};
use crate::shared::numbers::{is_size, number, size};
use std::ffi::OsStr;
use std::fs::File;
use std::os::unix::ffi::OsStrExt;
use std::path::{Path, PathBuf};

/// What a session is replayed over, and its trace.
#[derive(PartialEq, Eq, Debug)]
pub struct Session {
    pub journal: Option<PathBuf>,
    pub inventory: Option<PathBuf>,
    pub edition: u32,
    pub memory: Memory,
    pub trace: PathBuf,
}

/// A line of the list: its number, the trace as far as it names one, and the session, or what is wrong with it.
#[derive(PartialEq, Eq, Debug)]
pub struct Entry {
    pub line: u64,
    pub trace: Option<PathBuf>,
    pub session: Result<Session, String>,
    /// The bytes of the list up to its end.
    pub bytes: u64,
}

pub struct List {
    stream: Stream,
    lines: Lines<File>,
    size: Option<u64>,
}

impl List {
    /// Opens a list. Without a file it is standard input.
    pub fn open(path: Option<&Path>) -> Result<List, String> {
        let mut stream = Stream::open("list", path)?;
        let size = stream.size();
        let file = stream.file().try_clone().map_err(|error| stream.failed(&error, 0))?;
        Ok(List { stream, lines: Lines::new(file), size })
    }

    /// The bytes still to be read when it was opened, where that is known.
    pub fn size(&self) -> Option<u64> {
        self.size
    }

    /// The next line that is not passed over, where there is one; or why the list cannot be read on.
    pub fn next(&mut self) -> Result<Option<Entry>, String> {
        loop {
            let line = self.lines.next().map_err(|error| self.stream.failed(&error, self.lines.bytes()))?;
            let Some(line) = line else { return Ok(None) };
            let bytes = self.lines.bytes();
            match line.text {
                None => return Ok(Some(too_long(line.number, bytes))),
                Some(text) => match text.strip_suffix(b"\r").unwrap_or(&text) {
                    [] | [b'#', ..] => {}
                    text => return Ok(Some(entry(line.number, text, bytes))),
                },
            }
        }
    }
}

fn too_long(line: u64, bytes: u64) -> Entry {
    Entry { line, trace: None, session: Err(format!("it has more than {LINE_LIMIT} bytes")), bytes }
}

fn entry(line: u64, text: &[u8], bytes: u64) -> Entry {
    let fields: Vec<&OsStr> = text.split(|byte| *byte == b'\t').map(OsStr::from_bytes).collect();
    let [journal, inventory, edition, memory, trace] = fields[..] else {
        let (count, plural) = (fields.len(), if fields.len() == 1 { "" } else { "s" });
        let wrong = format!(
            "it has {count} field{plural}; journal, inventory, edition, memory and trace are five, with tabs between them"
        );
        return Entry { line, trace: None, session: Err(wrong), bytes };
    };
    let session = session(journal, inventory, edition, memory, trace);
    Entry { line, trace: path(trace), session, bytes }
}

fn session(
    journal: &OsStr,
    inventory: &OsStr,
    edition: &OsStr,
    memory: &OsStr,
    trace: &OsStr,
) -> Result<Session, String> {
    Ok(Session {
        journal: path(journal),
        inventory: path(inventory),
        edition: number("the edition", edition, 0..=u32::MAX as u64)? as u32,
        memory: memory_of(memory)?,
        trace: path(trace).ok_or("it names no trace")?,
    })
}

/// A file; none where the field is empty.
fn path(field: &OsStr) -> Option<PathBuf> {
    Some(PathBuf::from(field)).filter(|path| !path.as_os_str().is_empty())
}

/// If the field is a size, that of memory; otherwise its file.
fn memory_of(field: &OsStr) -> Result<Memory, String> {
    match path(field) {
        _ if is_size(field) => Ok(Memory::Zeros(size("the memory", field, MEMORY_LIMIT)?)),
        Some(path) => Ok(Memory::File(path)),
        None => Err(String::from("it names no memory: neither a file nor a size")),
    }
}

#[cfg(test)]
mod tests {
    use super::{entry, Session};
    use crate::shared::input::Memory;
    use std::ffi::OsStr;
    use std::os::unix::ffi::OsStrExt;

    fn of(line: &[u8]) -> Result<Session, String> {
        entry(7, line, 9).session
    }

    #[test]
    fn a_session_is_read() {
        let session = Session {
            journal: Some("j".into()),
            inventory: Some("i 1".into()),
            edition: 7,
            memory: Memory::File("m".into()),
            trace: "t".into(),
        };
        assert_eq!(of(b"j\ti 1\t0x7\tm\tt"), Ok(session));
        let least =
            Session { journal: None, inventory: None, edition: 0, memory: Memory::Zeros(0x3000), trace: "t".into() };
        assert_eq!(of(b"\t\t0\t0x3000\tt").as_ref(), Ok(&least));
        assert_eq!(of(b"\t\t0\t12288\tt").as_ref(), Ok(&least));
        let found = entry(7, b"\t\t0\t12288\tt", 9);
        assert_eq!((found.line, found.trace, found.bytes), (7, Some("t".into()), 9));
    }

    #[test]
    fn a_name_may_hold_any_bytes() {
        assert_eq!(of(b"\t\t0\t1\tt\xff").unwrap().trace.as_os_str(), OsStr::from_bytes(b"t\xff"));
    }

    #[test]
    fn memory_is_a_file_if_it_is_no_size() {
        for name in ["0x", "12k", "./12", "0X1", "-1", "0x1g", "2026/m", "./12K", "K"] {
            let line = format!("\t\t0\t{name}\tt");
            assert_eq!(of(line.as_bytes()).unwrap().memory, Memory::File(name.into()));
        }
        assert_eq!(of(b"\t\t0\t12K\tt").unwrap().memory, Memory::Zeros(12288));
    }

    #[test]
    fn what_is_wrong_with_a_line_is_told() {
        let fields = "fields; journal, inventory, edition, memory and trace are five, with tabs between them";
        let edition = "the edition needs a number from 0 to 4294967295, decimal or after 0x hexadecimal, and was given";
        let form = "decimal or after 0x hexadecimal, which K, M or G may follow";
        let memory = format!("the memory needs a size from 0 to 4294971392 bytes, {form}, and was given");
        let cases = [
            ("j\ti\t0\t1", format!("it has 4 {fields}")),
            ("j\ti\t0\t1\tt\t", format!("it has 6 {fields}")),
            ("j i 0 1 t", format!("it has 1 {fields}").replace("fields", "field")),
            ("\t\t\t1\tt", format!("{edition} ")),
            ("\t\tx\t1\tt", format!("{edition} x")),
            ("\t\t4294967296\t1\tt", format!("{edition} 4294967296")),
            ("\t\t0\t4294971393\tt", format!("{memory} 4294971393")),
            ("\t\t0\t99999999999999999999\tt", format!("{memory} 99999999999999999999")),
            ("\t\t0\t\tt", String::from("it names no memory: neither a file nor a size")),
            ("\t\t0\t1\t", String::from("it names no trace")),
        ];
        for (line, message) in cases {
            assert_eq!(of(line.as_bytes()), Err(message));
        }
        assert_eq!(entry(1, b"\t\tx\t1\tt", 9).trace, Some("t".into()));
    }
}
