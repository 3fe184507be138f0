//! The command line.

use crate::shared::arguments::Arguments;
use crate::shared::input::{Memory, MEMORY_LIMIT};
use crate::shared::numbers::{number, size};
use std::path::PathBuf;

#[derive(PartialEq, Eq, Debug)]
pub struct Options {
    pub memory: Memory,
    pub journal: Option<PathBuf>,
    pub inventory: Option<PathBuf>,
    pub edition: u32,
    /// Whether a trace without a call is taken as one that agrees.
    pub allow_empty: bool,
    /// Standard input, if there is none.
    pub trace: Option<PathBuf>,
}

/// The options, or what is wrong with them.
pub fn judge(given: Arguments) -> Result<Options, String> {
    let memory = match (given.value("--memory"), given.value("--memory-size")) {
        (Some(file), None) => Memory::File(file.into()),
        (None, Some(text)) => Memory::Zeros(size("--memory-size", text, MEMORY_LIMIT)?),
        _ => return Err(String::from("--memory and --memory-size are given both; give one")),
    };
    let edition = given.value("--edition").map_or(Ok(0), |text| number("--edition", text, 0..=u32::MAX as u64))?;
    Ok(Options {
        memory,
        journal: given.value("--journal").map(PathBuf::from),
        inventory: given.value("--inventory").map(PathBuf::from),
        edition: edition as u32,
        allow_empty: given.flag("--allow-empty"),
        trace: given.value("TRACE").filter(|name| *name != "-").map(PathBuf::from),
    })
}

#[cfg(test)]
mod tests {
    use super::{judge, Memory, Options, MEMORY_LIMIT};
    use crate::shared::arguments::Arguments;
    use crate::REPLAY;
    use std::ffi::OsString;

    fn of(line: &str) -> Result<Options, String> {
        let read = Arguments::read(REPLAY.help, line.split_whitespace().map(OsString::from))?;
        judge(read.expect("no help is asked for"))
    }

    #[test]
    fn options_are_read() {
        let expected = Options {
            memory: Memory::File("m".into()),
            journal: Some("j".into()),
            inventory: Some("i".into()),
            edition: 7,
            allow_empty: true,
            trace: Some("t".into()),
        };
        assert_eq!(of("--journal j --inventory i t --edition 7 --allow-empty --memory m").as_ref(), Ok(&expected));
        assert_eq!(of("--journal=j --inventory=i --edition=0x7 t --allow-empty --memory=m"), Ok(expected));
        let least = Options {
            memory: Memory::Zeros(0),
            journal: None,
            inventory: None,
            edition: 0,
            allow_empty: false,
            trace: None,
        };
        assert_eq!(of("--memory-size 0").as_ref(), Ok(&least));
        assert_eq!(of("- --memory-size 0x0").as_ref(), Ok(&least));
    }

    #[test]
    fn memory_has_a_size_in_bytes() {
        for (text, value) in [("12288", 0x3000), ("0x3000", 0x3000), ("12K", 0x3000), ("4294971392", MEMORY_LIMIT)] {
            assert_eq!(of(&format!("--memory-size {text}")).unwrap().memory, Memory::Zeros(value));
            assert_eq!(of(&format!("--memory-size={text}")).unwrap().memory, Memory::Zeros(value));
        }
        for text in ["-1", "1k", "5G", "4294971393", "--help"] {
            let message = of(&format!("--memory-size {text}")).unwrap_err();
            assert!(message.starts_with("--memory-size needs a size from 0 to 4294971392 bytes"), "{message}");
            assert!(message.ends_with(&format!("and was given {text}")), "{message}");
        }
    }

    #[test]
    fn an_edition_has_32_bits() {
        assert_eq!(of("--memory-size 1 --edition 4294967295").unwrap().edition, u32::MAX);
        for text in ["4294967296", "1K", "x"] {
            let message = of(&format!("--memory-size 1 --edition {text}")).unwrap_err();
            assert!(message.starts_with("--edition needs a number from 0 to 4294967295"), "{message}");
        }
    }

    #[test]
    fn the_help_tells_how_long_memory_may_be() {
        assert!(REPLAY.help.contains(&format!("at most {MEMORY_LIMIT} bytes")));
    }

    #[test]
    fn bad_arguments_are_refused() {
        let cases = [
            ("", "--memory FILE or --memory-size BYTES has to be given"),
            ("--memory m --memory-size 1", "--memory and --memory-size are given both; give one"),
            ("--memory-size 1 --journal", "--journal needs a value after it"),
            ("--allow-empty=1 --memory-size 1", "--allow-empty takes no value, and was given 1"),
            ("--memory-size 1 a b", "b is one argument too many"),
            ("--memory-size 1 --wat", "unknown argument --wat"),
        ];
        for (line, message) in cases {
            assert_eq!(of(line), Err(String::from(message)));
        }
    }
}
