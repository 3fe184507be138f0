//! The command line.

use crate::shared::arguments::Arguments;
use crate::shared::numbers::number;
use crate::shared::sources::{self, Source};
use std::path::PathBuf;

/// Sessions that are replayed at a time, at the most.
const THREADS_LIMIT: u64 = 1024;

#[derive(PartialEq, Eq, Debug, Default)]
pub struct Options {
    pub csv: bool,
    /// Whether a list without a session is taken, if no table is given either.
    pub allow_empty: bool,
    /// Whether a session that was added is added again if it comes again.
    pub allow_repeats: bool,
    pub tables: Vec<PathBuf>,
    /// As many as there are cores, if there is none.
    pub threads: Option<usize>,
    /// Standard input, if there is none.
    pub list: Option<PathBuf>,
}

/// The options, or what is wrong with them.
pub fn judge(given: Arguments) -> Result<Options, String> {
    let threads = given.value("--threads").map(|text| number("--threads", text, 1..=THREADS_LIMIT)).transpose()?;
    Ok(Options {
        csv: given.flag("--csv"),
        allow_empty: given.flag("--allow-empty"),
        allow_repeats: given.flag("--allow-repeats"),
        tables: given.values("--merge").into_iter().map(PathBuf::from).collect(),
        threads: threads.map(|threads| threads as usize),
        list: given.value("LIST").filter(|name| *name != "-").map(PathBuf::from),
    })
}

/// Refuses two files of which the first would take the bytes of the second.
pub fn check(options: Options) -> Result<Options, String> {
    let mut sources: Vec<Source> = options.tables.iter().filter_map(|path| Source::file("--merge", path)).collect();
    sources.extend(match &options.list {
        Some(path) => Source::file("the list", path),
        None => Source::standard_input("standard input, the list,"),
    });
    sources::check(&sources).map(|()| options)
}

#[cfg(test)]
mod tests {
    use super::{judge, Options, THREADS_LIMIT};
    use crate::shared::arguments::Arguments;
    use crate::shared::input::MEMORY_LIMIT;
    use crate::MONTH;
    use std::ffi::OsString;

    fn of(line: &str) -> Result<Options, String> {
        let read = Arguments::read(MONTH.help, line.split_whitespace().map(OsString::from))?;
        judge(read.expect("no help is asked for"))
    }

    #[test]
    fn options_are_read() {
        assert_eq!(of(""), Ok(Options::default()));
        assert_eq!(of("-"), Ok(Options::default()));
        let expected = Options {
            csv: true,
            allow_empty: true,
            allow_repeats: true,
            tables: vec!["a".into(), "--csv".into(), "a".into()],
            threads: Some(16),
            list: Some("l".into()),
        };
        assert_eq!(
            of("--merge a l --csv --merge --csv --threads 0x10 --allow-empty --allow-repeats --merge=a"),
            Ok(expected)
        );
        assert_eq!(of("--allow-empty"), Ok(Options { allow_empty: true, ..Options::default() }));
        assert!(!of("--merge --allow-empty").unwrap().allow_empty);
    }

    #[test]
    fn bad_arguments_are_refused() {
        let threads = "--threads needs a number from 1 to 1024, decimal or after 0x hexadecimal, and was given ";
        let cases = [
            ("--csv --csv", String::from("--csv is given twice")),
            ("--threads 0", format!("{threads}0")),
            ("--threads=1025", format!("{threads}1025")),
            ("--threads 1K", format!("{threads}1K")),
            ("--merge", String::from("--merge needs a value after it")),
            ("a b", String::from("b is one argument too many")),
            ("--wat --help", String::from("unknown argument --wat")),
        ];
        for (line, message) in cases {
            assert_eq!(of(line), Err(message));
        }
    }

    #[test]
    fn the_help_tells_the_limits() {
        assert!(MONTH.help.contains(&format!("at most {MEMORY_LIMIT} bytes")));
        assert!(MONTH.help.contains(&format!("1 to {THREADS_LIMIT};")));
    }
}
