//! The command line.

use crate::items::File;
use crate::shared::arguments::Arguments;
use crate::shared::numbers::number;
use std::path::PathBuf;

/// A call takes two records, and a trace has at most 2^32 - 1.
const CALLS_LIMIT: u64 = u32::MAX as u64 / 2;

#[derive(PartialEq, Eq, Debug, Default)]
pub struct Options {
    /// What the file is; if there is none, its first record tells.
    pub file: Option<File>,
    /// The call to show alone.
    pub call: Option<u64>,
    pub json: bool,
    /// Whether a file without a record is taken.
    pub allow_empty: bool,
    /// Standard input, if there is none.
    pub path: Option<PathBuf>,
}

/// The options, or what is wrong with them.
pub fn judge(given: Arguments) -> Result<Options, String> {
    let call = given.value("--call").map(|text| number("--call", text, 1..=CALLS_LIMIT)).transpose()?;
    let allow_empty = given.flag("--allow-empty");
    if call.is_some() && allow_empty {
        return Err(String::from("an empty trace has no call; leave out --call or --allow-empty"));
    }
    Ok(Options {
        file: judge_file(&given, call.is_some())?,
        call,
        json: given.flag("--json"),
        allow_empty,
        path: given.value("RECORDS").filter(|name| *name != "-").map(PathBuf::from),
    })
}

/// What the file is, if the options say it. One of which a call is shown is a trace.
fn judge_file(given: &Arguments, has_call: bool) -> Result<Option<File>, String> {
    let option = |file: File| format!("--{}", file.name());
    let files = [File::Journal, File::Inventory, File::Trace].into_iter().filter(|file| given.flag(&option(*file)));
    match files.collect::<Vec<File>>()[..] {
        [first, second, ..] => Err(format!("{} and {} are both given; give one", option(first), option(second))),
        [file] if has_call && file != File::Trace => {
            Err(format!("--call shows a call of a trace, and {} is given; leave one out", option(file)))
        }
        [file] => Ok(Some(file)),
        [] => Ok(has_call.then_some(File::Trace)),
    }
}

#[cfg(test)]
mod tests {
    use super::{judge, Options};
    use crate::items::File;
    use crate::shared::arguments::Arguments;
    use crate::SHOW;
    use std::ffi::OsString;

    fn of(line: &str) -> Result<Options, String> {
        let read = Arguments::read(SHOW.help, line.split_whitespace().map(OsString::from))?;
        judge(read.expect("no help is asked for"))
    }

    #[test]
    fn options_stand_in_any_order() {
        let named = || Options { path: Some("f".into()), ..Options::default() };
        assert_eq!(
            (of("").unwrap(), of("-").unwrap(), of("f").unwrap()),
            (Options::default(), Options::default(), named())
        );
        let expected = || Options { file: Some(File::Journal), json: true, allow_empty: true, ..named() };
        assert_eq!(of("--journal --json --allow-empty f"), Ok(expected()));
        assert_eq!(of("f --allow-empty --json --journal"), Ok(expected()));
        assert_eq!(of("--inventory"), Ok(Options { file: Some(File::Inventory), ..Options::default() }));
    }

    #[test]
    fn a_call_is_one_of_a_trace() {
        let expected = |call| Ok(Options { file: Some(File::Trace), call: Some(call), ..Options::default() });
        for (line, call) in [("--call 1", 1), ("--trace --call 0x7fffffff", 2_147_483_647), ("--call=12 --trace", 12)] {
            assert_eq!(of(line), expected(call), "{line}");
        }
        for text in ["0", "2147483648", "-1", "x", "1.5"] {
            let range = "a number from 1 to 2147483647, decimal or after 0x hexadecimal";
            assert_eq!(of(&format!("--call {text}")), Err(format!("--call needs {range}, and was given {text}")));
        }
    }

    #[test]
    fn bad_arguments_are_refused() {
        let cases = [
            ("--wat", "unknown argument --wat"),
            ("f --jsn", "unknown argument --jsn"),
            ("f g", "g is one argument too many"),
            ("- f", "f is one argument too many"),
            ("--json=1", "--json takes no value, and was given 1"),
            ("--json --json", "--json is given twice"),
            ("--allow-empty f --allow-empty", "--allow-empty is given twice"),
            ("--trace --trace", "--trace is given twice"),
            ("--journal --trace", "--journal and --trace are both given; give one"),
            ("--trace --inventory", "--inventory and --trace are both given; give one"),
            ("--call 1 --call 1", "--call is given twice"),
            ("f --call", "--call needs a value after it"),
            ("--call 1 --journal", "--call shows a call of a trace, and --journal is given; leave one out"),
            ("--inventory --call 1", "--call shows a call of a trace, and --inventory is given; leave one out"),
            ("--call 1 --allow-empty", "an empty trace has no call; leave out --call or --allow-empty"),
        ];
        for (line, message) in cases {
            assert_eq!(of(line), Err(String::from(message)), "{line}");
        }
    }
}
