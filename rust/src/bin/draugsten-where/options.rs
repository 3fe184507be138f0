//! The command line.

use crate::shared::arguments::Arguments;
use crate::shared::numbers::number;
use crate::shared::sources::{self, Source};
use std::path::PathBuf;

#[derive(PartialEq, Eq, Debug)]
pub struct Options {
    pub index: u32,
    pub area: PathBuf,
    pub fixed: PathBuf,
}

/// The options, or what is wrong with them.
pub fn judge(given: Arguments) -> Result<Options, String> {
    let of = |name| given.value(name).unwrap_or_default();
    let index = number("INDEX", of("INDEX"), 0..=u64::from(u32::MAX))?;
    Ok(Options { index: index as u32, area: of("--area").into(), fixed: of("--fixed").into() })
}

/// A pipe can be read once, so that it cannot be both files.
pub fn check(options: Options) -> Result<Options, String> {
    let sources = [Source::file("--area", &options.area), Source::file("--fixed", &options.fixed)];
    let sources: Vec<Source> = sources.into_iter().flatten().collect();
    sources::check(&sources).map(|()| options)
}

#[cfg(test)]
mod tests {
    use super::{judge, Options};
    use crate::shared::arguments::Arguments;
    use crate::WHERE;
    use std::ffi::OsString;

    fn of(words: &[&str]) -> Result<Options, String> {
        let read = Arguments::read(WHERE.help, words.iter().map(OsString::from))?;
        judge(read.expect("no help is asked for"))
    }

    fn of_line(line: &str) -> Result<Options, String> {
        of(&line.split_whitespace().collect::<Vec<_>>())
    }

    fn options(index: u32) -> Result<Options, String> {
        Ok(Options { index, area: "a".into(), fixed: "f".into() })
    }

    #[test]
    fn options_stand_in_any_order() {
        for line in ["7 --area a --fixed f", "--fixed f 7 --area a", "--area a --fixed f 0x7", "--area=a 007 --fixed=f"]
        {
            assert_eq!(of_line(line), options(7), "{line}");
        }
    }

    #[test]
    fn an_index_has_32_bits() {
        for (text, index) in [("0", 0), ("4294967295", u32::MAX), ("0xffffffff", u32::MAX), ("0xFE", 254)] {
            assert_eq!(of(&[text, "--area", "a", "--fixed", "f"]), options(index), "{text}");
        }
        for text in ["4294967296", "-1", "-0", "0x100000000", "x", "0x", "+1", "1.5", "1K", "-", ""] {
            let range = "a number from 0 to 4294967295, decimal or after 0x hexadecimal";
            let expected = format!("INDEX needs {range}, and was given {text}");
            assert_eq!(of(&[text, "--area", "a", "--fixed", "f"]), Err(expected));
        }
    }

    #[test]
    fn bad_arguments_are_refused() {
        let cases = [
            ("", "INDEX has to be given"),
            ("--area a --fixed f", "INDEX has to be given"),
            ("7 --fixed f", "--area FILE has to be given"),
            ("7 --area a", "--fixed FILE has to be given"),
            ("7 --area", "--area needs a value after it"),
            ("7 --area a --fixed f --area b", "--area is given twice"),
            ("7 8 --area a --fixed f", "8 is one argument too many"),
            ("7 --area a --fixed f -x", "unknown argument -x"),
            ("7 --area a --fixed=", "--fixed names no file"),
        ];
        for (line, message) in cases {
            assert_eq!(of_line(line), Err(String::from(message)), "{line}");
        }
    }

    #[test]
    fn the_help_tells_the_range() {
        assert!(WHERE.help.contains(&format!("from 0 to {},", u32::MAX)));
    }
}
