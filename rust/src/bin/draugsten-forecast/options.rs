//! The command line.

use crate::shared::arguments::Arguments;
use crate::shared::names::shown;
use crate::shared::numbers::number;
use std::ffi::OsStr;
use std::path::PathBuf;

#[derive(PartialEq, Eq, Debug)]
pub struct Options {
    pub journal: PathBuf,
    pub scope: i32,
    pub state: u32,
}

/// The options, or what is wrong with them.
pub fn judge(given: Arguments) -> Result<Options, String> {
    let of = |name| given.value(name).unwrap_or_default();
    let scope = read_scope(of("SCOPE"))?;
    let state = number("STATE", of("STATE"), 0..=u64::from(u32::MAX))?;
    Ok(Options { journal: of("JOURNAL").into(), scope, state: state as u32 })
}

/// A word of 32 bits, which may be written as a negative number.
fn read_scope(text: &OsStr) -> Result<i32, String> {
    let name = text.to_string_lossy();
    let read = match name.strip_prefix('-') {
        Some(digits) if digits.starts_with("0x") => None,
        Some(digits) => number("SCOPE", OsStr::new(digits), 0..=1 << 31).ok().map(u64::wrapping_neg),
        None => number("SCOPE", text, 0..=u64::from(u32::MAX)).ok(),
    };
    read.map(|value| value as u32 as i32).ok_or_else(|| {
        let range = format!("from {} to {}", i32::MIN, u32::MAX);
        format!("SCOPE needs a number {range}, decimal or after 0x hexadecimal, and was given {}", shown(text))
    })
}

#[cfg(test)]
mod tests {
    use super::{judge, Options};
    use crate::shared::arguments::Arguments;
    use crate::FORECAST;
    use std::ffi::OsString;

    fn of(words: &[&str]) -> Result<Options, String> {
        let read = Arguments::read(FORECAST.help, words.iter().map(OsString::from))?;
        judge(read.expect("no help is asked for"))
    }

    fn options(scope: i32, state: u32) -> Result<Options, String> {
        Ok(Options { journal: "j".into(), scope, state })
    }

    #[test]
    fn numbers_have_32_bits() {
        for (text, scope) in [
            ("1", 1),
            ("-1", -1),
            ("-0", 0),
            ("0x80000000", i32::MIN),
            ("0xFFFFFFFF", -1),
            ("-2147483648", i32::MIN),
            ("4294967295", -1),
            ("2147483648", i32::MIN),
        ] {
            assert_eq!(of(&["j", text, "0"]), options(scope, 0), "{text}");
        }
        assert_eq!(of(&["j", "2", "4294967295"]), options(2, u32::MAX));
        assert_eq!(of(&["j", "2", "0x3fa"]), options(2, 1018));
    }

    #[test]
    fn other_numbers_are_refused_by_their_name() {
        for text in ["4294967296", "-2147483649", "0x100000000", "-0x1", "x", "0x", "-", "+1", "1.5", "1K", ""] {
            let range = "from -2147483648 to 4294967295, decimal or after 0x hexadecimal";
            let expected = format!("SCOPE needs a number {range}, and was given {text}");
            assert_eq!(of(&["j", text, "0"]), Err(expected));
        }
        for text in ["4294967296", "-1", "-0", "", "0x100000000", "1k"] {
            let state = "STATE needs a number from 0 to 4294967295, decimal or after 0x hexadecimal, and was given";
            assert_eq!(of(&["j", "1", text]), Err(format!("{state} {text}")));
        }
    }

    #[test]
    fn bad_arguments_are_refused() {
        let cases: [(&[&str], &str); 7] = [
            (&[], "JOURNAL has to be given"),
            (&["j"], "SCOPE has to be given"),
            (&["j", "1"], "STATE has to be given"),
            (&["j", "1", "0", "5"], "5 is one argument too many"),
            (&["--wat", "--help"], "unknown argument --wat"),
            (&["j", "--1", "0"], "unknown argument --1"),
            (&["", "1", "0"], "JOURNAL names no file"),
        ];
        for (words, message) in cases {
            assert_eq!(of(words), Err(String::from(message)));
        }
    }

    #[test]
    fn the_help_tells_the_ranges() {
        assert!(FORECAST.help.contains(&format!("from {} to {};", i32::MIN, u32::MAX)));
        assert!(FORECAST.help.contains(&format!("from 0 to {};", u32::MAX)));
    }
}
