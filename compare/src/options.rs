//! The command line.

use crate::shared::arguments::Arguments;
use crate::shared::numbers::number;

pub struct Options {
    pub cases: u64,
    pub seed: u64,
    pub only: Option<u64>,
    pub fixed: bool,
    /// Whether the result alone is printed.
    pub quiet: bool,
}

/// The options, or what is wrong with them.
pub fn judge(given: Arguments) -> Result<Options, String> {
    let of = |name: &str| given.value(name).map(|text| number(name, text, 0..=u64::MAX)).transpose();
    Ok(Options {
        cases: of("--cases")?.unwrap_or(200_000),
        seed: of("--seed")?.unwrap_or(1),
        only: of("--only")?,
        fixed: !given.flag("--random-only"),
        quiet: given.flag("--quiet"),
    })
}

#[cfg(test)]
mod tests {
    use super::{judge, Options};
    use crate::shared::arguments::Arguments;
    use crate::COMPARE;
    use std::ffi::OsString;

    fn of(line: &str) -> Result<Options, String> {
        let read = Arguments::read(COMPARE.help, line.split_whitespace().map(OsString::from))?;
        judge(read.expect("no help is asked for"))
    }

    #[test]
    fn options_are_read() {
        for line in
            ["--cases 5 --seed 7 --only 3 --random-only --quiet", "--quiet --cases=5 --random-only --seed=7 --only=3"]
        {
            let options = of(line).unwrap();
            assert_eq!((options.cases, options.seed, options.only), (5, 7, Some(3)));
            assert!(!options.fixed && options.quiet);
        }
        let options = of("").unwrap();
        assert_eq!((options.cases, options.seed, options.only), (200_000, 1, None));
        assert!(options.fixed && !options.quiet);
    }

    #[test]
    fn bad_arguments_are_refused() {
        for line in ["--cases", "--cases x", "--cases -1", "--what", "--quiet=1", "5", "--seed 18446744073709551616"] {
            assert!(of(line).is_err(), "{line}");
        }
    }

    #[test]
    fn the_help_tells_the_defaults() {
        let options = of("").unwrap();
        assert!(COMPARE.help.contains(&format!("without it {}\n", options.cases)));
        assert!(COMPARE.help.contains(&format!("without it {}\n", options.seed)));
    }
}
