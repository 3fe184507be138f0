//! The command line, by what a command's help lists: each option and operand is an item of its section OPTIONS, and
//! SYNOPSIS has in square brackets what may be left out.

use super::names::shown;
use std::ffi::{OsStr, OsString};
use std::os::unix::ffi::OsStrExt;

/// The value of an item that is a file.
const FILE: &str = "FILE";

/// The arguments of a command, by the names that its help has for them.
#[derive(Debug)]
pub struct Arguments {
    given: Vec<(&'static str, OsString)>,
}

/// An item of OPTIONS: `--csv`, `--edition N`, `--merge FILE...`, which may be given more than once, `INDEX`, or
/// `TRACE (FILE)`, an operand that is a file.
#[derive(Clone, Copy, PartialEq, Eq, Debug)]
struct Item {
    name: &'static str,
    value: Option<&'static str>,
    repeats: bool,
}

impl Item {
    fn of(text: &'static str) -> Item {
        let (name, value) = text.split_once(' ').map_or((text, None), |(name, value)| (name, Some(value)));
        let repeats = value.is_some_and(|value| value.ends_with("..."));
        let value = value.map(|value| value.trim_end_matches("...").trim_matches(['(', ')']));
        Item { name, value, repeats }
    }

    fn is_option(&self) -> bool {
        self.name.starts_with('-')
    }
}

/// The lines of a section of a help.
fn section(help: &'static str, name: &'static str) -> impl Iterator<Item = &'static str> {
    let lines = help.lines().skip_while(move |line| *line != name).skip(1);
    lines.take_while(|line| line.is_empty() || line.starts_with(' '))
}

fn items(help: &'static str) -> Vec<Item> {
    let texts = section(help, "OPTIONS").filter_map(|line| line.strip_prefix("  "));
    texts.filter(|text| !text.is_empty() && !text.starts_with(' ')).map(Item::of).collect()
}

impl Arguments {
    /// The arguments; none, if help is asked for in the place of an option; or what is wrong with them.
    pub fn read(help: &'static str, words: impl Iterator<Item = OsString>) -> Result<Option<Arguments>, String> {
        let (options, operands) = items(help).into_iter().partition(Item::is_option);
        let mut reader = Reader { options, operands, ended: false, given: vec![] };
        let mut words = words;
        while let Some(word) = words.next() {
            if !reader.ended && (word == "--help" || word == "-h") {
                return Ok(None);
            }
            reader.take(word, &mut words)?;
        }
        let arguments = Arguments { given: reader.given };
        let missing = needed(help).into_iter().find(|one_of| !one_of.iter().any(|text| arguments.has(text)));
        match missing {
            Some(one_of) => Err(format!("{} has to be given", one_of.join(" or "))),
            None => Ok(Some(arguments)),
        }
    }

    /// Whether an item of SYNOPSIS is given, which may have a value after its name.
    fn has(&self, text: &str) -> bool {
        text.split(' ').next().is_some_and(|name| self.flag(name))
    }

    /// Whether an option without a value is given.
    pub fn flag(&self, name: &str) -> bool {
        self.value(name).is_some()
    }

    /// The value of an option, or an operand, if it is given.
    pub fn value(&self, name: &str) -> Option<&OsStr> {
        self.values(name).first().copied()
    }

    /// All values of an option.
    pub fn values(&self, name: &str) -> Vec<&OsStr> {
        self.given.iter().filter(|(given, _)| *given == name).map(|(_, value)| &value[..]).collect()
    }
}

struct Reader {
    options: Vec<Item>,
    operands: Vec<Item>,
    /// Whether `--` was there: after it there are operands alone.
    ended: bool,
    given: Vec<(&'static str, OsString)>,
}

impl Reader {
    /// Takes a word, and the next one if it is the value of an option. A minus before a digit begins a number.
    fn take(&mut self, word: OsString, words: &mut impl Iterator<Item = OsString>) -> Result<(), String> {
        let bytes = word.as_bytes();
        let begins_option = bytes.len() > 1 && bytes[0] == b'-' && !bytes[1].is_ascii_digit();
        if self.ended || !begins_option {
            return self.take_operand(word);
        }
        if word == "--" {
            self.ended = true;
            return Ok(());
        }
        let (name, value) = match bytes.iter().position(|byte| *byte == b'=') {
            Some(at) => (&bytes[..at], Some(OsStr::from_bytes(&bytes[at + 1..]).to_owned())),
            None => (bytes, None),
        };
        let known = self.options.iter().find(|item| item.name.as_bytes() == name);
        let item = *known.ok_or_else(|| format!("unknown argument {}", shown(&word)))?;
        match (item.value, value) {
            (None, None) => self.give(item, OsString::new()),
            (None, Some(value)) => Err(format!("{} takes no value, and was given {}", item.name, shown(&value))),
            (Some(_), Some(value)) => self.give(item, value),
            (Some(_), None) => {
                let value = words.next().ok_or_else(|| format!("{} needs a value after it", item.name))?;
                self.give(item, value)
            }
        }
    }

    fn take_operand(&mut self, word: OsString) -> Result<(), String> {
        if self.operands.is_empty() {
            return Err(format!("{} is one argument too many", shown(&word)));
        }
        let item = self.operands.remove(0);
        self.give(item, word)
    }

    fn give(&mut self, item: Item, value: OsString) -> Result<(), String> {
        if item.value == Some(FILE) && value.is_empty() {
            return Err(format!("{} names no file", item.name));
        }
        if !item.repeats && self.given.iter().any(|(name, _)| *name == item.name) {
            return Err(format!("{} is given twice", item.name));
        }
        self.given.push((item.name, value));
        Ok(())
    }
}

/// What SYNOPSIS has outside of square brackets: an item alone, or some in round brackets, of which one is needed.
fn needed(help: &'static str) -> Vec<Vec<String>> {
    let (outside, _) = section(help, "SYNOPSIS").flat_map(str::chars).fold((String::new(), 0), pass_bracket);
    let (front, rest) = outside.split_once('(').unwrap_or((&outside, ""));
    let (choice, rest) = rest.split_once(')').unwrap_or(("", rest));
    let alone = format!("{front}{rest}");
    let mut found: Vec<Vec<String>> = vec![];
    for word in alone.split_whitespace().skip(2).filter(|word| *word != "...") {
        match (items(help).iter().any(|item| item.name == word), found.last_mut()) {
            (false, Some(last)) => last[0] += &format!(" {word}"),
            _ => found.push(vec![String::from(word)]),
        }
    }
    if !choice.is_empty() {
        found.push(choice.split('|').map(|text| String::from(text.trim())).collect());
    }
    found
}

/// Takes a character that stands outside of square brackets, of which so many are open.
fn pass_bracket((mut outside, open): (String, u32), next: char) -> (String, u32) {
    match next {
        '[' => (outside, open + 1),
        ']' => (outside, open - 1),
        _ if open > 0 => (outside, open),
        _ => {
            outside.push(next);
            (outside, open)
        }
    }
}

#[cfg(test)]
mod tests {
    use super::{items, needed, Arguments, Item};
    use std::ffi::{OsStr, OsString};
    use std::os::unix::ffi::OsStringExt;

    const HELP: &str = "\
NAME
  ./draugsten lift - lifts

SYNOPSIS
  ./draugsten lift (--crane FILE | --size BYTES) --hook FILE [--quiet]
      [--merge FILE]... LOAD [HEIGHT]

OPTIONS
  --crane FILE
      --odd text at another place
  --size BYTES
      the size

  --hook FILE
  --quiet
  --merge FILE...
  LOAD (FILE)
  HEIGHT

EXIT STATUS
  0  lifted
";

    fn read(words: &[&str]) -> Result<Arguments, String> {
        Arguments::read(HELP, words.iter().map(OsString::from)).map(|read| read.expect("no help is asked for"))
    }

    fn of(line: &str) -> Result<Arguments, String> {
        read(&line.split_whitespace().collect::<Vec<_>>())
    }

    fn refused(line: &str) -> String {
        of(line).unwrap_err()
    }

    #[test]
    fn the_help_is_the_table() {
        let file = Some("FILE");
        let item = |name, value, repeats| Item { name, value, repeats };
        let expected = [
            item("--crane", file, false),
            item("--size", Some("BYTES"), false),
            item("--hook", file, false),
            item("--quiet", None, false),
            item("--merge", file, true),
            item("LOAD", file, false),
            item("HEIGHT", None, false),
        ];
        assert_eq!(items(HELP), expected);
        assert_eq!(needed(HELP), [vec!["--hook FILE"], vec!["LOAD"], vec!["--crane FILE", "--size BYTES"]]);
    }

    #[test]
    fn a_value_stands_after_its_option_or_after_an_equals_sign() {
        for line in ["--size 7 --hook h l -1", "l --hook=h -1 --size=7", "--hook h --size=7 -- l -1"] {
            let arguments = of(line).unwrap();
            let found = ["--size", "--hook", "LOAD", "HEIGHT", "--crane"].map(|name| arguments.value(name));
            assert_eq!(found, [Some("7"), Some("h"), Some("l"), Some("-1"), None].map(|text| text.map(OsStr::new)));
            assert!(!arguments.flag("--quiet"));
        }
        let arguments = of("--merge=a=b --merge --quiet --hook --help --size -h - --quiet --merge a").unwrap();
        assert_eq!(arguments.values("--merge"), ["a=b", "--quiet", "a"]);
        assert!(arguments.flag("--quiet"));
        let found = ["--hook", "--size", "LOAD"].map(|name| arguments.value(name).unwrap());
        assert_eq!(found, ["--help", "-h", "-"]);
        let arguments = of("--size 1 --hook h -- -x --help").unwrap();
        assert_eq!([arguments.value("LOAD").unwrap(), arguments.value("HEIGHT").unwrap()], ["-x", "--help"]);
        assert_eq!(read(&["--size=", "--hook", "h", "l"]).unwrap().value("--size"), Some(OsStr::new("")));
    }

    #[test]
    fn a_value_may_hold_any_bytes() {
        let name = |bytes: &[u8]| OsString::from_vec(bytes.to_vec());
        let words = [name(b"--size=1"), name(b"--hook=\xff"), name(b"\xfe")];
        let arguments = Arguments::read(HELP, words.into_iter()).unwrap().unwrap();
        assert_eq!(arguments.value("--hook"), Some(&name(b"\xff")[..]));
        assert_eq!(arguments.value("LOAD"), Some(&name(b"\xfe")[..]));
    }

    #[test]
    fn help_stands_in_the_place_of_an_option() {
        let asks = |line: &str| Arguments::read(HELP, line.split_whitespace().map(OsString::from)).unwrap().is_none();
        assert!(asks("--help") && asks("-h --wat") && asks("--size 7 l -h") && asks("a b --help"));
        assert_eq!(refused("--wat --help"), "unknown argument --wat");
        assert_eq!(refused("--size 7 --hook h -- --help --quiet -h"), "-h is one argument too many");
    }

    #[test]
    fn what_is_wrong_is_told() {
        let cases = [
            ("--wat", "unknown argument --wat"),
            ("--siz 1", "unknown argument --siz"),
            ("--wat=1", "unknown argument --wat=1"),
            ("-x", "unknown argument -x"),
            ("--odd", "unknown argument --odd"),
            ("LOAD=1 --hook", "--hook needs a value after it"),
            ("--quiet=1", "--quiet takes no value, and was given 1"),
            ("--quiet --quiet", "--quiet is given twice"),
            ("--size 1 --size=1", "--size is given twice"),
            ("--hook=", "--hook names no file"),
            ("l 1 2", "2 is one argument too many"),
            ("l", "--hook FILE has to be given"),
            ("--hook h", "LOAD has to be given"),
            ("--hook h l", "--crane FILE or --size BYTES has to be given"),
        ];
        for (line, message) in cases {
            assert_eq!(refused(line), message);
        }
        assert_eq!(read(&["--merge", ""]).unwrap_err(), "--merge names no file");
        assert_eq!(read(&[""]).unwrap_err(), "LOAD names no file");
        assert_eq!(read(&["--a\nb"]).unwrap_err(), "unknown argument --a\\x0ab");
    }
}
