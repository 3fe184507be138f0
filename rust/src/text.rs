//! The words of the library's numbers: those of `include/draugsten_text.h`, so that C and this crate have the same.

use std::sync::OnceLock;

const HEADER: &str = include_str!("../../include/draugsten_text.h");

/// A line of the table: a kind by its name there, a number, and its words.
type Line = (&'static str, i32, &'static str);

/// The words of a number, of a kind by the table's name for it.
pub(crate) fn words(kind: &str, number: i32) -> &'static str {
    static TABLE: OnceLock<Vec<Line>> = OnceLock::new();
    let table = TABLE.get_or_init(|| HEADER.lines().filter_map(line).collect());
    let found = table.iter().find(|line| line.0 == kind && line.1 == number);
    found.unwrap_or_else(|| unreachable!("the table has no words for {number} of {kind}")).2
}

/// A line as `X(STATUS, -3, "parameter") \`; none, if it is another line of the header, or its number is hexadecimal: of these
/// nothing is displayed.
fn line(line: &'static str) -> Option<Line> {
    let (kind, rest) = line.trim_start().strip_prefix("X(")?.split_once(", ")?;
    let (number, rest) = rest.split_once(", \"")?;
    Some((kind, number.parse().ok()?, rest.split('"').next()?))
}
