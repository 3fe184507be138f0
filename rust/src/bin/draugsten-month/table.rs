//! The table for people.

use crate::account::Account;
use crate::digest::digits;
use draugsten::table::Table;
use draugsten::{Share, Status, Token, Totals};

/// A status by its number and its name.
fn status_name(status: Status) -> String {
    format!("{:>3} {status}", status as i32)
}

/// The calls, a column for each token and a line for each status; then what update-nodes handed out, and the sessions.
pub fn write(account: &Account) -> String {
    let (totals, table) = (account.totals(), account.table());
    let sessions = account.sessions().iter().map(|digest| line("session", &digits(digest)));
    format!("{}\n{}{}{}", calls(totals), words(totals), counts(&table), sessions.collect::<String>())
}

fn calls(totals: &Totals) -> String {
    let names = Token::ALL.map(|token| token.to_string());
    let mut lines = vec![(String::new(), names)];
    for status in Status::ALL {
        lines.push((status_name(status), Token::ALL.map(|token| totals.calls(token, status).to_string())));
    }
    lines.push((String::from("    all calls"), Token::ALL.map(|token| totals.token_calls(token).to_string())));
    columns(&lines)
}

/// Lines of a name and four cells, each cell at the right of its column.
fn columns(lines: &[(String, [String; 4])]) -> String {
    let widths = [0, 1, 2, 3].map(|at| lines.iter().map(|(_, cells)| cells[at].len()).max().unwrap_or(0));
    let first = lines.iter().map(|(name, _)| name.len()).max().unwrap_or(0);
    let mut text = String::new();
    for (name, cells) in lines {
        text += &format!("{name:<first$}");
        for (cell, width) in cells.iter().zip(widths) {
            text += &format!("  {cell:>width$}");
        }
        text.push('\n');
    }
    text
}

fn words(totals: &Totals) -> String {
    let share = totals.share();
    [
        line("operations handed out", &totals.operations().to_string()),
        line("words used", &totals.used().to_string()),
        line("words available", &totals.available().to_string()),
        line("share used", &format!("{share}, {}", percent(share))),
    ]
    .concat()
}

fn counts(table: &Table) -> String {
    let lines = [
        ("sessions added", table.added),
        ("sessions refused", table.refused),
        ("sessions unread", table.unread),
        ("calls agreed", table.agreed),
    ];
    lines.map(|(name, count)| line(name, &count.to_string())).concat()
}

fn line(name: &str, value: &str) -> String {
    format!("{name:<21}  {value}\n")
}

/// A share in percent, rounded down to four decimals where it does not come out even.
fn percent(share: Share) -> String {
    let (part, whole) = (share.part as u128 * 1_000_000, share.whole as u128);
    let (parts, even) = (part / whole, part.is_multiple_of(whole));
    let rest = if even { "" } else { " rounded down" };
    format!("{}.{:04} %{rest}", parts / 10_000, parts % 10_000)
}

#[cfg(test)]
mod tests {
    use super::{percent, write};
    use crate::account::Account;
    use draugsten::table::Table;
    use draugsten::{Figures, Share};

    #[test]
    fn percent_is_rounded_down() {
        let of = |part, whole| percent(Share { part, whole });
        assert_eq!(of(0, 1), "0.0000 %");
        assert_eq!(of(1, 1), "100.0000 %");
        assert_eq!(of(1, 8), "12.5000 %");
        assert_eq!(of(2, 3), "66.6666 % rounded down");
        assert_eq!(of(1, 1019), "0.0981 % rounded down");
        assert_eq!(of(u64::MAX - 1, u64::MAX), "99.9999 % rounded down");
        assert_eq!(of(1, u64::MAX), "0.0000 % rounded down");
    }

    #[test]
    fn columns_are_as_wide_as_their_widest() {
        let mut figures = Figures { operations: 1, used: 2, available: 2038, ..Figures::default() };
        figures.calls[0][1] = 2;
        figures.token_calls[0] = 2;
        figures.calls[1][3] = u64::MAX;
        figures.token_calls[1] = u64::MAX;
        let mut account = Account::new(false);
        let table = Table { figures, added: 2, refused: 3, unread: 4, agreed: u64::MAX };
        account.merge(0, &table, &[[0; 32], [0xa9; 32]]).unwrap();
        let expected = "
                                    ibm,update-nodes       ibm,get-indices  ibm,configure-kernel-dump  ibm,update-properties
  0 done                                           0                     0                          0                      0
  1 call again                                     2                     0                          0                      0
 -1 journal or inventory malformed                 0                     0                          0                      0
 -3 parameter                                      0  18446744073709551615                          0                      0
 -4 inventory changed                              0                     0                          0                      0
 -9 already registered                             0                     0                          0                      0
-10 dump active                                    0                     0                          0                      0
    all calls                                      2  18446744073709551615                          0                      0

operations handed out  1
words used             2
words available        2038
share used             1/1019, 0.0981 % rounded down
sessions added         2
sessions refused       3
sessions unread        4
calls agreed           18446744073709551615
session                0000000000000000000000000000000000000000000000000000000000000000
session                a9a9a9a9a9a9a9a9a9a9a9a9a9a9a9a9a9a9a9a9a9a9a9a9a9a9a9a9a9a9a9a9
";
        assert_eq!(format!("\n{}", write(&account)), expected);
    }
}
