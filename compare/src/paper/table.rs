//! The text of a month's table, by docs/DECISIONS.md, "The table of a month", and what writing and reading it give.

/// The lent buffer is too short.
pub const NO_ROOM: u32 = 60;

/// The text is not a table.
pub const NOT_A_TABLE: u32 = 61;

/// The length of the digests is no multiple of 32.
pub const NOT_WHOLE: u32 = 62;

const DIGEST: usize = 32;

/// The largest count: 2^64 - 1.
const LARGEST: u128 = u64::MAX as u128;

/// The figures in the order of struct draugsten_table: the calls of the tokens 1 to 4 by status, the calls of each token,
/// then the others.
pub type Figures = [u64; 39];

const HEAD: &str = "token,status,count";

const STATUSES: [&str; 7] = ["0", "1", "-1", "-3", "-4", "-9", "-10"];

const OTHERS: [&str; 7] = [
    "operations,,",
    "used,,",
    "available,,",
    "sessions,added,",
    "sessions,refused,",
    "sessions,unread,",
    "calls,agreed,",
];

/// The rows of the figures: what stands before the count, and the place of the figure.
pub fn rows() -> Vec<(String, usize)> {
    let mut rows = Vec::new();
    for token in 0..4 {
        for (status, name) in STATUSES.iter().enumerate() {
            rows.push((format!("{},{name},", token + 1), 7 * token + status));
        }
        rows.push((format!("{},all,", token + 1), 28 + token));
    }
    rows.extend(OTHERS.iter().zip(32..).map(|(label, place)| (String::from(*label), place)));
    rows
}

/// The text of figures and of whole digests.
pub fn text(figures: &Figures, digests: &[u8]) -> String {
    let mut text = format!("{HEAD}\n");
    for (label, place) in rows() {
        text += &format!("{label}{}\n", figures[place]);
    }
    for digest in digests.chunks(DIGEST) {
        let digits: Vec<String> = digest.iter().map(|byte| format!("{byte:02x}")).collect();
        text += &format!("session,{},1\n", digits.concat());
    }
    text
}

/// A write that is refused: its number, and the length that it needs.
#[derive(PartialEq, Eq, Debug)]
pub struct NotWritten {
    pub number: u32,
    pub needed: usize,
}

/// Writes to a buffer, and gives the length of the text. "Writing judges 62 before 60".
pub fn write(figures: &Figures, digests: &[u8], out: &mut [u8]) -> Result<usize, NotWritten> {
    if !digests.len().is_multiple_of(DIGEST) {
        return Err(NotWritten { number: NOT_WHOLE, needed: 0 });
    }
    let text = text(figures, digests);
    if text.len() > out.len() {
        return Err(NotWritten { number: NO_ROOM, needed: text.len() });
    }
    out[..text.len()].copy_from_slice(text.as_bytes());
    Ok(text.len())
}

/// A read that is refused: its number, the line that is wrong, and the number of sessions.
#[derive(PartialEq, Eq, Debug)]
pub struct NotRead {
    pub number: u32,
    pub line: u64,
    pub sessions: usize,
    /// In words, which line it is.
    pub rule: &'static str,
}

/// Reads a text, stores its digests in a buffer, and gives the figures and the number of sessions. "reading 61 before 60".
pub fn read(text: &[u8], out: &mut [u8]) -> Result<(Figures, usize), NotRead> {
    let (figures, digests) = judge(text)?;
    let sessions = digests.len() / DIGEST;
    if digests.len() > out.len() {
        return Err(NotRead { number: NO_ROOM, line: 0, sessions, rule: "no room" });
    }
    out[..digests.len()].copy_from_slice(&digests);
    Ok((figures, sessions))
}

/// The figures and digests of a text, line by line.
fn judge(text: &[u8]) -> Result<(Figures, Vec<u8>), NotRead> {
    let (lines, unfinished) = lines(text);
    let wrong = |line: usize, rule| NotRead { number: NOT_A_TABLE, line: line as u64, sessions: 0, rule };
    let rows = rows();
    let (mut figures, mut digests) = ([0; 39], Vec::new());
    for (number, line) in (1..).zip(&lines) {
        if number == 1 {
            if *line != HEAD.as_bytes() {
                return Err(wrong(number, "the first line"));
            }
        } else if let Some((label, place)) = rows.get(number - 2) {
            let count = line.strip_prefix(label.as_bytes()).and_then(count);
            figures[*place] = count.ok_or(wrong(number, "the row of a figure"))?;
        } else {
            digests.extend(session(line).ok_or(wrong(number, "the row of a session"))?);
        }
    }
    match lines.len() <= rows.len() {
        true if unfinished => Err(wrong(lines.len() + 1, "cut off inside the first lines")),
        true => Err(wrong(lines.len() + 1, "cut off after a line")),
        false if unfinished => Err(wrong(lines.len() + 1, "cut off inside a session")),
        false => Ok((figures, digests)),
    }
}

/// The lines of a text, each without its newline, and whether bytes follow the last newline.
fn lines(text: &[u8]) -> (Vec<&[u8]>, bool) {
    let mut lines: Vec<&[u8]> = text.split(|&byte| byte == b'\n').collect();
    let last = lines.pop().unwrap_or(&[]);
    (lines, !last.is_empty())
}

/// "a decimal number from 0 to 2^64 - 1, without a sign, and without a zero before another digit"
fn count(digits: &[u8]) -> Option<u64> {
    let is_number = !digits.is_empty() && digits.iter().all(u8::is_ascii_digit);
    let has_zero = digits.len() > 1 && digits[0] == b'0';
    if !is_number || has_zero || digits.len() > 25 {
        return None;
    }
    let value = digits.iter().fold(0, |value: u128, digit| 10 * value + u128::from(digit - b'0'));
    (value <= LARGEST).then_some(value as u64)
}

/// "`session,DIGEST,1`: the digest's 32 bytes in 64 digits, 0 to 9 and a to f"
fn session(line: &[u8]) -> Option<Vec<u8>> {
    let digits = line.strip_prefix(b"session,")?.strip_suffix(b",1")?;
    let values: Option<Vec<u8>> = digits.iter().map(|&digit| value(digit)).collect();
    let digest: Vec<u8> = values?.chunks(2).map(|pair| 16 * pair[0] + pair.get(1).unwrap_or(&0)).collect();
    (digits.len() == 2 * DIGEST).then_some(digest)
}

fn value(digit: u8) -> Option<u8> {
    match digit {
        b'0'..=b'9' => Some(digit - b'0'),
        b'a'..=b'f' => Some(10 + digit - b'a'),
        _ => None,
    }
}
