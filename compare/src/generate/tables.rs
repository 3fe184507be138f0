//! Tables of a month to be written, and texts to be read: good ones, damaged ones, and ones that are almost tables.

use crate::paper::table::{rows, text, Figures};
use crate::random::Random;
use crate::tables::case::TableCase;

const DIGEST: usize = 32;
const SESSION_ROW: usize = 75;
/// The line of the first session, from 0 on.
const SESSIONS: usize = 40;

pub fn case(random: &mut Random) -> TableCase {
    let figures = figures(random);
    let mut digests = vec![0; DIGEST * sessions(random)];
    random.fill(&mut digests);
    if random.one_in(3) {
        return write(random, figures, digests);
    }
    let mut text = text(&figures, &digests).into_bytes();
    if !random.one_in(3) {
        damage(random, &mut text);
        if random.one_in(8) {
            damage(random, &mut text);
        }
    }
    let room = room(random, digests.len());
    TableCase::Read { text, room }
}

fn write(random: &mut Random, figures: Figures, mut digests: Vec<u8>) -> TableCase {
    let length = text(&figures, &digests).len();
    if random.one_in(6) {
        let part = random.between(1, DIGEST - 1);
        digests.resize(digests.len() + part, 0x5a);
    }
    TableCase::Write { figures, digests, room: room(random, length) }
}

/// Bytes for as many as are due, for one less, for some more or less, or for none.
fn room(random: &mut Random, due: usize) -> usize {
    match random.below(8) {
        0 => 0,
        1 => due.saturating_sub(1),
        2 => random.between(0, due),
        3 => due.saturating_sub(DIGEST),
        4 | 5 => due,
        _ => due + random.between(1, 2 * SESSION_ROW),
    }
}

fn sessions(random: &mut Random) -> usize {
    match random.below(12) {
        0..=2 => 0,
        3..=5 => 1,
        6 => random.between(10, 60),
        _ => random.between(2, 6),
    }
}

/// Figures of all lengths: some tables have one sort in every place.
fn figures(random: &mut Random) -> Figures {
    let same = random.one_in(4).then(|| random.below(5));
    std::array::from_fn(|_| {
        let sort = same.unwrap_or(random.below(5));
        figure(random, sort)
    })
}

fn figure(random: &mut Random, sort: usize) -> u64 {
    match sort {
        0 => 0,
        1 => random.below(10) as u64,
        2 => u64::MAX - random.below(7) as u64,
        3 => 10u64.pow(random.below(20) as u32) - random.below(2) as u64,
        _ => random.next() >> random.below(64),
    }
}

/// Makes one thing wrong, or almost.
fn damage(random: &mut Random, text: &mut Vec<u8>) {
    match random.below(12) {
        0 => text.truncate(cut(random, text.len())),
        1 | 2 => change_byte(random, text),
        3 | 4 => change_count(random, text),
        5 => end_otherwise(random, text),
        6 => change_lines(random, text),
        7 => append(random, text),
        8 | 9 => change_session(random, text),
        10 => truncate_lines(random, text),
        _ => insert_or_remove(random, text),
    }
}

/// Where a text is cut off: anywhere, at its front, or about its first line.
fn cut(random: &mut Random, length: usize) -> usize {
    match random.below(6) {
        0 => 0,
        1 => random.below(24),
        _ => random.below(length + 1),
    }
}

/// The places at which the lines of a text begin, and its end.
fn line_places(text: &[u8]) -> Vec<usize> {
    let newlines = (0..text.len()).filter(|&place| text[place] == b'\n');
    let mut places: Vec<usize> = std::iter::once(0).chain(newlines.map(|place| place + 1)).collect();
    if places.last() != Some(&text.len()) {
        places.push(text.len());
    }
    places
}

fn change_byte(random: &mut Random, text: &mut [u8]) {
    if text.is_empty() {
        return;
    }
    let place = random.below(text.len());
    text[place] = match random.below(3) {
        0 => text[place] ^ (1 << random.below(8)),
        1 => random.pick(b"0123456789,-+ \n\rafAFx\0"),
        _ => random.next() as u8,
    };
}

/// Puts another count in the row of a figure.
fn change_count(random: &mut Random, text: &mut Vec<u8>) {
    let (places, row) = (line_places(text), 1 + random.below(rows().len()));
    if row + 1 >= places.len() {
        return;
    }
    let line = &text[places[row]..places[row + 1]];
    let Some(comma) = line.iter().rposition(|&byte| byte == b',') else { return };
    let (from, end) = (places[row] + comma + 1, places[row + 1].saturating_sub(1).max(places[row] + comma + 1));
    let old = String::from_utf8_lossy(&text[from..end]).into_owned();
    let zeros = "0".repeat(random.between(1, 30));
    let near = (1u128 << 64) + random.below(12) as u128;
    let new = match random.below(12) {
        0 | 1 => format!("0{old}"),
        2 => format!("{zeros}{old}"),
        3 => (near - 6).to_string(),
        4 => near.to_string(),
        5 => String::from("18446744073709551615"),
        6 => random.pick(&["", "+1", "-0", "-1", " 1", "1 ", "0x1", "1,1", "x", "1.0", "00", "\r"]).to_string(),
        7 => format!("{old}0"),
        8 => random.pick(&["99999999999999999999", "100000000000000000000", "36893488147419103232"]).to_string(),
        9 => format!("{old}{zeros}"),
        10 => format!("{}{zeros}", u64::MAX),
        _ => random.next().to_string(),
    };
    text.splice(from..end, new.into_bytes());
}

/// Lines that end as on another system, one of them or all.
fn end_otherwise(random: &mut Random, text: &mut Vec<u8>) {
    let lines: Vec<Vec<u8>> = text.split_inclusive(|&byte| byte == b'\n').map(<[u8]>::to_vec).collect();
    let (only, end) = (random.below(lines.len().max(1)), random.pick(&["\r\n", "\r", "\n\n", ""]));
    let all = random.one_in(3);
    text.clear();
    for (place, line) in lines.into_iter().enumerate() {
        let bare = line.strip_suffix(b"\n").unwrap_or(&line);
        text.extend(if all || place == only { [bare, end.as_bytes()].concat() } else { line });
    }
}

/// A line that is missing, comes twice, or stands at another place.
fn change_lines(random: &mut Random, text: &mut Vec<u8>) {
    let mut lines: Vec<Vec<u8>> = text.split_inclusive(|&byte| byte == b'\n').map(<[u8]>::to_vec).collect();
    if lines.is_empty() {
        return;
    }
    let (one, other) = (random.below(lines.len()), random.below(lines.len()));
    match random.below(4) {
        0 => drop(lines.remove(one)),
        1 => lines.insert(one, lines[one].clone()),
        2 => lines.insert(other, lines[one].clone()),
        _ => lines.swap(one, other),
    }
    *text = lines.concat();
}

fn append(random: &mut Random, text: &mut Vec<u8>) {
    let more = random.pick(&[
        "\n",
        "x",
        "\0",
        " ",
        "session,",
        "session,,1\n",
        "token,status,count\n",
        "\r\n",
        "calls,agreed,1\n",
    ]);
    text.extend(more.as_bytes());
}

/// Another byte, or some more or fewer, in the row of a session.
fn change_session(random: &mut Random, text: &mut Vec<u8>) {
    let places = line_places(text);
    if places.len() < SESSIONS + 2 {
        return;
    }
    let from = places[random.between(SESSIONS, places.len() - 2)];
    let place = (from + random.below(SESSION_ROW)).min(text.len() - 1);
    match random.below(5) {
        0 => text[place] = text[place].to_ascii_uppercase(),
        1 => text[place] = random.pick(b"0af/:`gAFG+,-\0"),
        2 => text.splice(place..place, random.pick(&["0", "00", "f"]).bytes()).for_each(drop),
        3 => text.splice(place..(place + random.between(1, 2)).min(text.len()), []).for_each(drop),
        _ => change_byte(random, &mut text[from..]),
    }
}

/// Whole lines alone: as many as the earlier form had, a table without sessions, or any number.
fn truncate_lines(random: &mut Random, text: &mut Vec<u8>) {
    let places = line_places(text);
    let lines = match random.below(4) {
        0 => 36,
        1 => SESSIONS,
        2 => SESSIONS - 1,
        _ => random.below(places.len()),
    };
    text.truncate(places[lines.min(places.len() - 1)]);
}

fn insert_or_remove(random: &mut Random, text: &mut Vec<u8>) {
    let place = random.below(text.len() + 1);
    match random.one_in(2) {
        true => text.insert(place, random.pick(b"0,\n\r \0f")),
        false if place < text.len() => drop(text.remove(place)),
        false => {}
    }
}
