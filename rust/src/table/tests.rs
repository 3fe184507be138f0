use super::{read, read_to, write, write_to, Digest, NotATable, Table, TableError, SESSION_ROW};
use crate::month::Figures;

/// A table in which all numbers are different.
fn table() -> Table {
    let mut figures = Figures { operations: 1001, used: 1002, available: u64::MAX, ..Figures::default() };
    for (token, calls) in figures.calls.iter_mut().enumerate() {
        for (status, count) in calls.iter_mut().enumerate() {
            *count = (10 * token + status) as u64;
        }
        figures.token_calls[token] = 100 + token as u64;
    }
    Table { figures, added: 2, refused: 2001, unread: 2002, agreed: 2003 }
}

fn sessions() -> Vec<Digest> {
    vec![[0; 32], std::array::from_fn(|at| 255 - at as u8)]
}

fn text() -> String {
    String::from_utf8(write(&table(), &sessions())).unwrap()
}

fn refused(line: u64) -> Result<(Table, Vec<Digest>), NotATable> {
    Err(NotATable { line })
}

/// The line that a byte stands in, from 1 on.
fn line_at(text: &[u8], place: usize) -> u64 {
    text[..place].iter().filter(|byte| **byte == b'\n').count() as u64 + 1
}

#[test]
fn what_is_written_is_read_back() {
    let text = text();
    assert_eq!(text.lines().count(), 42);
    assert!(text
        .starts_with("token,status,count\n1,0,0\n1,1,1\n1,-1,2\n1,-3,3\n1,-4,4\n1,-9,5\n1,-10,6\n1,all,100\n2,0,10\n"));
    let last = "4,all,103\noperations,,1001\nused,,1002\navailable,,18446744073709551615\nsessions,added,2\n\
        sessions,refused,2001\nsessions,unread,2002\ncalls,agreed,2003\n\
        session,0000000000000000000000000000000000000000000000000000000000000000,1\n\
        session,fffefdfcfbfaf9f8f7f6f5f4f3f2f1f0efeeedecebeae9e8e7e6e5e4e3e2e1e0,1\n";
    assert!(text.ends_with(last));
    assert_eq!(text.lines().last().unwrap().len() + 1, SESSION_ROW);
    assert_eq!(read(text.as_bytes()), Ok((table(), sessions())));
    assert_eq!(read(&write(&Table::default(), &[])), Ok((Table::default(), vec![])));
}

#[test]
fn any_figures_are_read_back() {
    let figures = Figures {
        calls: [[u64::MAX; 7]; 4],
        token_calls: [u64::MAX; 4],
        operations: u64::MAX,
        used: u64::MAX,
        available: u64::MAX,
    };
    let [added, refused, unread, agreed] = [u64::MAX; 4];
    let table = Table { figures, added, refused, unread, agreed };
    assert_eq!(read(&write(&table, &[])), Ok((table, vec![])));
}

#[test]
fn a_buffer_that_is_too_short_is_refused_with_what_it_needs() {
    let (text, digests) = (text().into_bytes(), sessions());
    let digests = digests.as_flattened();
    for room in [0, 1, text.len() - 1] {
        let mut out = vec![0x5a; room];
        assert_eq!(write_to(&table(), digests, &mut out), Err(TableError::NoRoom { needed: text.len() }));
        assert_eq!(out, vec![0x5a; room]);
    }
    let mut out = vec![0x5a; text.len() + 3];
    assert_eq!(write_to(&table(), digests, &mut out), Ok(text.len()));
    assert_eq!(out, [&text[..], &[0x5a; 3]].concat());
    for room in [0, 32, 63] {
        let mut found = vec![0x5a; room];
        assert_eq!(read_to(&text, &mut found), Err(TableError::NoRoom { needed: 64 }));
        assert_eq!(found, vec![0x5a; room]);
    }
    assert_eq!(read_to(&text[1..], &mut []), Err(TableError::NotATable(NotATable { line: 1 })));
    let mut found = vec![0x5a; 65];
    assert_eq!(read_to(&text, &mut found), Ok((table(), 2)));
    assert_eq!(found, [digests, &[0x5a]].concat());
}

#[test]
fn digests_that_are_not_whole_are_refused() {
    for length in [1, 31, 33, 63] {
        let mut out = vec![0x5a; 4096];
        assert_eq!(write_to(&table(), &vec![0; length], &mut out), Err(TableError::Digests));
        assert_eq!(write_to(&table(), &vec![0; length], &mut []), Err(TableError::Digests));
        assert_eq!(out, vec![0x5a; 4096]);
    }
}

#[test]
fn nothing_else_is_read() {
    let text = text();
    let cases = [
        ("token,status,count\n", "", 1),
        ("count\n", "count\r\n", 1),
        ("1,1,1\n", "", 3),
        ("1,1,1\n", "1,1,1\r\n", 3),
        ("1,1,1\n1,-1,2\n", "1,-1,2\n1,1,1\n", 3),
        ("1,1,1\n", "1,1,1\n1,1,1\n", 4),
        ("1,1,1\n", "1,2,1\n", 3),
        ("1,1,1\n", "\n", 3),
        ("1,1,1\n", "1,1,1,1\n", 3),
        ("1,1,1\n", "1,1,\n", 3),
        ("1,1,1\n", "1,1,01\n", 3),
        ("1,1,1\n", "1,1,+1\n", 3),
        ("1,1,1\n", "1,1,-1\n", 3),
        ("1,1,1\n", "1,1,x\n", 3),
        ("1,1,1\n", "1,1,1 \n", 3),
        ("4,all,", "5,all,", 33),
        ("used,,1002", "used,1002", 35),
        ("18446744073709551615", "18446744073709551616", 36),
        ("18446744073709551615", "184467440737095516150", 36),
        ("sessions,added", "sessions,refused", 37),
        ("calls,agreed,2003\n", "", 40),
        ("session,00", "session,0", 41),
        ("session,00", "session,000", 41),
        ("session,00", "session,+0", 41),
        ("session,ff", "session,fF", 42),
        ("e0,1\n", "e0,2\n", 42),
        ("e0,1\n", "e0,1\n\n", 43),
    ];
    for (from, to, line) in cases {
        assert!(text.contains(from), "{from}");
        assert_eq!(read(text.replacen(from, to, 1).as_bytes()), refused(line), "{to}");
    }
}

/// A byte that is another gives another table, or is refused in its own line.
#[test]
fn a_changed_byte_is_refused_in_its_line() {
    let text = text().into_bytes();
    let mut others = 0;
    for place in 0..text.len() {
        let mut changed = text.clone();
        changed[place] ^= 0x80;
        assert_eq!(read(&changed), refused(line_at(&text, place)), "{place}");
        changed[place] = text[place] ^ 1;
        match read(&changed) {
            Ok(found) => {
                assert_eq!(write(&found.0, &found.1), changed);
                others += 1;
            }
            Err(error) => assert_eq!(error, NotATable { line: line_at(&text, place) }, "{place}"),
        }
    }
    assert!(others > 0 && others < text.len());
}

/// A text that breaks off is none, but at the ends of the last number's row and of those of the sessions.
#[test]
fn a_part_is_no_table() {
    let text = text().into_bytes();
    let ends = [text.len() - 150, text.len() - 75, text.len()];
    for end in 0..=text.len() {
        let part = read(&text[..end]);
        let error = (!ends.contains(&end)).then(|| NotATable { line: line_at(&text, end) });
        assert_eq!(part.err(), error, "{end}");
    }
}

#[test]
fn what_is_refused_has_its_words() {
    let words = [
        (TableError::NoRoom { needed: 7 }, "no room: the lent buffer is too short; it needs 7 bytes"),
        (TableError::NotATable(NotATable { line: 3 }), "line 3: not a table: the text is none that was written"),
        (TableError::Digests, "the length of the digests is no multiple of 32"),
    ];
    for (error, expected) in words {
        assert_eq!(error.to_string(), expected);
    }
}
