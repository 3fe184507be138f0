use super::{Account, NotTaken, Place, FIRST_SESSION};
use crate::session::CountedSession;
use draugsten::table::{self, Digest, Table};
use draugsten::{CountingReplay, Edition};

/// A session without a call.
fn session(byte: u8) -> CountedSession {
    let counts = CountingReplay::new(&mut [], &[], &[], Edition(0)).counted();
    CountedSession { counts, digest: digest(byte) }
}

fn digest(byte: u8) -> Digest {
    [byte; 32]
}

/// A table of these sessions, in which each has a call of get-indices and another that is not counted.
fn table(sessions: u64) -> Table {
    let mut table = Table { added: sessions, agreed: 2 * sessions, ..Table::default() };
    table.figures.calls[1][0] = sessions;
    table.figures.token_calls[1] = sessions;
    table
}

/// What is refused because the session of a place came before, and where that was.
fn repeat(place: (Option<u32>, u64), first: (Option<u32>, u64)) -> Result<(), NotTaken> {
    let of = |(table, line)| Place { table, line };
    Err(NotTaken::Repeat { place: of(place), first: of(first) })
}

#[test]
fn the_first_session_has_its_line() {
    let text = table::write(&Table::default(), &[digest(1)]);
    let lines: Vec<&[u8]> = text.split(|byte| *byte == b'\n').collect();
    assert!(lines[FIRST_SESSION as usize - 1].starts_with(b"session,01") && lines.len() as u64 == FIRST_SESSION + 1);
}

#[test]
fn tables_and_sessions_are_summed() {
    let mut account = Account::new(false);
    let more = Table { refused: 5, unread: 7, ..table(2) };
    assert_eq!(account.merge(0, &more, &[digest(1), digest(2)]), Ok(()));
    assert_eq!(account.add(&session(3), 9), Ok(()));
    assert_eq!((account.refuse(), account.pass_unread()), (Ok(()), Ok(())));
    let sums = Table { added: 3, refused: 6, unread: 8, ..table(2) };
    assert_eq!((account.table(), account.sessions()), (sums, &[digest(1), digest(2), digest(3)][..]));
}

#[test]
fn what_came_before_is_refused_whole() {
    let mut account = Account::new(false);
    account.merge(0, &table(2), &[digest(1), digest(2)]).unwrap();
    account.add(&session(3), 9).unwrap();
    let before = (account.table(), account.sessions().to_vec());
    assert_eq!(account.add(&session(3), 10), repeat((None, 10), (None, 9)));
    assert_eq!(account.add(&session(2), 11), repeat((None, 11), (Some(0), 42)));
    assert_eq!(account.merge(1, &table(3), &[digest(4), digest(5), digest(1)]), repeat((Some(1), 43), (Some(0), 41)));
    assert_eq!(account.merge(1, &table(3), &[digest(4), digest(5), digest(4)]), repeat((Some(1), 43), (Some(1), 41)));
    assert_eq!((account.table(), account.sessions().to_vec()), before);
    // Nothing of the tables that were refused came before.
    assert_eq!(account.merge(1, &table(2), &[digest(4), digest(5)]), Ok(()));
}

#[test]
fn repeats_may_be_allowed() {
    let mut account = Account::new(true);
    account.merge(0, &table(2), &[digest(1), digest(1)]).unwrap();
    account.merge(1, &table(1), &[digest(1)]).unwrap();
    account.add(&session(1), 9).unwrap();
    assert_eq!((account.table(), account.sessions()), (Table { added: 4, ..table(3) }, &[digest(1); 4][..]));
}

#[test]
fn no_count_passes_the_limit() {
    let most = u64::MAX;
    let past = || Err(NotTaken::Verdict(String::from("a total would pass 2^64 - 1")));
    let wholes: [fn(u64) -> Table; 4] = [
        |count| Table { added: count, ..Table::default() },
        |count| Table { refused: count, ..Table::default() },
        |count| Table { unread: count, ..Table::default() },
        |count| Table { agreed: count, ..Table::default() },
    ];
    for whole in wholes {
        let mut account = Account::new(false);
        account.merge(0, &whole(most - 1), &[digest(1)]).unwrap();
        account.merge(1, &whole(1), &[digest(2)]).unwrap();
        assert_eq!(account.merge(2, &whole(1), &[digest(3)]), past());
        assert_eq!((account.table(), account.sessions().len()), (whole(most), 2));
    }
    let mut account = Account::new(false);
    let full = Table { added: most, refused: most, unread: most, ..Table::default() };
    account.merge(0, &full, &[]).unwrap();
    assert_eq!(account.add(&session(1), 9), past());
    assert!(account.refuse().is_err() && account.pass_unread().is_err());
    assert_eq!((account.table(), account.sessions().len()), (full, 0));
}

#[test]
fn figures_of_no_traces_are_refused() {
    let mut account = Account::new(false);
    let mut wrong = table(1);
    wrong.figures.token_calls[1] = 2;
    let reason = String::from("its figures are those of no traces");
    assert_eq!(account.merge(0, &wrong, &[digest(1)]), Err(NotTaken::Verdict(reason)));
    assert_eq!(account.merge(0, &table(1), &[digest(1)]), Ok(()));
}
