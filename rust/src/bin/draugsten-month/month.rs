//! The totals of a month, and what is left out on the way to them.

use crate::account::{Account, NotTaken, Place};
use crate::merging::{self, TableError};
use crate::options::Options;
use crate::pool::Played;
use crate::progress::Progress;
use crate::shared::names::shown;
use crate::shared::output::write;
use crate::{say, table};
use draugsten::table::{write as write_table, Table};
use std::path::Path;

pub struct Month<'a> {
    options: &'a Options,
    /// The list, as lines name it.
    list: String,
    account: Account,
    tables: Count,
    sessions: Count,
    /// Whether a table was added whose month left out sessions.
    partial: bool,
    pub progress: Progress,
}

/// How many of something were added, refused, and not read.
#[derive(Default)]
struct Count {
    added: u64,
    refused: u64,
    unread: u64,
}

impl Count {
    fn all(&self) -> u64 {
        self.added + self.refused + self.unread
    }

    fn leave_out(&mut self, left_out: &LeftOut) {
        match left_out {
            LeftOut::Refused(_) => self.refused += 1,
            LeftOut::Unread(_) => self.unread += 1,
        }
    }
}

/// Why something is left out: it is read and not added, or it cannot be read.
enum LeftOut {
    Refused(String),
    Unread(String),
}

/// What a month came to.
#[derive(PartialEq, Eq, Debug)]
pub enum End {
    Added,
    Refused,
    Unread,
    /// There was nothing to add: no session, and no table.
    Empty,
}

impl<'a> Month<'a> {
    pub fn new(options: &'a Options, progress: Progress) -> Month<'a> {
        let path = options.list.as_deref();
        let list = path.map_or(String::from("standard input"), |path| format!("the list {}", shown(path)));
        let (account, tables, sessions) = (Account::new(options.allow_repeats), Count::default(), Count::default());
        Month { options, list, account, tables, sessions, partial: false, progress }
    }

    /// The sessions of the list so far.
    pub fn sessions(&self) -> u64 {
        self.sessions.all()
    }

    /// Adds a table, or leaves it out.
    pub fn merge(&mut self, path: &Path) -> Result<(), String> {
        let (number, place) = (self.tables.all() as u32, format!("the table {}", shown(path)));
        let (place, left_out) = match merging::read(path) {
            Ok((table, sessions)) => match self.account.merge(number, &table, &sessions) {
                Ok(()) => {
                    self.tables.added += 1;
                    return self.tell_partial(&place, &table);
                }
                Err(NotTaken::Repeat { place, first }) => (self.name(place), self.repeats(first)),
                Err(NotTaken::Verdict(reason)) => (place, LeftOut::Refused(reason)),
            },
            Err(TableError::Unread(why)) => (String::from("--merge"), LeftOut::Unread(why)),
            Err(TableError::Line(line, what)) => (format!("{place}, line {line}"), LeftOut::Refused(what)),
            Err(TableError::Whole(what)) => (place, LeftOut::Refused(what)),
        };
        self.tables.leave_out(&left_out);
        self.tell_left_out(&place, left_out)
    }

    /// Adds a session, or leaves it out.
    pub fn add(&mut self, played: Played) -> Result<(), String> {
        let left_out = match played.counted {
            Ok(session) => match self.account.add(&session, played.line) {
                Ok(()) => {
                    self.sessions.added += 1;
                    return Ok(());
                }
                Err(NotTaken::Repeat { first, .. }) => self.repeats(first),
                Err(NotTaken::Verdict(reason)) => LeftOut::Refused(reason),
            },
            Err(why) => LeftOut::Unread(why),
        };
        self.sessions.leave_out(&left_out);
        match &left_out {
            LeftOut::Refused(_) => self.account.refuse()?,
            LeftOut::Unread(_) => self.account.pass_unread()?,
        }
        let trace = played.trace.map_or(String::new(), |trace| format!(", trace {}", shown(trace)));
        self.tell_left_out(&format!("{}, line {}{trace}", self.list, played.line), left_out)
    }

    fn repeats(&self, first: Place) -> LeftOut {
        let first = self.name(first);
        LeftOut::Refused(format!("the session is that of {first}; if that is meant, give --allow-repeats"))
    }

    fn name(&self, place: Place) -> String {
        match place.table {
            Some(number) => {
                format!("the table {}, line {}", shown(&self.options.tables[number as usize]), place.line)
            }
            None => format!("{}, line {}", self.list, place.line),
        }
    }

    /// Tells of a table that is added whether its month left out sessions.
    fn tell_partial(&mut self, place: &str, table: &Table) -> Result<(), String> {
        let Table { refused, unread, .. } = *table;
        if (refused, unread) == (0, 0) {
            return Ok(());
        }
        self.partial = true;
        self.tell(&format!(
            "partial: {place}: it is added, and its month left out sessions: {refused} refused, {unread} unread"
        ))
    }

    fn tell_left_out(&mut self, place: &str, left_out: LeftOut) -> Result<(), String> {
        self.tell(&match left_out {
            LeftOut::Refused(reason) => format!("refused: {place}: {reason}"),
            LeftOut::Unread(reason) => format!("unread: {place}: {reason}"),
        })
    }

    /// Tells a line at once, so that nothing of it has to be kept.
    fn tell(&mut self, line: &str) -> Result<(), String> {
        self.progress.clear();
        if self.options.csv {
            say(line);
            return Ok(());
        }
        write(&format!("{line}\n"))
    }

    /// Writes the totals.
    pub fn write(&mut self) -> Result<End, String> {
        self.progress.clear();
        match self.options.csv {
            true => write(&write_table(&self.account.table(), self.account.sessions()))?,
            false => write(&self.text())?,
        }
        let unread = self.tables.unread + self.sessions.unread;
        if unread > 0 && !self.options.csv {
            say(format_args!("{unread} could not be read; the lines above the totals say why"));
        }
        if self.is_empty() {
            let what = "has no session, and no --merge is given; if that is meant, give --allow-empty";
            say(format_args!("{} {what}", self.list));
        }
        Ok(self.end())
    }

    fn end(&self) -> End {
        let is_read = self.tables.unread + self.sessions.unread == 0;
        let is_whole = self.tables.refused + self.sessions.refused == 0 && !self.partial;
        match (is_read, is_whole) {
            (false, _) => End::Unread,
            (true, false) => End::Refused,
            (true, true) if self.is_empty() => End::Empty,
            (true, true) => End::Added,
        }
    }

    /// Whether nothing was there to be added, and nobody said that this may be.
    fn is_empty(&self) -> bool {
        self.sessions() == 0 && self.options.tables.is_empty() && !self.options.allow_empty
    }

    fn text(&self) -> String {
        let line = |what, Count { added, refused, unread }: &Count| {
            format!("{what}: {added} added, {refused} refused, {unread} unread\n")
        };
        let mut text = line("sessions", &self.sessions);
        if !self.options.tables.is_empty() {
            text += &line("tables", &self.tables);
        }
        format!("{text}\n{}", table::write(&self.account))
    }
}
