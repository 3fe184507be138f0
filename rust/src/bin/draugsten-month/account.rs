//! What was added to a month: the totals, and the sessions that they are of.

use crate::session::CountedSession;
use draugsten::table::{Digest, Table};
use draugsten::{NotMerged, Totals};
use std::collections::HashMap;

/// The line of a table's first session.
const FIRST_SESSION: u64 = 41;

/// Where a session stands: in a table, by its number among those that are given, or in the list; and the line there.
#[derive(Clone, Copy, PartialEq, Eq, Debug)]
pub struct Place {
    pub table: Option<u32>,
    pub line: u64,
}

/// Why something is not added.
#[derive(PartialEq, Eq, Debug)]
pub enum NotTaken {
    Verdict(String),
    /// The session at a place was added from another one.
    Repeat {
        place: Place,
        first: Place,
    },
}

/// How many sessions were added, refused and unread, those of the tables among them, and the calls of those that were
/// added.
#[derive(Clone, Copy, Default)]
struct Counts {
    added: u64,
    refused: u64,
    unread: u64,
    agreed: u64,
}

impl Counts {
    /// None, if one would pass 2^64 - 1.
    fn with(self, more: Counts) -> Option<Counts> {
        Some(Counts {
            added: self.added.checked_add(more.added)?,
            refused: self.refused.checked_add(more.refused)?,
            unread: self.unread.checked_add(more.unread)?,
            agreed: self.agreed.checked_add(more.agreed)?,
        })
    }
}

#[derive(Default)]
pub struct Account {
    totals: Totals,
    counts: Counts,
    allow_repeats: bool,
    /// In the order in which they were added.
    sessions: Vec<Digest>,
    /// Where each session stood first.
    places: HashMap<Digest, Place>,
}

impl Account {
    pub fn new(allow_repeats: bool) -> Account {
        Account { allow_repeats, ..Account::default() }
    }

    pub fn totals(&self) -> &Totals {
        &self.totals
    }

    /// The digests of the sessions that were added, in their order.
    pub fn sessions(&self) -> &[Digest] {
        &self.sessions
    }

    pub fn table(&self) -> Table {
        let Counts { added, refused, unread, agreed } = self.counts;
        Table { figures: self.totals.figures(), added, refused, unread, agreed }
    }

    /// Adds a session of the list, or changes nothing.
    pub fn add(&mut self, session: &CountedSession, line: u64) -> Result<(), NotTaken> {
        let mut totals = self.totals;
        let calls = totals.add(&session.counts).map_err(|refusal| NotTaken::Verdict(refusal.to_string()))?;
        let more = Counts { added: 1, agreed: calls.into(), ..Counts::default() };
        self.take(totals, more, &[session.digest], Place { table: None, line })
    }

    /// Adds the table of this number and its sessions, or changes nothing.
    pub fn merge(&mut self, number: u32, table: &Table, sessions: &[Digest]) -> Result<(), NotTaken> {
        let mut totals = self.totals;
        totals.merge(&table.figures).map_err(|refusal| NotTaken::Verdict(refusal.to_string()))?;
        let Table { added, refused, unread, agreed, .. } = *table;
        let more = Counts { added, refused, unread, agreed };
        self.take(totals, more, sessions, Place { table: Some(number), line: FIRST_SESSION })
    }

    /// Takes new totals, counts and sessions, which stand one below the other from a place on.
    fn take(&mut self, totals: Totals, more: Counts, sessions: &[Digest], from: Place) -> Result<(), NotTaken> {
        let counts = self.counts.with(more).ok_or_else(|| NotTaken::Verdict(NotMerged::PastLimit.to_string()))?;
        let placed = || sessions.iter().zip(from.line..).map(|(digest, line)| (digest, Place { line, ..from }));
        if let Some((place, first)) = self.repeat(placed()).filter(|_| !self.allow_repeats) {
            return Err(NotTaken::Repeat { place, first });
        }
        for (digest, place) in placed() {
            self.places.entry(*digest).or_insert(place);
        }
        self.sessions.extend(sessions);
        (self.totals, self.counts) = (totals, counts);
        Ok(())
    }

    /// The first session that came before, there or among those that were added, and where that was.
    fn repeat<'a>(&self, placed: impl Iterator<Item = (&'a Digest, Place)>) -> Option<(Place, Place)> {
        let mut own = HashMap::new();
        for (digest, place) in placed {
            let first = self.places.get(digest).copied().or_else(|| own.insert(digest, place));
            if let Some(first) = first {
                return Some((place, first));
            }
        }
        None
    }

    /// Counts a session that is refused; or says that no table can hold so many.
    pub fn refuse(&mut self) -> Result<(), String> {
        self.leave_out(Counts { refused: 1, ..Counts::default() })
    }

    /// Counts a session that cannot be read; or says that no table can hold so many.
    pub fn pass_unread(&mut self) -> Result<(), String> {
        self.leave_out(Counts { unread: 1, ..Counts::default() })
    }

    fn leave_out(&mut self, more: Counts) -> Result<(), String> {
        let past = "the sessions that are refused or unread would pass 2^64 - 1; give fewer tables with --merge";
        self.counts = self.counts.with(more).ok_or(past)?;
        Ok(())
    }
}

#[cfg(test)]
mod tests;
