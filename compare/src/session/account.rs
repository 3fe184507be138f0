//! An account of a partition's readings of lists (M-105), kept by what its calls asked for, what they were answered, and
//! the entries in their areas. It knows what the record means, and none of the checks.

use super::judge_list;
use crate::library::ReadingRecord;

/// An entry: its index and its code.
pub type Entry = (u64, Vec<u8>);

/// What a call of get-indices asks for, and the edition that it finds.
#[derive(Clone, Copy)]
pub struct Request {
    pub flag: u32,
    pub kind: u32,
    pub start: u32,
    pub edition: u32,
}

/// What an answered call hands out.
pub struct HandedOut {
    pub status: i32,
    pub next: u32,
    pub entries: Vec<Entry>,
}

/// A reading in progress: its list in the edition that it began in, and the entries since its Starting Number 1 call.
struct Progress {
    flag: u32,
    kind: u32,
    edition: u32,
    whole: Vec<Entry>,
    got: Vec<Entry>,
}

impl Progress {
    /// The number of the first entry that is not handed out.
    fn due(&self) -> u32 {
        self.got.len() as u32 + 1
    }

    /// The call asks for what this reading hands out next.
    fn goes_on(&self, request: &Request) -> bool {
        (self.flag, self.kind, self.due()) == (request.flag, request.kind, request.start)
    }
}

/// Nothing at first: a partition starts with no reading in progress.
#[derive(Default)]
pub struct Account {
    progress: Option<Progress>,
}

impl Account {
    /// "an unfinished reading names the first entry not yet handed out"
    pub fn record(&self) -> ReadingRecord {
        match &self.progress {
            None => ReadingRecord { flag: 0, kind: 0, number: 1, edition: 0 },
            Some(progress) => {
                let Progress { flag, kind, edition, .. } = *progress;
                ReadingRecord { flag, kind, number: progress.due(), edition }
            }
        }
    }

    /// The status that a well-made call is refused with, if it is, where its Starting Number is above 1.
    pub fn refusal(&self, request: &Request) -> Option<i32> {
        match &self.progress {
            Some(progress) if progress.goes_on(request) => (progress.edition != request.edition).then_some(-4),
            _ => Some(-3),
        }
    }

    /// Takes in an answered call; `whole` is the list of its flag and type in the inventory that it found.
    pub fn answered(&mut self, request: Request, whole: Vec<Entry>, out: HandedOut) -> Result<(), String> {
        let mut progress = self.begun(request, whole)?;
        let before = progress.got.len();
        progress.got.extend(out.entries);
        judge_list(&progress.got, &progress.whole, before, out.status)?;
        let next = if out.status == 1 { progress.due() } else { 1 };
        if out.next != next {
            return Err(format!("status {} with Next Starting Number {}, not {next}\n", out.status, out.next));
        }
        self.progress = (out.status == 1).then_some(progress);
        Ok(())
    }

    /// The reading that an answered call belongs to: a new one, or the one in progress.
    fn begun(&mut self, request: Request, whole: Vec<Entry>) -> Result<Progress, String> {
        let Request { flag, kind, start, edition } = request;
        if start == 1 {
            return Ok(Progress { flag, kind, edition, whole, got: Vec::new() });
        }
        let progress =
            self.progress.take().filter(|progress| progress.goes_on(&request) && progress.edition == edition);
        progress.ok_or(format!("answered from {start} on, with no reading in progress that goes on there\n"))
    }

    /// Takes in a call with -4: a reading during which nothing is edited is never given it.
    pub fn changed(&mut self, request: Request) -> Result<(), String> {
        match self.progress.take() {
            Some(progress) if progress.goes_on(&request) && progress.edition != request.edition => Ok(()),
            _ => Err(String::from("-4 of a call that goes on with no reading of another edition\n")),
        }
    }
}
