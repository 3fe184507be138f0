//! The month: replays that count their calls, and totals over them.

use crate::ffi;
use crate::reading_record::Edition;
use crate::replay::{read_bursts, Report};
use crate::text::words;
use crate::trace::{BODY_LIMIT, RECORD_LIMIT};
use std::fmt;
use std::io::{self, Read};

/// A call that is counted. `as u32` gives its token.
#[derive(Clone, Copy, PartialEq, Eq, Debug)]
pub enum Token {
    /// ibm,update-nodes.
    UpdateNodes = 1,
    /// ibm,get-indices.
    GetIndices = 2,
    /// ibm,configure-kernel-dump.
    ConfigureKernelDump = 3,
    /// ibm,update-properties.
    UpdateProperties = 4,
}

impl Token {
    /// All of them, in order.
    pub const ALL: [Token; 4] =
        [Token::UpdateNodes, Token::GetIndices, Token::ConfigureKernelDump, Token::UpdateProperties];

    /// The one of this number; none, if it is a token of no call.
    pub fn of(number: u32) -> Option<Token> {
        Token::ALL.into_iter().find(|&token| token as u32 == number)
    }

    /// The name of its call.
    pub fn words(self) -> &'static str {
        words("TOKEN", self as i32)
    }

    /// Its place in `ALL`, and in the counts.
    pub fn place(self) -> usize {
        self as usize - 1
    }
}

impl fmt::Display for Token {
    fn fmt(&self, f: &mut fmt::Formatter<'_>) -> fmt::Result {
        f.pad(self.words())
    }
}

/// The status of a call that is counted. `as i32` gives its number.
#[derive(Clone, Copy, PartialEq, Eq, Debug)]
pub enum Status {
    /// Nothing remains.
    Done = 0,
    /// More remains.
    CallAgain = 1,
    /// The journal or inventory is malformed.
    Malformed = -1,
    /// An input, the counts of inputs and outputs, or the work area.
    Parameter = -3,
    /// The inventory's edition is not the reading's.
    Changed = -4,
    /// A structure is registered already.
    AlreadyRegistered = -9,
    /// A dump is active.
    DumpActive = -10,
}

impl Status {
    /// All of them, in the order in which their calls are counted.
    pub const ALL: [Status; 7] = [
        Status::Done,
        Status::CallAgain,
        Status::Malformed,
        Status::Parameter,
        Status::Changed,
        Status::AlreadyRegistered,
        Status::DumpActive,
    ];

    /// The one of this number; none, if no call gives it.
    pub fn of(number: i32) -> Option<Status> {
        Status::ALL.into_iter().find(|&status| status as i32 == number)
    }

    /// What it means.
    pub fn words(self) -> &'static str {
        words("STATUS", self as i32)
    }

    /// Its place in `ALL`, and in the counts.
    pub fn place(self) -> usize {
        match self {
            Status::Done => 0,
            Status::CallAgain => 1,
            Status::Malformed => 2,
            Status::Parameter => 3,
            Status::Changed => 4,
            Status::AlreadyRegistered => 5,
            Status::DumpActive => 6,
        }
    }
}

impl fmt::Display for Status {
    fn fmt(&self, f: &mut fmt::Formatter<'_>) -> fmt::Result {
        f.pad(self.words())
    }
}

/// A replay as [`Replay`](crate::Replay) is one, which counts its calls: those with a status of the four tokens, and what
/// update-nodes handed out. It is fed the trace in pieces, cut anywhere, in the same space for a trace of any length.
pub struct CountingReplay<'a> {
    memory: &'a mut [u8],
    journal: &'a [u8],
    inventory: &'a [u8],
    held: Box<[u8]>,
    args: Box<[u8]>,
    state: ffi::Counting,
}

impl<'a> CountingReplay<'a> {
    /// A replay that has been fed nothing. Memory is as it was when the recording began.
    pub fn new(memory: &'a mut [u8], journal: &'a [u8], inventory: &'a [u8], edition: Edition) -> CountingReplay<'a> {
        CountingReplay {
            memory,
            journal,
            inventory,
            held: vec![0; RECORD_LIMIT].into(),
            args: vec![0; BODY_LIMIT].into(),
            state: ffi::month_start(edition.0),
        }
    }

    /// Feeds it the next bytes of the trace, which may break off anywhere, and gives the report so far. Where it has
    /// stopped, nothing changes.
    pub fn feed(&mut self, bytes: &[u8]) -> Report {
        let CountingReplay { held, args, memory, journal, inventory, state } = self;
        let fed = ffi::month_feed(held, args, memory, journal, inventory, *state, bytes);
        assert_eq!(fed.number, 0, "the library takes every replay that it gave");
        self.state = fed.counting;
        self.report()
    }

    /// Reads a trace to its end, or to where the replay stops. If reading fails, the replay stands after the last
    /// byte that was read, and can go on.
    pub fn read(&mut self, trace: impl Read) -> io::Result<()> {
        if self.is_stopped() {
            return Ok(());
        }
        read_bursts(trace, |burst| self.feed(burst).is_agreed())
    }

    /// The report so far.
    pub fn report(&self) -> Report {
        Report::of(self.state.replay.report)
    }

    /// Whether a difference or a malformed record has stopped it.
    pub fn is_stopped(&self) -> bool {
        !self.report().is_agreed()
    }

    /// What a trace that ends here counted. A later feed goes on.
    pub fn counted(&self) -> Counted {
        Counted { state: self.state }
    }
}

/// What a trace counted, to be added to totals.
#[derive(Clone, Copy)]
pub struct Counted {
    state: ffi::Counting,
}

/// Why a trace is not added.
#[derive(Clone, Copy, PartialEq, Eq, Debug)]
pub enum NotAdded {
    /// It is malformed, or a call of it differs.
    Report(Report),
    /// A total would pass 2^64 - 1.
    PastLimit,
}

impl fmt::Display for NotAdded {
    fn fmt(&self, f: &mut fmt::Formatter<'_>) -> fmt::Result {
        match self {
            NotAdded::Report(report) => report.fmt(f),
            NotAdded::PastLimit => f.write_str(words("MONTH_NUMBER", 17)),
        }
    }
}

impl std::error::Error for NotAdded {}

/// Why figures are not merged.
#[derive(Clone, Copy, PartialEq, Eq, Debug)]
pub enum NotMerged {
    /// They are figures that the totals of no traces have.
    NoTotals,
    /// A total would pass 2^64 - 1.
    PastLimit,
}

impl fmt::Display for NotMerged {
    fn fmt(&self, f: &mut fmt::Formatter<'_>) -> fmt::Result {
        let number = match self {
            NotMerged::PastLimit => 17,
            NotMerged::NoTotals => 18,
        };
        f.write_str(words("MONTH_NUMBER", number))
    }
}

impl std::error::Error for NotMerged {}

/// The figures of totals, which anyone may write down.
#[derive(Clone, Copy, PartialEq, Eq, Debug, Default)]
pub struct Figures {
    /// The calls, by the places of token and status.
    pub calls: [[u64; 7]; 4],
    /// The calls of each token, whatever their status.
    pub token_calls: [u64; 4],
    /// The operations that update-nodes handed out.
    pub operations: u64,
    /// The words that they took.
    pub used: u64,
    /// 1,019 words for each call of update-nodes that was answered.
    pub available: u64,
}

impl Figures {
    pub(crate) fn of(flat: ffi::Totals) -> Figures {
        let ffi::Totals { calls, token_calls, operations, used, available } = flat;
        Figures { calls, token_calls, operations, used, available }
    }

    pub(crate) fn flat(self) -> ffi::Totals {
        let Figures { calls, token_calls, operations, used, available } = self;
        ffi::Totals { calls, token_calls, operations, used, available }
    }
}

/// A share in lowest terms.
#[derive(Clone, Copy, PartialEq, Eq, Debug)]
pub struct Share {
    /// Of the whole.
    pub part: u64,
    /// 1 or more.
    pub whole: u64,
}

impl fmt::Display for Share {
    fn fmt(&self, f: &mut fmt::Formatter<'_>) -> fmt::Result {
        write!(f, "{}/{}", self.part, self.whole)
    }
}

/// Totals over traces: only what traces counted is in them. What is refused changes nothing.
///
/// ```
/// use draugsten::{args, CountingReplay, Edition, NotAdded, Recorder, Report, Status, Token, Totals};
///
/// // One record: a node of type 11 was deleted.
/// let journal = [8, 0, 1, 0, 11, 0, 0x2a, 0, 0, 0];
/// let mut trace = vec![];
/// let mut memory = vec![0; 4096];
/// let mut recorder = Recorder::new(&mut trace, &mut memory, &journal, &[], Edition(0));
/// recorder.call(&mut args::update_nodes(0, 1)).unwrap().unwrap();
///
/// let mut totals = Totals::none();
/// let mut again = vec![0; 4096];
/// let mut replay = CountingReplay::new(&mut again, &journal, &[], Edition(0));
/// replay.read(&trace[..]).unwrap();
/// assert_eq!(totals.add(&replay.counted()), Ok(1));
/// assert_eq!(totals.calls(Token::UpdateNodes, Status::Done), 1);
/// assert_eq!((totals.operations(), totals.used(), totals.available()), (1, 2, 1019));
/// assert_eq!(totals.share().to_string(), "2/1019");
///
/// // A second trace is cut off inside a record: it adds nothing.
/// let mut again = vec![0; 4096];
/// let mut replay = CountingReplay::new(&mut again, &journal, &[], Edition(0));
/// replay.feed(&trace[..9]);
/// assert_eq!(totals.add(&replay.counted()), Err(NotAdded::Report(Report::Malformed { record: 1 })));
///
/// let mut year = Totals::none();
/// year.merge(&totals.figures()).unwrap();
/// assert_eq!(year, totals);
/// ```
#[derive(Clone, Copy, PartialEq, Eq, Debug, Default)]
pub struct Totals {
    figures: Figures,
}

impl Totals {
    /// Those of no trace.
    pub fn none() -> Totals {
        Totals::default()
    }

    /// Adds a trace that ends where it was counted, all of its counts or none, and gives the number of its calls.
    pub fn add(&mut self, counted: &Counted) -> Result<u32, NotAdded> {
        let added = ffi::month_add(self.figures.flat(), counted.state);
        let report = match added.number {
            0 | 16 => Report::of(added.report),
            17 => return Err(NotAdded::PastLimit),
            number => unreachable!("the library gives no number {number}"),
        };
        match report {
            Report::Agreed { calls } => {
                self.figures = Figures::of(added.totals);
                Ok(calls)
            }
            astray => Err(NotAdded::Report(astray)),
        }
    }

    /// Adds the totals of other traces, all figures or none.
    pub fn merge(&mut self, more: &Figures) -> Result<(), NotMerged> {
        let merged = ffi::month_merge(self.figures.flat(), more.flat());
        match merged.number {
            0 => self.figures = Figures::of(merged.totals),
            17 => return Err(NotMerged::PastLimit),
            18 => return Err(NotMerged::NoTotals),
            number => unreachable!("the library gives no number {number}"),
        }
        Ok(())
    }

    /// All figures.
    pub fn figures(&self) -> Figures {
        self.figures
    }

    /// The calls of a token with a status.
    pub fn calls(&self, token: Token, status: Status) -> u64 {
        self.figures.calls[token.place()][status.place()]
    }

    /// The calls of a token, whatever their status.
    pub fn token_calls(&self, token: Token) -> u64 {
        self.figures.token_calls[token.place()]
    }

    /// The operations that update-nodes handed out.
    pub fn operations(&self) -> u64 {
        self.figures.operations
    }

    /// The words that they took, operators and operands.
    pub fn used(&self) -> u64 {
        self.figures.used
    }

    /// The words that there were for them: 1,019 for each call of update-nodes that was answered.
    pub fn available(&self) -> u64 {
        self.figures.available
    }

    /// The share of the available words that were used; 0 over 1 where there were none.
    pub fn share(&self) -> Share {
        let ffi::Share { part, whole } = ffi::month_share(self.figures.flat());
        Share { part, whole }
    }
}

#[cfg(test)]
mod tests;
