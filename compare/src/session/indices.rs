//! Sessions of get-indices: a partition reads a list up to status 0 while other calls come between, other lists are
//! read, and the inventory is edited. Whatever the calls are, each finds the record that the one before it left, and
//! the record has to be what the account says.

use super::account::{Account, Entry, HandedOut, Request};
use super::Run;
use crate::buffers::{arguments, put_word, word_at};
use crate::case::{CallCase, Listing};
use crate::compare::{self, CallResult};
use crate::generate::{self, inventories};
use crate::library::Edit;
use crate::paper::{get_indices, records};

/// The entries of this flag and type in an inventory that is well formed.
fn whole_list(inventory: &[u8], flag: u32, kind: u32) -> Vec<Entry> {
    let (flag, kind) = (u64::from(flag), u64::from(kind));
    let entries = records::inventory(inventory).unwrap_or_default();
    let asked = entries.iter().filter(|entry| entry.flag == flag && entry.kind == kind);
    asked.map(|entry| (u64::from(entry.index), entry.code.to_vec())).collect()
}

/// A partition that reads a list, and what it reads it from.
struct Reader<'a, 'b> {
    run: &'a mut Run<'b>,
    flag: u32,
    kind: u32,
    inventory: Vec<u8>,
    account: Account,
    /// The Starting Number of its next call.
    due: u32,
    /// How often its reading may still be disturbed.
    disturbances: usize,
    handed_out: u64,
}

/// What comes of the partition's own call.
enum Outcome {
    Done,
    GoesOn,
    /// A call from Starting Number 1 was refused: there is nothing to read.
    Nothing,
}

/// Runs the session to its end; gives the number of entries that came.
pub fn run(run: &mut Run, listing: Listing) -> Result<u64, String> {
    let Listing { flag, kind, edition, disturbances } = listing;
    let account = Account::default();
    let sides = run.sides;
    if [sides.paper, sides.tested].iter().any(|side| side.no_reading() != account.record()) {
        return Err(String::from("the record to start with is another one\n"));
    }
    (run.edition, run.reading) = (edition, account.record());
    let inventory = run.case.records.clone();
    let mut reader = Reader { run, flag, kind, inventory, account, due: 1, disturbances, handed_out: 0 };
    loop {
        reader.come_between()?;
        match reader.step()? {
            Outcome::Done => break,
            Outcome::GoesOn => {}
            Outcome::Nothing if reader.mend()? => {}
            Outcome::Nothing => return Ok(reader.handed_out),
        }
    }
    let handed_out = reader.handed_out;
    run.counts.to_the_end = 1;
    Ok(handed_out)
}

impl Reader<'_, '_> {
    /// The partition's own call, which is well made: it is answered, or refused as the account says.
    fn step(&mut self) -> Result<Outcome, String> {
        if !self.run.case.plain {
            self.run.write_anywhere();
        }
        let expected = self.expected_refusal();
        let call = self.own_call();
        let result = self.call(&call)?;
        let status = result.status().unwrap_or(0);
        if expected.map_or(!result.answered(), |refusal| status != refusal) {
            return Err(format!("a well-made call got {status}, not {expected:?}, this {}", call.text()));
        }
        if result.answered() {
            self.run.counts.answered += 1;
            self.run.memory.copy_from_slice(result.memory.content());
        }
        let first = self.due == 1;
        self.due = if status == 1 { word_at(result.args.content(), 36).unwrap_or(0) } else { 1 };
        self.run.counts.begun_afresh += u64::from(status < 0 && !first);
        Ok(match status {
            0 => Outcome::Done,
            _ if status < 0 && first => Outcome::Nothing,
            _ => Outcome::GoesOn,
        })
    }

    /// The status that the partition's own call is to be refused with, if it is.
    fn expected_refusal(&self) -> Option<i32> {
        if self.due != 1 {
            return self.account.refusal(&self.own_request());
        }
        if records::inventory(&self.inventory).is_err() {
            return Some(-1);
        }
        whole_list(&self.inventory, self.flag, self.kind).is_empty().then_some(-3)
    }

    fn own_request(&self) -> Request {
        Request { flag: self.flag, kind: self.kind, start: self.due, edition: self.run.edition }
    }

    /// The bytes that the entry due takes, or any entry where there is none.
    fn bytes_due(&self) -> u32 {
        let whole = whole_list(&self.inventory, self.flag, self.kind);
        let due = (self.due as usize).checked_sub(1).and_then(|place| whole.get(place));
        due.map_or(inventories::AMPLE as u32 - 4, |entry| get_indices::entry_bytes(&entry.1) as u32)
    }

    /// A call for the entry due, with an area inside memory that holds it.
    fn own_call(&mut self) -> CallCase {
        let due = self.bytes_due();
        let random = &mut self.run.random;
        let size = match random.below(4) {
            0 => 4 + due,
            1 => inventories::AMPLE as u32,
            _ => 4 + due + random.below(300) as u32,
        };
        let address = random.between(0, self.run.memory.len() - size as usize) as u32;
        let inputs = [self.flag, self.kind, address, size, self.due];
        CallCase {
            args: arguments(2, &inputs, &[random.word(), random.word()]),
            memory: self.run.memory.clone(),
            journal: Vec::new(),
            inventory: self.inventory.clone(),
            edition: self.run.edition,
            registration: self.run.registration,
            reading: self.run.reading,
        }
    }

    /// A call of the partition, on which both sides agree and which the account takes in.
    fn call(&mut self, call: &CallCase) -> Result<CallResult, String> {
        let result = self.run.judged(call)?;
        let taken_in = self.take_in(call, &result);
        taken_in.map_err(|text| format!("{text}of this {}", call.text()))?;
        if result.reading != self.account.record() {
            let expected = self.account.record().text();
            return Err(format!(
                "the record is not {expected}, but {}, after this {}",
                result.reading.text(),
                call.text()
            ));
        }
        self.run.reading = result.reading;
        Ok(result)
    }

    /// Enters the call into the account, where it is one of get-indices that was answered or got -4.
    fn take_in(&mut self, call: &CallCase, result: &CallResult) -> Result<(), String> {
        let Some([flag, kind, address, size, start]) = get_indices_inputs(call) else {
            return Ok(());
        };
        let request = Request { flag, kind, start, edition: call.edition };
        match (result.number, result.status()) {
            (0, Some(status @ (0 | 1))) => {
                let area = &result.memory.content()[address as usize..][..size as usize];
                let entries = self.run.read_indices(area)?.into_iter();
                let code = |at: u64, length: u64| area[at as usize..][..length as usize].to_vec();
                let entries: Vec<Entry> = entries.map(|[index, at, length]| (index, code(at, length))).collect();
                self.handed_out += entries.len() as u64;
                let next = word_at(result.args.content(), 36).unwrap_or(0);
                let whole = whole_list(&call.inventory, flag, kind);
                self.account.answered(request, whole, HandedOut { status, next, entries })
            }
            (0, Some(-4)) => {
                self.run.counts.changed += 1;
                self.account.changed(request)
            }
            _ => Ok(()),
        }
    }

    /// Calls and edits between two of the partition's own calls.
    fn come_between(&mut self) -> Result<(), String> {
        self.calls_between()?;
        if self.disturbances > 0 && self.run.random.one_in(3) {
            self.disturbances -= 1;
            self.edit()?;
            self.calls_between()?;
        }
        Ok(())
    }

    fn calls_between(&mut self) -> Result<(), String> {
        while !self.run.case.plain && self.run.random.one_in(2) {
            let mut call = self.call_between();
            let first = get_indices_inputs(&call).is_some_and(|inputs| inputs[4] == 1);
            if first && self.disturbances == 0 {
                put_word(&mut call.args, 28, 0);
            }
            let result = self.call(&call)?;
            if first && result.answered() {
                self.disturbances -= 1;
                self.run.counts.other_readings += 1;
            }
        }
        Ok(())
    }

    /// The partition's own call with one thing wrong, a call for another list, or any call.
    fn call_between(&mut self) -> CallCase {
        let mut call = self.own_call();
        let (due, own) = (self.bytes_due(), self.due);
        let entries = whole_list(&self.inventory, self.flag, self.kind).len() as u32;
        let random = &mut self.run.random;
        match random.below(14) {
            0 => put_word(&mut call.args, 12, 2),
            1 => put_word(&mut call.args, 16, 9003),
            2 => put_word(&mut call.args, 20, self.run.memory.len() as u32),
            3 => put_word(&mut call.args, 24, random.pick(&[0, 3, 4, 15, 3 + due])),
            4 => {
                let other = random.pick(&[0, 0x8000_0000, 0xffff_ffff, entries + 1, own + 1, own.saturating_sub(1)]);
                put_word(&mut call.args, 28, other);
            }
            5 => put_word(&mut call.args, 12, 1 - self.flag),
            6 => put_word(&mut call.args, 16, inventories::kind(random)),
            7 => {
                put_word(&mut call.args, 24, random.pick(&[3, 4, 3 + due, 4 + due]));
                put_word(&mut call.args, 28, 1);
            }
            8 => generate::arguments::damage(random, &mut call.args),
            9 | 10 => self.ask_for_another_list(&mut call),
            _ => {
                let CallCase { inventory, edition, reading, .. } = call;
                call = CallCase { inventory, edition, reading, ..generate::call(random) };
            }
        }
        call
    }

    /// Makes the call one for the first entry of a list of the inventory.
    fn ask_for_another_list(&mut self, call: &mut CallCase) {
        let entries = records::inventory(&self.inventory).unwrap_or_default();
        if entries.is_empty() {
            return;
        }
        let other = &entries[self.run.random.below(entries.len())];
        put_word(&mut call.args, 12, other.flag as u32);
        put_word(&mut call.args, 16, other.kind as u32);
        put_word(&mut call.args, 28, 1);
    }

    /// An edit of the inventory, to another one if it is taken.
    fn edit(&mut self) -> Result<(), String> {
        if self.raise_edition()? {
            let (flag, kind) = (self.flag, self.kind);
            self.inventory = generate::edits::edited(&mut self.run.random, &self.inventory, flag, kind);
        }
        Ok(())
    }

    /// An edit after which there is something to read; false where none is taken.
    fn mend(&mut self) -> Result<bool, String> {
        let taken = self.raise_edition()?;
        if taken {
            self.inventory = inventories::stock(&mut self.run.random, self.flag, self.kind, 5).bytes;
        }
        Ok(taken)
    }

    /// "which rises by one with each edit (none is taken at the top)"; whether the edit is taken.
    fn raise_edition(&mut self) -> Result<bool, String> {
        let before = self.run.edition;
        if let Some(text) = compare::edit_difference(self.run.sides, before) {
            return Err(format!("{text}of an edit of edition {before:#x}\n"));
        }
        let Edit { taken, edition } = self.run.sides.tested.edit(before);
        let top = before == u32::MAX;
        if taken != u32::from(!top) || u64::from(edition) != u64::from(before) + u64::from(taken) {
            return Err(format!("an edit of edition {before:#x} gives {edition:#x}, taken {taken}\n"));
        }
        self.run.edition = edition;
        self.run.counts.edits += u64::from(!top);
        self.run.counts.edits_at_the_top += u64::from(top);
        Ok(!top)
    }
}

/// The inputs of a whole call of get-indices.
fn get_indices_inputs(call: &CallCase) -> Option<[u32; 5]> {
    let words: Vec<u32> = (0..10).map_while(|place| word_at(&call.args, 4 * place)).collect();
    let whole: [u32; 10] = words.try_into().ok()?;
    let [2, 5, 2, flag, kind, address, size, start, _, _] = whole else {
        return None;
    };
    Some([flag, kind, address, size, start])
}
