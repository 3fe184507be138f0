//! Lines of text.

use crate::buffers::{Buffers, Word};
use crate::form::{Digits, Form};
use crate::items::{self, flag_name, node_type_name, File, Item, Place, AFTER};
use crate::shared::calls::counted;
use crate::shared::judge::{Change, Flaw, Listed};
use crate::shared::trace::Step;
use crate::shared::visible::visible;
use crate::walk::Counts;
use std::io::{self, Write};

/// Of a value, and of what memory gets, so many bytes are written at the most.
const FIRST: usize = 16;

pub struct Text;

impl Form for Text {
    fn item(&self, out: &mut dyn Write, place: Place, item: &Item<'_>) -> io::Result<()> {
        write_front(out, place, item.kind())?;
        match item {
            Item::Change(change) => writeln!(out, ", {}", change_text(change)),
            Item::Listed(listed) => writeln!(out, ", {}", listed_text(listed)),
            Item::Step(Step::Memory { address, bytes }) => {
                writeln!(out, ", address {address:#010x}, {}", first_bytes(bytes))
            }
            Item::Step(Step::Call { before, after }) => {
                let buffers = Buffers::new(before, after);
                write_before(out, place.call, &buffers)?;
                write_front(out, items::after(place, before), AFTER)?;
                write_after(out, place.call, &buffers)
            }
        }
    }

    fn end(&self, out: &mut dyn Write, file: File, counts: Counts) -> io::Result<()> {
        let Counts { records, bytes, calls } = counts;
        write!(out, "end {}, {}", many(records, "record"), many(bytes, "byte"))?;
        match file {
            File::Trace => writeln!(out, ", {}, as recorded: none was made again", many(calls, "call")),
            _ => writeln!(out),
        }
    }

    fn malformed(&self, out: &mut dyn Write, _: File, flaw: &Flaw) -> io::Result<()> {
        writeln!(out, "malformed {flaw}")
    }

    fn no_record(&self, out: &mut dyn Write, name: &str, file: Option<File>) -> io::Result<()> {
        let more = if file.is_none() { ", and --journal, --inventory or --trace" } else { "" };
        writeln!(out, "no record\n{name} is empty; if that is meant, give --allow-empty{more}")
    }

    fn call(&self, out: &mut dyn Write, place: Place, buffers: &Buffers<'_>) -> io::Result<()> {
        let after = items::after(place, buffers.before);
        let end = after.offset + 4 + buffers.after.len() as u64;
        let Place { call, record, offset } = place;
        writeln!(out, "call {call}: records {record} and {}, at bytes {offset} and {}", after.record, after.offset)?;
        writeln!(out, "as recorded: it was not made again, and nothing after byte {end} was looked at")?;
        match buffers.head {
            Ok(head) => writeln!(out, "{}", head.text())?,
            Err(no_status) => writeln!(out, "no status: {no_status}")?,
        }
        writeln!(out, "  offset  before    after")?;
        for word in buffers.words() {
            write_word(out, &word)?;
        }
        match buffers.words().filter(Word::is_changed).count() {
            0 => writeln!(out, "no word changed"),
            changed => writeln!(out, "{} changed, marked *", counted(changed, "word")),
        }
    }

    fn no_call(&self, out: &mut dyn Write, call: u64, counts: Counts) -> io::Result<()> {
        writeln!(out, "no call {call}: the trace has {}", many(counts.calls, "call"))
    }
}

fn many(number: u64, what: &str) -> String {
    counted(number as usize, what)
}

fn write_front(out: &mut dyn Write, place: Place, (kind, name): (u16, &str)) -> io::Result<()> {
    write!(out, "{} at {}: kind {kind}, {name}", place.record, place.offset)
}

fn change_text(change: &Change<'_>) -> String {
    match change {
        Change::Delete { node_type, phandle } | Change::Update { node_type, phandle } => {
            format!("{}, phandle {phandle:08x}", node_type_text(*node_type))
        }
        Change::Add { node_type, parent, drc_index } => {
            let node_type = node_type_text(*node_type);
            format!("{node_type}, parent phandle {parent:08x}, drc-index {drc_index:08x}")
        }
        Change::UpdateInUnit { node_type, unit, phandle } => {
            let node_type = node_type_text(*node_type);
            format!("{node_type}, unit address {unit:016x}, phandle {phandle:08x}")
        }
        Change::NewValue { phandle, name, value } => {
            format!("phandle {phandle:08x}, property {}, value of {}", visible(name), first_bytes(value))
        }
        Change::DeletedProperty { phandle, name } => format!("phandle {phandle:08x}, property {}", visible(name)),
    }
}

fn node_type_text(node_type: u16) -> String {
    format!("node type {node_type} {}", node_type_name(node_type))
}

fn listed_text(listed: &Listed<'_>) -> String {
    let Listed { flag, type_number, index, code } = *listed;
    format!("flag {flag} {}, type {type_number}, index {index}, code {}", flag_name(flag), visible(code))
}

/// How many bytes there are, and the first of them.
fn first_bytes(bytes: &[u8]) -> String {
    let (count, first) = (counted(bytes.len(), "byte"), &bytes[..bytes.len().min(FIRST)]);
    match bytes.len() {
        0 => count,
        1..=FIRST => format!("{count} {}", Digits(first)),
        _ => format!("{count} {}..", Digits(first)),
    }
}

/// A call by its name, with its inputs by theirs.
fn write_before(out: &mut dyn Write, call: u64, buffers: &Buffers<'_>) -> io::Result<()> {
    write!(out, " call {call}, ")?;
    match buffers.head {
        Ok(head) if head.is_own() => write!(out, "{}", head.name())?,
        Ok(head) => write!(out, "{}", head.text())?,
        Err(no_status) => write!(out, "buffer of {}: {no_status}", first_bytes(buffers.before))?,
    }
    buffers.inputs().try_for_each(|word| write_in_line(out, &word))?;
    writeln!(out)
}

/// What the call left in its outputs, and whether it left another word than before elsewhere.
fn write_after(out: &mut dyn Write, call: u64, buffers: &Buffers<'_>) -> io::Result<()> {
    write!(out, " call {call}")?;
    if let Err(no_status) = buffers.head {
        write!(out, ", no status: {no_status}")?;
    }
    buffers.outputs().try_for_each(|word| write_in_line(out, &word))?;
    if buffers.before.len() != buffers.after.len() {
        let [before, after] = [buffers.before, buffers.after].map(|buffer| counted(buffer.len(), "byte"));
        write!(out, ", buffer of {after} and not {before}")?;
    }
    match buffers.changed_beside_outputs() {
        0 if buffers.head.is_err() => writeln!(out, ", no word changed"),
        0 => writeln!(out),
        1 => writeln!(out, ", 1 word changed that is no output"),
        changed => writeln!(out, ", {changed} words changed that are no outputs"),
    }
}

/// A word in the line of its record: what it means; or its place and its digits; or that the buffer ends before.
fn write_in_line(out: &mut dyn Write, word: &Word<'_>) -> io::Result<()> {
    match word.meaning() {
        Some(meaning) => write!(out, ", {meaning}"),
        None if word.bytes().is_empty() => write!(out, ", {} missing", word.field),
        None => write!(out, ", {} {}", word.field, Digits(word.bytes())),
    }
}

/// A word in a line of its own.
fn write_word(out: &mut dyn Write, word: &Word<'_>) -> io::Result<()> {
    let mark = if word.is_changed() { '*' } else { ' ' };
    write!(out, "{mark} {:>6}  {:<8}  {:<8}  ", word.offset, Digits(word.before), Digits(word.after))?;
    match (word.field.place, word.meaning()) {
        (Some(place), Some(meaning)) => write!(out, "{place}, {meaning}")?,
        (None, Some(meaning)) => write!(out, "{meaning}")?,
        (_, None) => write!(out, "{}", word.field)?,
    }
    match word.new_meaning() {
        Some(meaning) => writeln!(out, "; after the call {meaning}"),
        None => writeln!(out),
    }
}
