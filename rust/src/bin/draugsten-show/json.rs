//! Lines of JSON, an object in each.

use crate::buffers::{Buffers, Word};
use crate::form::{Digits, Form};
use crate::items::{self, flag_name, node_type_name, File, Item, Place, AFTER};
use crate::object::Object;
use crate::shared::judge::{Change, Flaw, Listed};
use crate::shared::trace::Step;
use crate::walk::Counts;
use std::io::{self, Write};

pub struct Json;

impl Form for Json {
    fn item(&self, out: &mut dyn Write, place: Place, item: &Item<'_>) -> io::Result<()> {
        let mut object = Object::begin(out);
        write_front(&mut object, place, item.kind())?;
        match item {
            Item::Change(change) => write_change(&mut object, change)?,
            Item::Listed(listed) => write_listed(&mut object, listed)?,
            Item::Step(Step::Memory { address, bytes }) => {
                object.number("address", address)?;
                object.text("bytes", Digits(bytes))?;
            }
            Item::Step(Step::Call { before, after }) => {
                let buffers = Buffers::new(before, after);
                write_before(&mut object, place, &buffers)?;
                object.end_line()?;
                object = Object::begin(out);
                write_front(&mut object, items::after(place, before), AFTER)?;
                write_after(&mut object, place, &buffers)?;
            }
        }
        object.end_line()
    }

    fn end(&self, out: &mut dyn Write, file: File, counts: Counts) -> io::Result<()> {
        let Counts { records, bytes, calls } = counts;
        write_last(out, "end", |object| {
            object.text("file", file.name())?;
            object.number("records", records)?;
            object.number("bytes", bytes)?;
            if file == File::Trace {
                object.number("calls", calls)?;
            }
            Ok(())
        })
    }

    fn malformed(&self, out: &mut dyn Write, file: File, flaw: &Flaw) -> io::Result<()> {
        write_last(out, "malformed", |object| {
            object.text("file", file.name())?;
            object.number("record", flaw.record)?;
            object.number("offset", flaw.offset)?;
            object.text("why", &flaw.what)
        })
    }

    fn no_record(&self, out: &mut dyn Write, _: &str, file: Option<File>) -> io::Result<()> {
        write_last(out, "no_record", |object| object.text_or_null("file", file.map(File::name)))
    }

    fn call(&self, out: &mut dyn Write, place: Place, buffers: &Buffers<'_>) -> io::Result<()> {
        let after = items::after(place, buffers.before);
        let mut object = Object::begin(out);
        object.number("call", place.call)?;
        object.list("records", [place.record, after.record], |out, number| write!(out, "{number}"))?;
        object.list("offsets", [place.offset, after.offset], |out, number| write!(out, "{number}"))?;
        write_name(&mut object, buffers)?;
        object.list("words", buffers.words(), write_word)?;
        object.end_line()
    }

    fn no_call(&self, out: &mut dyn Write, call: u64, counts: Counts) -> io::Result<()> {
        write_last(out, "no_call", |object| {
            object.number("call", call)?;
            object.number("calls", counts.calls)
        })
    }
}

/// The last line: an object whose one member is an object.
fn write_last(out: &mut dyn Write, name: &str, fill: impl Fn(&mut Object<'_>) -> io::Result<()>) -> io::Result<()> {
    let mut object = Object::begin(out);
    let mut inner = Object::begin(object.member(name)?);
    fill(&mut inner)?;
    inner.end()?;
    object.end_line()
}

fn write_front(object: &mut Object<'_>, place: Place, (kind, name): (u16, &str)) -> io::Result<()> {
    object.number("record", place.record)?;
    object.number("offset", place.offset)?;
    object.number("kind", kind)?;
    object.text("name", name)
}

fn write_change(object: &mut Object<'_>, change: &Change<'_>) -> io::Result<()> {
    match *change {
        Change::Delete { node_type, phandle } | Change::Update { node_type, phandle } => {
            write_node_type(object, node_type)?;
            object.number("phandle", phandle)
        }
        Change::Add { node_type, parent, drc_index } => {
            write_node_type(object, node_type)?;
            object.number("parent", parent)?;
            object.number("drc_index", drc_index)
        }
        Change::UpdateInUnit { node_type, unit, phandle } => {
            write_node_type(object, node_type)?;
            object.number("unit", unit)?;
            object.number("phandle", phandle)
        }
        Change::NewValue { phandle, name, value } => {
            object.number("phandle", phandle)?;
            object.characters("property", name)?;
            object.text("value", Digits(value))
        }
        Change::DeletedProperty { phandle, name } => {
            object.number("phandle", phandle)?;
            object.characters("property", name)
        }
    }
}

fn write_node_type(object: &mut Object<'_>, node_type: u16) -> io::Result<()> {
    object.number("node_type", node_type)?;
    object.text("node_type_name", node_type_name(node_type))
}

fn write_listed(object: &mut Object<'_>, listed: &Listed<'_>) -> io::Result<()> {
    object.number("flag", listed.flag)?;
    object.text("flag_name", flag_name(listed.flag))?;
    object.number("type", listed.type_number)?;
    object.number("index", listed.index)?;
    object.characters("code", listed.code)
}

/// The call's token and name; null, if the buffer is too short for a call, or there is no such call.
fn write_name(object: &mut Object<'_>, buffers: &Buffers<'_>) -> io::Result<()> {
    let head = buffers.head.ok();
    object.number_or_null("token", head.map(|head| head.token))?;
    object.text_or_null("call_name", head.filter(|head| head.is_own()).map(|head| head.name()))?;
    object.number_or_null("number", buffers.head.err().map(|no_status| no_status.number))
}

fn write_before(object: &mut Object<'_>, place: Place, buffers: &Buffers<'_>) -> io::Result<()> {
    object.number("call", place.call)?;
    object.text("buffer", Digits(buffers.before))?;
    write_name(object, buffers)?;
    object.list("inputs", buffers.inputs(), write_named)
}

fn write_after(object: &mut Object<'_>, place: Place, buffers: &Buffers<'_>) -> io::Result<()> {
    object.number("call", place.call)?;
    object.text("buffer", Digits(buffers.after))?;
    object.number_or_null("status", buffers.outputs().next().and_then(|word| word.value()))?;
    object.list("outputs", buffers.outputs(), write_named)?;
    object.number("changed_beside_outputs", buffers.changed_beside_outputs())
}

/// An input or an output of a line.
fn write_named(out: &mut dyn Write, word: Word<'_>) -> io::Result<()> {
    let mut object = Object::begin(out);
    write_field_name(&mut object, &word)?;
    object.number_or_null("value", word.value())?;
    object.text_or_null("meaning", word.meaning())?;
    object.end()
}

fn write_field_name(object: &mut Object<'_>, word: &Word<'_>) -> io::Result<()> {
    object.text_or_null("name", Some(word.field.name).filter(|name| !name.is_empty()))
}

/// A word of a call that is shown alone.
fn write_word(out: &mut dyn Write, word: Word<'_>) -> io::Result<()> {
    let mut object = Object::begin(out);
    object.number("offset", word.offset)?;
    object.text_or_null("place", word.field.place)?;
    write_field_name(&mut object, &word)?;
    object.text("before", Digits(word.before))?;
    object.text("after", Digits(word.after))?;
    object.number("changed", word.is_changed())?;
    object.number_or_null("value", word.value())?;
    object.text_or_null("meaning", word.meaning())?;
    object.text_or_null("new_meaning", word.new_meaning())?;
    object.end()
}
