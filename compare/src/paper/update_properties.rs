//! "update-properties" (M-103), by the tables of document 001

use super::records::{self, Property};
use super::update_nodes::{judge_inputs, AREA};
use super::words::{as_word, put_word, word};
use super::{refused, Refusal};

/// 001: the phandle, the State Variable, eight reserved bytes and the number of properties stand before them.
const HEAD: usize = 20;

/// What is due in a node's changes: one of them by its place, and the byte of its value.
#[derive(Clone, Copy, PartialEq, Eq, Debug)]
pub struct Due {
    pub change: usize,
    pub byte: usize,
}

/// "state 0 starts a node"
const START: Due = Due { change: 0, byte: 0 };

/// One property of an area: all of a change, or a part of its value.
#[derive(Clone, PartialEq, Eq, Debug)]
pub struct Piece<'a> {
    pub name: &'a [u8],
    pub descriptor: u32,
    pub value: &'a [u8],
}

/// The status of the call, or the rule that refuses it. "Refusals: after update-nodes' checks of address, scope (if 001
/// has one) and journal, -3 for a phandle that no kind 5 or 6 record carries, non-zero reserved bytes or a state that
/// this node's session never carries."
pub fn update_properties(memory: &mut [u8], journal: &[u8], address: u64, scope: u64) -> Result<u32, Refusal> {
    judge_inputs(memory.len() as u64, address, scope)?;
    let properties = match records::properties(journal) {
        Ok(properties) => properties,
        Err(rule) => return refused(-1, rule),
    };
    let area = &mut memory[address as usize..(address + AREA) as usize];
    let changes = changes_of(&properties, word(area, 0));
    if changes.is_empty() {
        return refused(-3, "no record of this phandle");
    }
    if area[8..16].iter().any(|&byte| byte != 0) {
        return refused(-3, "bytes 8 to 15 not zero");
    }
    match due_at(&changes, word(area, 4)) {
        Some(due) => Ok(answer(area, &changes, due)),
        None => refused(-3, "state"),
    }
}

/// "the node's changes in journal order". Equal names stay separate properties.
pub fn changes_of<'a>(properties: &[Property<'a>], phandle: u64) -> Vec<Property<'a>> {
    properties.iter().filter(|property| property.phandle == phandle).copied().collect()
}

/// "a state that this node's session never carries": what is due where the one session that starts at 0 carries this
/// state.
fn due_at(changes: &[Property], state: u64) -> Option<Due> {
    session(changes).into_iter().find(|&due| state_of(changes, due) == state)
}

/// What is due at each call of the session that starts at 0.
pub fn session(changes: &[Property]) -> Vec<Due> {
    let mut all = Vec::new();
    let mut due = START;
    while due.change < changes.len() {
        all.push(due);
        due = handed_out(changes, due).1;
    }
    all
}

/// "The state is the journal offset of the record due or of the value byte due, and 0 with status 0." 0 starts too.
pub fn state_of(changes: &[Property], due: Due) -> u64 {
    if due == START || due.change == changes.len() {
        return 0;
    }
    let change = &changes[due.change];
    if due.byte == 0 {
        change.at
    } else {
        value_at(change) + due.byte as u64
    }
}

/// The journal offset of a record's value: length, kind, phandle, the name and its NUL stand before it.
fn value_at(change: &Property) -> u64 {
    change.at + 8 + change.name.len() as u64 + 1
}

/// "A call hands out all that fits, dividing only the last value, and only if a byte of it fits". Also gives what is
/// due then.
pub fn handed_out<'a>(changes: &[Property<'a>], from: Due) -> (Vec<Piece<'a>>, Due) {
    let mut pieces = Vec::new();
    let mut due = from;
    let mut left = AREA as usize - HEAD;
    while due.change < changes.len() {
        let change = &changes[due.change];
        let rest = &change.value.unwrap_or(&[])[due.byte..];
        let before_value = change.name.len() + 1 + 4;
        if before_value + rest.len() <= left {
            pieces.push(whole(change, rest));
            left -= before_value + rest.len();
            due = Due { change: due.change + 1, byte: 0 };
        } else if before_value < left {
            let fits = left - before_value;
            pieces.push(part(change, &rest[..fits]));
            return (pieces, Due { byte: due.byte + fits, ..due });
        } else {
            break;
        }
    }
    (pieces, due)
}

/// 001: "0x00000000 Name only property", "0x80000000 The property is to be deleted", "Other positive values are the
/// length (M) of the immediately following property value string that completes the update".
fn whole<'a>(change: &Property<'a>, rest: &'a [u8]) -> Piece<'a> {
    let descriptor = if change.value.is_none() { 0x8000_0000 } else { as_word(rest.len() as u64) };
    Piece { name: change.name, descriptor, value: rest }
}

/// 001: "Other negative values are the twos complement of the length (M) of the immediately following property value
/// string that either starts or continues the update of the property value".
fn part<'a>(change: &Property<'a>, bytes: &'a [u8]) -> Piece<'a> {
    let length = as_word(bytes.len() as u64);
    Piece { name: change.name, descriptor: length.wrapping_neg(), value: bytes }
}

/// "The phandle and then the state variable head the area", eight zero bytes and the number of properties follow; "later
/// bytes stay". 001: "1: More properties updated -- call again".
fn answer(area: &mut [u8], changes: &[Property], due: Due) -> u32 {
    let (pieces, next) = handed_out(changes, due);
    put_word(area, 4, as_word(state_of(changes, next)));
    area[8..16].fill(0);
    put_word(area, 16, as_word(pieces.len() as u64));
    let mut at = HEAD;
    for piece in &pieces {
        at = write_piece(area, at, piece);
    }
    u32::from(next.change < changes.len())
}

/// 001: "Null terminated string indicating the name of the updated property", "Value Descriptor -- 4 Bytes", "0-M bytes
/// of property value string". Gives where the next one stands.
fn write_piece(area: &mut [u8], at: usize, piece: &Piece) -> usize {
    let descriptor_at = at + piece.name.len() + 1;
    area[at..descriptor_at - 1].copy_from_slice(piece.name);
    area[descriptor_at - 1] = 0;
    put_word(area, descriptor_at, piece.descriptor);
    let value_at = descriptor_at + 4;
    area[value_at..value_at + piece.value.len()].copy_from_slice(piece.value);
    value_at + piece.value.len()
}
