//! The words of an argument buffer by their names, and what they mean.

use draugsten::args::Command;
use draugsten::{Fault, Status, Token};
use std::fmt;

/// How a word is told.
#[derive(Clone, Copy, PartialEq, Eq, Debug)]
pub enum Sense {
    Token,
    Number,
    Signed,
    Address,
    Flag,
    Command,
    Status,
    Plain,
}

/// A place among the inputs or the outputs, from 1 on.
#[derive(Clone, Copy, PartialEq, Eq, Debug)]
pub enum Place {
    Input(usize),
    Output(usize),
}

/// As `input 2`.
impl fmt::Display for Place {
    fn fmt(&self, f: &mut fmt::Formatter<'_>) -> fmt::Result {
        match self {
            Place::Input(number) => write!(f, "input {number}"),
            Place::Output(number) => write!(f, "output {number}"),
        }
    }
}

/// A word of an argument buffer.
#[derive(Clone, Copy, PartialEq, Eq, Debug)]
pub struct Field {
    /// Its place; none of the head, nor after the outputs.
    pub place: Option<Place>,
    pub name: &'static str,
    pub sense: Sense,
}

type Word = (&'static str, Sense);

/// The inputs and the outputs of a call.
struct Call {
    inputs: &'static [Word],
    outputs: &'static [Word],
}

const ADDRESS: Word = ("address", Sense::Address);
const SCOPE: Word = ("scope", Sense::Signed);
const STATUS: Word = ("status", Sense::Status);

/// The calls of the tokens, by their places.
static CALLS: [Call; 4] = [
    Call { inputs: &[ADDRESS, SCOPE], outputs: &[STATUS] },
    Call {
        inputs: &[
            ("flag", Sense::Flag),
            ("type", Sense::Number),
            ADDRESS,
            ("size", Sense::Number),
            ("Starting Number", Sense::Number),
        ],
        outputs: &[STATUS, ("Next Starting Number", Sense::Number)],
    },
    Call { inputs: &[("command", Sense::Command), ADDRESS, ("length", Sense::Number)], outputs: &[STATUS] },
    Call { inputs: &[ADDRESS, SCOPE], outputs: &[STATUS] },
];

/// The big-endian word at a place, where the buffer has all of it.
pub fn word(buffer: &[u8], at: usize) -> Option<u32> {
    let bytes = buffer.get(at..at + 4)?;
    Some(u32::from_be_bytes(bytes.try_into().ok()?))
}

/// The head of an argument buffer that a call has a status in: its token, the number of its inputs, that of its outputs.
#[derive(Clone, Copy, PartialEq, Eq, Debug)]
pub struct Head {
    pub token: u32,
    pub inputs: usize,
    pub outputs: usize,
}

/// Why a call has no status: its number, and what that means.
#[derive(Clone, Copy, PartialEq, Eq, Debug)]
pub struct NoStatus {
    pub number: u32,
    pub why: &'static str,
}

/// As `number 11, no output for a status`.
impl fmt::Display for NoStatus {
    fn fmt(&self, f: &mut fmt::Formatter<'_>) -> fmt::Result {
        write!(f, "number {}, {}", self.number, self.why)
    }
}

/// The head of a buffer, by which its call has a status; or why it has none: of the two reasons for 10 the one that holds.
pub fn head(buffer: &[u8]) -> Result<Head, NoStatus> {
    let refused = |fault: Fault, why| Err(NoStatus { number: fault as u32, why });
    let words = (word(buffer, 0), word(buffer, 4), word(buffer, 8));
    let (Some(token), Some(inputs), Some(outputs)) = words else { return refused(Fault::Short, "under 12 bytes") };
    if inputs > 16 || outputs > 16 {
        return refused(Fault::TooMany, Fault::TooMany.words());
    }
    if buffer.len() < 12 + 4 * (inputs + outputs) as usize {
        return refused(Fault::Short, "fewer bytes than its inputs and outputs take");
    }
    if outputs == 0 {
        return refused(Fault::NoOutputs, Fault::NoOutputs.words());
    }
    Ok(Head { token, inputs: inputs as usize, outputs: outputs as usize })
}

impl Head {
    /// The call, as `ibm,get-indices, token 2, 5 inputs, 2 outputs`.
    pub fn text(&self) -> String {
        let Head { token, inputs, outputs } = *self;
        let (inputs, outputs) = (counted(inputs, "input"), counted(outputs, "output"));
        let unlike = if Token::of(token).is_none() || self.is_own() { "" } else { ", unlike the call's own" };
        format!("{}, token {token}, {inputs}, {outputs}{unlike}", self.name())
    }

    /// The name of the call by its token.
    pub fn name(&self) -> &'static str {
        Token::of(self.token).map_or("an unknown call", Token::words)
    }

    /// Whether there is such a call, and the counts are its own.
    pub fn is_own(&self) -> bool {
        self.call().is_some()
    }

    /// The call that it asks for, where the counts are its own.
    fn call(&self) -> Option<&'static Call> {
        let call = &CALLS[Token::of(self.token)?.place()];
        ((self.inputs, self.outputs) == (call.inputs.len(), call.outputs.len())).then_some(call)
    }

    /// The word of so many, from 0 on.
    pub fn field(&self, number: usize) -> Field {
        let known = |words: fn(&Call) -> &'static [Word], place: usize| match self.call() {
            Some(call) => words(call)[place],
            None => ("", Sense::Plain),
        };
        let (place, (name, sense)) = match number.checked_sub(3) {
            None => return head_field(number),
            Some(place) if place < self.inputs => (Place::Input(place + 1), known(|call| call.inputs, place)),
            Some(place) if place == self.inputs => (Place::Output(1), STATUS),
            Some(place) if place < self.inputs + self.outputs => {
                let place = place - self.inputs;
                (Place::Output(place + 1), known(|call| call.outputs, place))
            }
            Some(_) => return Field { place: None, name: "a word after the outputs", sense: Sense::Plain },
        };
        Field { place: Some(place), name, sense }
    }
}

/// So many of something.
pub fn counted(number: usize, what: &str) -> String {
    let plural = if number == 1 { "" } else { "s" };
    format!("{number} {what}{plural}")
}

/// The words in front of the inputs, which a buffer has also where there is no status.
pub fn head_field(number: usize) -> Field {
    let (name, sense) = match number {
        0 => ("token", Sense::Token),
        1 => ("number of inputs", Sense::Number),
        2 => ("number of outputs", Sense::Number),
        _ => ("no input and no output", Sense::Plain),
    };
    Field { place: None, name, sense }
}

impl Field {
    /// What a word means in its place; nothing if the word's digits say all.
    pub fn meaning(&self, word: u32) -> Option<Meaning> {
        (self.sense != Sense::Plain).then_some(Meaning { field: *self, word })
    }
}

/// Its place and its name.
impl fmt::Display for Field {
    fn fmt(&self, f: &mut fmt::Formatter<'_>) -> fmt::Result {
        match self.place {
            Some(place) if self.name.is_empty() => place.fmt(f),
            Some(place) => write!(f, "{place}, {}", self.name),
            None => f.write_str(self.name),
        }
    }
}

/// A word in its place.
#[derive(Clone, Copy, PartialEq, Eq, Debug)]
pub struct Meaning {
    field: Field,
    word: u32,
}

/// As `status -3 parameter`.
impl fmt::Display for Meaning {
    fn fmt(&self, f: &mut fmt::Formatter<'_>) -> fmt::Result {
        let (Field { name, sense, .. }, word) = (self.field, self.word);
        write!(f, "{name} ")?;
        match sense {
            Sense::Plain | Sense::Number => write!(f, "{word}"),
            Sense::Address => write!(f, "{word:#010x}"),
            Sense::Signed => write!(f, "{}", word as i32),
            Sense::Token => write!(f, "{word} {}", Token::of(word).map_or("of no call", Token::words)),
            Sense::Flag => write!(f, "{word} {}", flag(word)),
            Sense::Command => write!(f, "{word} {}", Command::of(word).map_or("of none", Command::words)),
            Sense::Status => {
                write!(f, "{} {}", word as i32, Status::of(word as i32).map_or("of no call", Status::words))
            }
        }
    }
}

fn flag(word: u32) -> &'static str {
    match word {
        0 => "indicator",
        1 => "sensor",
        _ => "neither indicator nor sensor",
    }
}
