//! The argument buffer of a call before and after it, word by word.

use crate::shared::calls::{self, head_field, Field, Head, Meaning, NoStatus, Sense};
use std::ops::Range;

/// Both buffers, and the head of the one before the call. By that head the words of both are named.
pub struct Buffers<'a> {
    pub before: &'a [u8],
    pub after: &'a [u8],
    pub head: Result<Head, NoStatus>,
}

/// A word: its bytes in both buffers, fewer than four or none if a buffer ends there.
pub struct Word<'a> {
    pub offset: usize,
    pub field: Field,
    pub is_output: bool,
    pub before: &'a [u8],
    pub after: &'a [u8],
}

impl<'a> Buffers<'a> {
    pub fn new(before: &'a [u8], after: &'a [u8]) -> Buffers<'a> {
        Buffers { before, after, head: calls::head(before) }
    }

    /// The inputs of a call that has a status.
    pub fn inputs(&self) -> impl Iterator<Item = Word<'a>> + '_ {
        let inputs = self.head.map_or(0, |head| head.inputs);
        (3..3 + inputs).map(|number| self.word(number))
    }

    /// The outputs of a call that has a status.
    pub fn outputs(&self) -> impl Iterator<Item = Word<'a>> + '_ {
        self.output_numbers().map(|number| self.word(number))
    }

    fn output_numbers(&self) -> Range<usize> {
        self.head.map_or(0..0, |head| 3 + head.inputs..3 + head.inputs + head.outputs)
    }

    /// All words.
    pub fn words(&self) -> impl Iterator<Item = Word<'a>> + '_ {
        self.numbers().map(|number| self.word(number))
    }

    fn numbers(&self) -> Range<usize> {
        0..self.before.len().max(self.after.len()).div_ceil(4)
    }

    /// How many words changed that are no outputs.
    pub fn changed_beside_outputs(&self) -> usize {
        let outputs = self.output_numbers();
        let is_changed = |number: &usize| part(self.before, *number) != part(self.after, *number);
        self.numbers().filter(|number| !outputs.contains(number)).filter(is_changed).count()
    }

    fn word(&self, number: usize) -> Word<'a> {
        Word {
            offset: 4 * number,
            field: self.head.map_or_else(|_| head_field(number), |head| head.field(number)),
            is_output: self.output_numbers().contains(&number),
            before: part(self.before, number),
            after: part(self.after, number),
        }
    }
}

/// The bytes of a word, as many of the four as the buffer has.
fn part(buffer: &[u8], number: usize) -> &[u8] {
    let size = buffer.len();
    &buffer[size.min(4 * number)..size.min(4 * number + 4)]
}

impl<'a> Word<'a> {
    pub fn is_changed(&self) -> bool {
        self.before != self.after
    }

    /// What counts of it: of an output what the call left there, otherwise what the call found.
    pub fn bytes(&self) -> &'a [u8] {
        if self.is_output {
            self.after
        } else {
            self.before
        }
    }

    /// What that says; none, if it is no whole word, or its digits say all.
    pub fn meaning(&self) -> Option<Meaning> {
        meaning(&self.field, self.bytes())
    }

    /// What a word that is no output says after the call, if the call changed it.
    pub fn new_meaning(&self) -> Option<Meaning> {
        let is_new = self.is_changed() && !self.is_output;
        is_new.then(|| meaning(&self.field, self.after)).flatten()
    }

    /// The number that it is in its place; none, if it is no whole word.
    pub fn value(&self) -> Option<i64> {
        let word = calls::word(self.bytes(), 0)?;
        Some(match self.field.sense {
            Sense::Signed | Sense::Status => i64::from(word as i32),
            _ => i64::from(word),
        })
    }
}

fn meaning(field: &Field, bytes: &[u8]) -> Option<Meaning> {
    calls::word(bytes, 0).and_then(|word| field.meaning(word))
}
