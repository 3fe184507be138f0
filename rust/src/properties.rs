//! The reader of the work areas that update-properties fills.

use crate::ffi;
use crate::reading::{accepted, Refusal};

/// No area has more properties.
const PROPERTIES_LIMIT: usize = 679;

/// The bytes of a property's name, without its NUL, at the most.
pub const NAME_LIMIT: usize = 31;

/// The bytes of a property's value, at the most.
pub const VALUE_LIMIT: usize = 32_768;

/// What a property area holds.
#[derive(Clone, PartialEq, Eq, Debug)]
pub struct PropertyArea<'a> {
    /// The node.
    pub phandle: u32,
    /// The State Variable: 0 at the start and at the end of the node's session.
    pub state: u32,
    /// The properties, in order.
    pub properties: Vec<Property<'a>>,
}

/// One property of an area.
#[derive(Clone, Copy, PartialEq, Eq, Debug)]
pub struct Property<'a> {
    /// Its name, without the NUL: a part of the area.
    pub name: &'a [u8],
    /// What its descriptor tells.
    pub descriptor: Descriptor,
    /// The bytes of its value that stand in this area; none of them where there is no value.
    pub value: &'a [u8],
}

/// What a property's descriptor tells of it.
#[derive(Clone, Copy, PartialEq, Eq, Debug)]
pub enum Descriptor {
    /// It has a name only.
    NameOnly,
    /// It is to be deleted.
    Deleted,
    /// The bytes complete its value.
    Complete,
    /// The bytes start or continue its value; the rest stands in the area of a later call, under the same name.
    Partial,
}

/// The properties of a property area, with its phandle and state.
///
/// ```
/// use draugsten::{args, call, read_properties, Answer, Descriptor, Edition, ReadingRecord, Registration};
///
/// // One record: the property "a" of node 7 has the new value "on".
/// let journal = [10, 0, 5, 0, 7, 0, 0, 0, b'a', 0, b'o', b'n'];
/// let mut memory = vec![0; 4096];
/// memory[3] = 7;
/// let (mut registration, mut reading) = (Registration::none(), ReadingRecord::none());
///
/// let mut args = args::update_properties(0, 1);
/// let answer = call(&mut args, &mut memory, &journal, &[], Edition(0), &mut registration, &mut reading);
/// let area = read_properties(&memory).unwrap();
///
/// assert_eq!((answer, area.phandle, area.state), (Ok(Answer::Done), 7, 0));
/// assert_eq!((area.properties[0].name, area.properties[0].value), (&b"a"[..], &b"on"[..]));
/// assert_eq!(area.properties[0].descriptor, Descriptor::Complete);
/// ```
pub fn read_properties(area: &[u8]) -> Result<PropertyArea<'_>, Refusal> {
    let mut words = [0; 5 * PROPERTIES_LIMIT];
    let reading = ffi::read_properties(area, &mut words);
    accepted(reading.refusal, reading.offset)?;
    let properties = words.chunks_exact(5).take(reading.entries).map(|words| property(area, words)).collect();
    Ok(PropertyArea { phandle: reading.phandle, state: reading.state, properties })
}

/// A property from its five words.
fn property<'a>(area: &'a [u8], words: &[u32]) -> Property<'a> {
    Property {
        name: part(area, words[0], words[1]),
        descriptor: descriptor(words[2]),
        value: part(area, words[3], words[4]),
    }
}

fn part(area: &[u8], offset: u32, length: u32) -> &[u8] {
    let start = offset as usize;
    &area[start..start + length as usize]
}

fn descriptor(word: u32) -> Descriptor {
    match word {
        0 => Descriptor::NameOnly,
        0x8000_0000 => Descriptor::Deleted,
        1..=0x7fff_ffff => Descriptor::Complete,
        _ => Descriptor::Partial,
    }
}
