//! Journals of properties (M-103): records of kinds 5 and 6, of several nodes, with other kinds between.

use super::journals::{self, Size};
use crate::buffers::{property_record, record};
use crate::random::Random;

/// Bytes of an area for properties.
const ROOM: usize = 4076;
/// The longest name and the longest value.
const NAME: usize = 31;
const VALUE: usize = 32_768;
/// The most bytes of a journal.
const MOST: usize = 1_048_576;

/// A journal, the node that it is made around, and others: such as are easily taken for it, most of them with records.
pub struct Stock {
    pub journal: Vec<u8>,
    pub phandle: u32,
    pub others: Vec<u32>,
}

/// What is being put together: the names so far, and the room that the node's next property finds in its area.
struct Making {
    stock: Stock,
    names: Vec<Vec<u8>>,
    left: usize,
}

/// A well-formed journal, but for a full one that may be oversized.
pub fn stock(random: &mut Random, size: Size) -> Stock {
    let phandle = journals::operand(random);
    let others = (0..random.between(1, 3)).map(|_| near_phandle(random, phandle)).collect();
    let stock = Stock { journal: Vec::new(), phandle, others };
    let mut making = Making { stock, names: Vec::new(), left: ROOM };
    match size {
        Size::Small => some(random, &mut making, &[0, 1, 1, 2, 3, 8]),
        Size::Area => about_an_area(random, &mut making),
        Size::Areas => several_areas(random, &mut making),
        Size::Full => full(random, &mut making),
    }
    making.stock
}

/// Another phandle that is easily taken for this one.
pub fn near_phandle(random: &mut Random, phandle: u32) -> u32 {
    let near = match random.below(5) {
        0 => phandle ^ 1 << random.below(32),
        1 => phandle ^ u32::from(random.nonzero_byte()) << random.pick(&[0, 8, 16, 24]),
        2 => phandle.swap_bytes(),
        3 => phandle.wrapping_add(random.pick(&[1, u32::MAX])),
        _ => random.word(),
    };
    if near == phandle {
        !phandle
    } else {
        near
    }
}

/// A name of 1, 30, 31 or some bytes, or one that another property has.
fn name(random: &mut Random, names: &mut Vec<Vec<u8>>) -> Vec<u8> {
    if !names.is_empty() && random.one_in(4) {
        return names[random.below(names.len())].clone();
    }
    let length = match random.below(6) {
        0 => 1,
        1 => random.pick(&[NAME - 1, NAME]),
        2 => random.between(1, NAME),
        _ => random.between(2, 12),
    };
    let letters = random.one_in(3);
    let name: Vec<u8> = (0..length).map(|_| if letters { b'a' } else { random.nonzero_byte() }).collect();
    names.push(name.clone());
    name
}

/// So many bytes: any, or all the same; NULs come in most of them.
fn value(random: &mut Random, length: usize) -> Vec<u8> {
    let mut bytes = vec![0; length];
    match random.below(6) {
        0 => {}
        1 => bytes.fill(0xff),
        _ => random.fill(&mut bytes),
    }
    if length > 0 && random.one_in(3) {
        let at = random.pick(&[0, length - 1, length / 2]);
        bytes[at] = 0;
    }
    bytes
}

/// A length with which the value ends where the area does, or some bytes off. The room is that behind the descriptor.
fn about(random: &mut Random, room: usize) -> usize {
    let more = random.pick(&[0, 0, 1, 1, 2, 6, 7, 8, 36, 37]);
    match random.below(3) {
        0 => (room + more).min(VALUE),
        1 => room.saturating_sub(more),
        _ => room.saturating_sub(random.between(6, 38)),
    }
}

fn short_length(random: &mut Random) -> usize {
    match random.below(4) {
        0 => 0,
        1 => 1,
        _ => random.below(40),
    }
}

/// Puts a property of the node, deleted or with a value of this length, and follows its session's area.
fn put(random: &mut Random, making: &mut Making, name: &[u8], length: Option<usize>) {
    let value = length.map(|length| value(random, length));
    making.stock.journal.extend(property_record(making.stock.phandle, name, value.as_deref()));
    making.left = left_behind(making.left, name.len() + 5, length.unwrap_or(0));
}

/// The room behind a property that finds this much room, with so many bytes before its value and in it.
fn left_behind(left: usize, before: usize, length: usize) -> usize {
    if before + length <= left {
        left - before - length
    } else if before < left {
        left_behind(ROOM, before, length - (left - before))
    } else {
        left_behind(ROOM, before, length)
    }
}

/// A property of the node with a value that ends about where the area does.
fn put_at_the_end(random: &mut Random, making: &mut Making) {
    let name = name(random, &mut making.names);
    let room = making.left.saturating_sub(name.len() + 5);
    let length = about(random, room);
    put(random, making, &name, Some(length));
}

fn put_short(random: &mut Random, making: &mut Making) {
    let name = name(random, &mut making.names);
    let length = if random.one_in(5) { None } else { Some(short_length(random)) };
    put(random, making, &name, length);
}

/// Records that are not the node's: of another node, mostly with a name that the node has too, or of kinds 1 to 4.
fn put_others(random: &mut Random, making: &mut Making) {
    while random.one_in(3) {
        let other = random.pick(&making.stock.others);
        let record = if random.one_in(2) {
            let wanted = journals::wanted(random);
            journals::any_record(random, wanted)
        } else {
            let name = name(random, &mut making.names);
            let length = short_length(random);
            let value = value(random, length);
            property_record(other, &name, if random.one_in(4) { None } else { Some(&value) })
        };
        making.stock.journal.extend(record);
    }
}

/// A few short properties.
fn some(random: &mut Random, making: &mut Making, numbers: &[usize]) {
    for _ in 0..random.pick(numbers) {
        put_others(random, making);
        put_short(random, making);
    }
    put_others(random, making);
}

/// A property whose name, NUL and descriptor take about the bytes that the area has left.
fn put_in_the_last_bytes(random: &mut Random, making: &mut Making) {
    let longest = making.left.saturating_sub(5).clamp(1, NAME);
    let name = vec![random.nonzero_byte(); longest.saturating_sub(random.pick(&[0, 0, 0, 1, 1, 2])).max(1)];
    let length = random.pick(&[None, Some(0), Some(0), Some(1), Some(1), Some(2), Some(9)]);
    put(random, making, &name, length);
}

/// A value of another node that takes two areas.
fn put_long_of_another(random: &mut Random, making: &mut Making) {
    let (other, length) = (random.pick(&making.stock.others), random.between(4030, 4100));
    let value = value(random, length);
    making.stock.journal.extend(property_record(other, b"long", Some(&value)));
}

/// Short properties, one that ends about where the area does, short ones.
fn about_an_area(random: &mut Random, making: &mut Making) {
    if random.one_in(10) {
        put_long_of_another(random, making);
    }
    some(random, making, &[0, 1, 3]);
    put_at_the_end(random, making);
    if making.left < 39 && !random.one_in(3) {
        put_in_the_last_bytes(random, making);
    }
    some(random, making, &[0, 1, 2, 3]);
}

/// Several areas' worth: long values, many short ones, or one of the longest.
fn several_areas(random: &mut Random, making: &mut Making) {
    for _ in 0..random.between(1, 4) {
        match random.below(8) {
            0 => put_longest(random, making),
            1 | 2 => put_long(random, making),
            3 => (0..random.between(200, 700)).for_each(|_| put_short(random, making)),
            _ => about_an_area(random, making),
        }
    }
}

fn put_longest(random: &mut Random, making: &mut Making) {
    let name = if random.one_in(3) { vec![b'n'; random.pick(&[1, NAME])] } else { name(random, &mut making.names) };
    let length = random.pick(&[VALUE, VALUE, VALUE - 1]);
    put(random, making, &name, Some(length));
}

/// A value that ends about where its second or third area does.
fn put_long(random: &mut Random, making: &mut Making) {
    let name = name(random, &mut making.names);
    let room = making.left.saturating_sub(name.len() + 5) + random.between(1, 2) * (ROOM - name.len() - 5);
    let length = about(random, room);
    put(random, making, &name, Some(length));
}

/// 1,048,576 bytes exactly, or a byte more, or less.
fn full(random: &mut Random, making: &mut Making) {
    let most = random.pick(&[10, 500, 5000, VALUE]);
    // Every record takes 10 bytes at the least, and the last one what is left.
    while MOST - making.stock.journal.len() > VALUE {
        let name = name(random, &mut making.names);
        let length = random.between(0, most);
        put(random, making, &name, Some(length));
        making.names.truncate(20);
    }
    let left = MOST - making.stock.journal.len() + 1 - random.pick(&[1, 1, 0, 2]);
    put(random, making, b"a", Some(left - 10));
}

/// A record of kind 5 or 6 with a short value.
pub fn short_record(random: &mut Random) -> Vec<u8> {
    let (phandle, name) = (journals::operand(random), name(random, &mut Vec::new()));
    let length = short_length(random);
    let value = value(random, length);
    property_record(phandle, &name, if random.one_in(3) { None } else { Some(&value) })
}

/// A record of kind 5 or 6, whole by its length, that breaks one rule.
pub fn bad_record(random: &mut Random) -> Vec<u8> {
    let kind = random.pick(&[5, 5, 6]);
    let letters = |number: usize| vec![b'n'; number];
    let longest = |name: usize, bytes: usize| property_record(7, &letters(name), Some(&vec![1; bytes]));
    match random.below(16) {
        // No name, and names of 32 bytes and more.
        0 | 1 => record(kind, &[[7, 0, 0, 0].as_slice(), &vec![0; random.between(1, 9)]].concat()),
        2 | 3 => property_record(7, &letters(NAME + 1), if kind == 5 { Some(b"v") } else { None }),
        4 => property_record(7, &letters(NAME + random.between(1, 300)), Some(&[])),
        // No NUL.
        5 | 6 => record(kind, &[[7, 0, 0, 0].as_slice(), &letters(random.pick(&[2, 5, 31, 32]))].concat()),
        // A body of under six bytes.
        7 | 8 => record(kind, &[7, 0, 0, 0, b'a', 0][..random.pick(&[0, 1, 3, 4, 5, 5])]),
        // Bytes behind a deleted property's name.
        9..=12 => {
            let name = random.between(1, 30);
            let behind = if random.one_in(2) { 1 } else { random.between(1, NAME - name) };
            let fill = random.pick(&[0, 0, b'b']);
            record(6, &[[7, 0, 0, 0].as_slice(), &letters(name), &[0], &vec![fill; behind]].concat())
        }
        13 => record(6, &[[7, 0, 0, 0].as_slice(), &letters(NAME), &[0, 0]].concat()),
        // A value that is too long, in a good length and in one of too many.
        14 => longest(random.pick(&[1, NAME - 1, NAME - 1]), VALUE + 1),
        _ => longest(NAME, VALUE + random.pick(&[1, 1, 2, 200])),
    }
}
