//! The readings of property areas (M-103).

use super::PropertyReading;
use crate::buffers::words;

/// An area of phandle 7 and state 9 with this count and these bytes; every byte behind them is the letter z.
fn area(count: u32, properties: &[u8]) -> Vec<u8> {
    let mut area = [words(&[7, 9, 0, 0, count]), properties.to_vec()].concat();
    area.resize(4096, b'z');
    area
}

fn read(name: &str, area: Vec<u8>, properties: &[[u32; 5]]) -> PropertyReading {
    PropertyReading { name: String::from(name), area, head: (7, 9), result: Ok(properties.to_vec()) }
}

fn refused(name: &str, area: Vec<u8>, refusal: u32, offset: u64) -> PropertyReading {
    PropertyReading { name: String::from(name), area, head: (0, 0), result: Err((refusal, offset)) }
}

/// A name of so many letters with its NUL, then these bytes.
fn named(letters: usize, behind: &[u8]) -> Vec<u8> {
    [&vec![b'n'; letters], [0].as_slice(), behind].concat()
}

/// An area whose first property, of a name of one byte, leaves these bytes at the end.
fn ending(last: &[u8]) -> Vec<u8> {
    let mut area = area(2, &[b"a\0".as_slice(), &(4070 - last.len() as u32).to_be_bytes()].concat());
    area[4096 - last.len()..].copy_from_slice(last);
    area
}

pub fn readings() -> Vec<PropertyReading> {
    [good(), heads(), names(), values(), ends()].into_iter().flatten().collect()
}

fn good() -> Vec<PropertyReading> {
    let three = b"reg\0\0\0\0\x02xygone\0\x80\0\0\0part\0\xff\xff\xff\xfdabc";
    let all = [[20, 3, 2, 28, 2], [30, 4, 0x8000_0000, 39, 0], [39, 4, 0xffff_fffd, 48, 3]];
    vec![
        read("no properties", area(0, b""), &[]),
        read("no properties, a bad one behind", area(0, b"\0"), &[]),
        read("a value, a deletion, a part", area(3, three), &all),
        read("the first of them", area(1, three), &all[..1]),
        read("no value", area(1, b"a\0\0\0\0\0"), &[[20, 1, 0, 26, 0]]),
        read(
            "a part before others",
            area(2, b"a\0\xff\xff\xff\xffxb\0\0\0\0\x01y"),
            &[[20, 1, 0xffff_ffff, 26, 1], [27, 1, 1, 33, 1]],
        ),
        read("equal names", area(2, b"a\0\0\0\0\0a\0\0\0\0\0"), &[[20, 1, 0, 26, 0], [26, 1, 0, 32, 0]]),
        most(),
    ]
}

/// 679 properties of six bytes, the most that an area has.
fn most() -> PropertyReading {
    let entries: Vec<[u32; 5]> = (0..679).map(|place| [20 + 6 * place, 1, 0, 26 + 6 * place, 0]).collect();
    read("679 properties", area(679, &b"a\0\0\0\0\0".repeat(679)), &entries)
}

fn heads() -> Vec<PropertyReading> {
    let reserved = |byte: usize| {
        let mut area = area(0, b"");
        area[byte] = 1;
        area
    };
    let mut short = reserved(8);
    short.pop();
    vec![
        refused("no bytes", Vec::new(), 40, 0),
        refused("4,095 bytes", vec![0; 4095], 40, 0),
        refused("4,097 bytes", vec![0; 4097], 40, 0),
        refused("4,095 bytes, byte 8", short, 40, 0),
        refused("byte 8", reserved(8), 41, 8),
        refused("byte 15", reserved(15), 41, 8),
        refused("byte 15 and a bad property", [&reserved(15)[..16], &words(&[1]), &[0; 4076]].concat(), 41, 8),
        refused("byte 16: a count of 0x01000000", reserved(16), 42, 20),
        PropertyReading { head: (0, 0), ..read("phandle 0, state 0", vec![0; 4096], &[]) },
    ]
}

fn names() -> Vec<PropertyReading> {
    vec![
        read("31 bytes", area(1, &named(31, &[0; 4])), &[[20, 31, 0, 56, 0]]),
        read("30 bytes", area(1, &named(30, &[0; 4])), &[[20, 30, 0, 55, 0]]),
        refused("32 bytes", area(1, &named(32, &[0; 4])), 42, 20),
        refused("no bytes", area(1, &named(0, &[0; 9])), 42, 20),
        refused("the node path of 001", area(1, b"\0\0\0\0\x05/cpus"), 42, 20),
        refused("no NUL", area(1, b""), 42, 20),
        refused("the second, no bytes", area(2, b"a\0\0\0\0\x01v\0"), 42, 27),
        refused("count 0xffffffff", area(0xffff_ffff, b"a\0\0\0\0\x01v\0"), 42, 27),
        refused("32 bytes and a value past the end", area(1, &named(32, &[0x7f; 4])), 42, 20),
    ]
}

fn values() -> Vec<PropertyReading> {
    let with = |descriptor: u32| area(1, &[b"a\0".as_slice(), &descriptor.to_be_bytes()].concat());
    vec![
        read("a value to the end", with(4070), &[[20, 1, 4070, 26, 4070]]),
        read("a part to the end", with(0xffff_f01a), &[[20, 1, 0xffff_f01a, 26, 4070]]),
        read("0x80000000", with(0x8000_0000), &[[20, 1, 0x8000_0000, 26, 0]]),
        refused("one byte past the end", with(4071), 43, 20),
        refused("a part one byte past the end", with(0xffff_f019), 43, 20),
        refused("0x80000001", with(0x8000_0001), 43, 20),
        refused("0x7fffffff", with(0x7fff_ffff), 43, 20),
        refused("the second past the end", area(2, b"a\0\0\0\0\x01vb\0\0\0\x10\0"), 43, 27),
    ]
}

/// A second property in the last bytes of an area.
fn ends() -> Vec<PropertyReading> {
    let first = |length: u32| [20, 1, length, 26, length];
    vec![
        read("no value in the last bytes", ending(b"b\0\0\0\0\0"), &[first(4064), [4090, 1, 0, 4096, 0]]),
        read("a deletion in the last bytes", ending(b"b\0\x80\0\0\0"), &[first(4064), [4090, 1, 0x8000_0000, 4096, 0]]),
        read("a value in the last byte", ending(b"b\0\0\0\0\x01v"), &[first(4063), [4089, 1, 1, 4095, 1]]),
        refused("a value of which no byte is there", ending(b"b\0\0\0\0\x01"), 43, 4090),
        refused("three bytes of a descriptor", ending(b"b\0\0\0\0"), 43, 4091),
        refused("a NUL in the last byte", ending(b"b\0"), 43, 4094),
        refused("a name to the end", ending(b"b"), 42, 4095),
        refused("no byte left", ending(b""), 42, 4096),
        refused("31 letters to the end", ending(&[b'n'; 31]), 42, 4065),
    ]
}
