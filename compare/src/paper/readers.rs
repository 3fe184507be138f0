//! "Readers": "A reading gives the entries, or a refusal number with a byte offset; it writes nothing."

use super::records::{Operation, LONGEST_NAME};
use super::words::{as_word, word};

#[derive(Clone, Copy, PartialEq, Eq, Debug)]
pub struct Refused {
    pub number: u32,
    pub offset: u64,
}

/// The state of a node area and its operations.
pub struct Nodes {
    pub state: u32,
    pub operations: Vec<Operation>,
}

/// One entry of an index area: the index, and where the code stands in the area, without its NULs.
#[derive(Clone, Copy, PartialEq, Eq, Debug)]
pub struct Index {
    pub index: u32,
    pub code_at: u64,
    pub code_length: u64,
}

/// The phandle and the state of a property area, and its properties.
pub struct Properties {
    pub phandle: u32,
    pub state: u32,
    pub list: Vec<Property>,
}

/// One property of an area: where its name stands, without the NUL, its descriptor, and where its value stands.
#[derive(Clone, Copy, PartialEq, Eq, Debug)]
pub struct Property {
    pub name_at: u32,
    pub name_length: u32,
    pub descriptor: u32,
    pub value_at: u32,
    pub value_length: u32,
}

fn refused_at<T>(number: u32, offset: usize) -> Result<T, Refused> {
    Err(Refused { number, offset: offset as u64 })
}

/// "Node areas: 20 not 4,096 bytes (offset 0); 21 bytes 4 to 15 not zero (offset 4). Then operators from byte 16: word
/// zero ends the list" and "27 the area ends without a terminator (offset 4096)". M-100: "in scope 3 only bytes 12 to
/// 15 are tested for zero, by writer and reader (21 at offset 12); the reader is told the scope".
pub fn read_nodes(area: &[u8], scope: u64) -> Result<Nodes, Refused> {
    if area.len() != 4096 {
        return refused_at(20, 0);
    }
    let reserved_at = if scope == 3 { 12 } else { 4 };
    if area[reserved_at..16].iter().any(|&byte| byte != 0) {
        return refused_at(21, reserved_at);
    }
    let mut operations = Vec::new();
    let mut last_opcode = 0;
    let mut at = 16;
    while at < 4096 {
        let operator = word(area, at);
        if operator == 0 {
            return Ok(Nodes { state: as_word(word(area, 0)), operations });
        }
        let (opcode, count) = (operator >> 24, operator & 0xff_ffff);
        // M-101: "passed over whatever its opcode, and takes no part in the order test"
        if count == 0 {
            at += 4;
            continue;
        }
        judge_operator(opcode, count, last_opcode, at)?;
        let end = at + 4 + 4 * count as usize;
        read_operands(&area[at + 4..end], opcode, &mut operations);
        last_opcode = opcode;
        at = end;
    }
    refused_at(27, 4096)
}

/// "22 opcode not 1 to 3; .. 25 odd count for opcode 3; 26 opcode lower than an earlier one; 24
/// operands past the end; each at the operator's offset, in this order."
fn judge_operator(opcode: u64, count: u64, last_opcode: u64, at: usize) -> Result<(), Refused> {
    if !(1..=3).contains(&opcode) {
        return refused_at(22, at);
    }
    if opcode == 3 && count % 2 == 1 {
        return refused_at(25, at);
    }
    if opcode < last_opcode {
        return refused_at(26, at);
    }
    if at as u64 + 4 + 4 * count > 4096 {
        return refused_at(24, at);
    }
    Ok(())
}

/// The operands of one operator, one word for each operation, two for an addition.
fn read_operands(operands: &[u8], opcode: u64, operations: &mut Vec<Operation>) {
    let bytes = if opcode == 3 { 8 } else { 4 };
    for operand in operands.chunks(bytes) {
        let second = if opcode == 3 { word(operand, 4) } else { 0 };
        operations.push(Operation {
            opcode: as_word(opcode),
            first: as_word(word(operand, 0)),
            second: as_word(second),
        });
    }
}

/// "Index areas: 30 under 4 bytes (0); then for each set, at its offset". "Bytes after the last set aren't looked at."
pub fn read_indices(area: &[u8]) -> Result<Vec<Index>, Refused> {
    if area.len() < 4 {
        return refused_at(30, 0);
    }
    let count = word(area, 0);
    let mut entries = Vec::new();
    let mut at = 4;
    while (entries.len() as u64) < count {
        let (entry, field) = read_set(area, at)?;
        entries.push(entry);
        at += 8 + field;
    }
    Ok(entries)
}

/// One set and the length of its code with the NULs. "31 under 8 bytes left; 32 length zero, above 80 or no multiple of
/// 4; 31 code past the end; 33 not a non-empty code followed by one to four NULs and nothing else." M-113: "Raise the
/// limit in .. the reader (refusal 32 above 1,024)".
pub fn read_set(area: &[u8], at: usize) -> Result<(Index, usize), Refused> {
    let left = area.len() - at;
    if left < 8 {
        return refused_at(31, at);
    }
    let field = word(area, at + 4) as usize;
    if field == 0 || field > 1_024 || !field.is_multiple_of(4) {
        return refused_at(32, at);
    }
    if field > left - 8 {
        return refused_at(31, at);
    }
    let Some(code_length) = code_length(&area[at + 8..at + 8 + field]) else {
        return refused_at(33, at);
    };
    let index = as_word(word(area, at));
    Ok((Index { index, code_at: at as u64 + 8, code_length: code_length as u64 }, field))
}

/// "The code's end is found by a search that stops at the first NUL."
fn code_length(field: &[u8]) -> Option<usize> {
    let end = field.iter().position(|&byte| byte == 0).unwrap_or(field.len());
    let nuls = field.len() - end;
    let only_nuls = field[end..].iter().all(|&byte| byte == 0);
    if end >= 1 && (1..=4).contains(&nuls) && only_nuls {
        Some(end)
    } else {
        None
    }
}

/// M-103: "40 not 4,096 bytes (0); 41 bytes 8 to 15 not zero (8); then at each property's offset". Bytes behind the last
/// property are not looked at.
pub fn read_properties(area: &[u8]) -> Result<Properties, Refused> {
    if area.len() != 4096 {
        return refused_at(40, 0);
    }
    if area[8..16].iter().any(|&byte| byte != 0) {
        return refused_at(41, 8);
    }
    let count = word(area, 16);
    let mut list = Vec::new();
    let mut at = 20;
    while (list.len() as u64) < count {
        let property = read_property(area, at)?;
        list.push(property);
        at = (property.value_at + property.value_length) as usize;
    }
    Ok(Properties { phandle: as_word(word(area, 0)), state: as_word(word(area, 4)), list })
}

/// "42 not a name with its NUL, 43 descriptor or value past the end." A name has 1 to 31 bytes.
fn read_property(area: &[u8], at: usize) -> Result<Property, Refused> {
    let name_length = match area[at..].iter().position(|&byte| byte == 0) {
        Some(nul @ 1..=LONGEST_NAME) => nul,
        _ => return refused_at(42, at),
    };
    let value_at = at + name_length + 1 + 4;
    if value_at > 4096 {
        return refused_at(43, at);
    }
    let descriptor = as_word(word(area, value_at - 4));
    let value_length = described_length(descriptor);
    if value_at as u64 + value_length > 4096 {
        return refused_at(43, at);
    }
    let [name_at, name_length, value_at] = [at, name_length, value_at].map(|number| as_word(number as u64));
    Ok(Property { name_at, name_length, descriptor, value_at, value_length: as_word(value_length) })
}

/// 001: "0x00000000 Name only property .. no value follows", "0x80000000 The property is to be deleted no value
/// follows", "Other positive values are the length (M)", "Other negative values are the twos complement of the length".
fn described_length(descriptor: u32) -> u64 {
    match descriptor {
        0x8000_0000 => 0,
        0..=0x7fff_ffff => u64::from(descriptor),
        negative => (1 << 32) - u64::from(negative),
    }
}
