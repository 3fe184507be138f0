//! Property updates (M-103), read from the paper alone.

use super::readers::{read_properties, Properties, Property, Refused};
use super::words::{put_word, word};
use super::{call, Phase, Platform, Registration, NO_READING};

/// A record of kind 5 where there is a value, otherwise of kind 6.
fn record(phandle: u32, name: &[u8], value: Option<&[u8]>) -> Vec<u8> {
    let body = [&phandle.to_le_bytes(), name, &[0], value.unwrap_or(&[])].concat();
    let kind: u16 = if value.is_some() { 5 } else { 6 };
    [&(2 + body.len() as u16).to_le_bytes(), kind.to_le_bytes().as_slice(), &body].concat()
}

/// A record of kind 5 whose value has this many bytes.
fn long(phandle: u32, name: &[u8], bytes: usize) -> Vec<u8> {
    let value: Vec<u8> = (0..bytes).map(|place| (place % 251) as u8).collect();
    record(phandle, name, Some(&value))
}

/// The status of a call for this node, and the work area, which held 0xee behind its first sixteen bytes.
fn ask(journal: &[u8], phandle: u32, state: u32) -> (i32, Vec<u8>) {
    let mut area = vec![0xee; 4096];
    area[8..16].fill(0);
    put_word(&mut area, 0, phandle);
    put_word(&mut area, 4, state);
    let status = call_over(&mut area, journal, 1);
    (status, area)
}

/// The status of a call over this memory at address 0.
fn call_over(memory: &mut [u8], journal: &[u8], scope: u32) -> i32 {
    let mut args: Vec<u8> = [4, 2, 1, 0, scope, 77].iter().flat_map(|word: &u32| word.to_be_bytes()).collect();
    let registration = Registration { phase: Phase::None, length: 0, copy: [0; 512] };
    let told =
        call(&mut args, memory, &Platform { journal, inventory: &[], edition: 0, registration, reading: NO_READING });
    assert_eq!(told.number, 0);
    word(&args, 20) as u32 as i32
}

fn status(journal: &[u8], phandle: u32, state: u32) -> i32 {
    ask(journal, phandle, state).0
}

/// The reading of an answered call's area, with its status.
fn read(journal: &[u8], phandle: u32, state: u32) -> (i32, Properties, Vec<u8>) {
    let (status, area) = ask(journal, phandle, state);
    assert!(status >= 0, "status {status}");
    let read = read_properties(&area).unwrap_or_else(|refused| panic!("{refused:?}"));
    assert_eq!(u64::from(read.phandle), word(&area, 0));
    (status, read, area)
}

fn part(area: &[u8], at: u32, length: u32) -> &[u8] {
    &area[at as usize..(at + length) as usize]
}

fn refusal(area: &[u8]) -> Option<Refused> {
    read_properties(area).err()
}

/// The descriptors of an area.
fn descriptors(properties: &Properties) -> Vec<u32> {
    properties.list.iter().map(|property| property.descriptor).collect()
}

/// A name with its joined value, or with none where the property is deleted.
type Joined = (Vec<u8>, Option<Vec<u8>>);

/// Puts one property of an area behind those that came; true where the rest of its value is to come.
fn join(all: &mut Vec<Joined>, open: bool, property: &Property, area: &[u8]) -> bool {
    let name = part(area, property.name_at, property.name_length).to_vec();
    let value = part(area, property.value_at, property.value_length);
    match all.last_mut() {
        Some((begun, Some(bytes))) if open => {
            assert_eq!(*begun, name);
            bytes.extend(value);
        }
        _ => all.push((name, (property.descriptor != 0x8000_0000).then(|| value.to_vec()))),
    }
    property.descriptor > 0x8000_0000
}

/// The properties of a whole session with their values joined, and the states that it carried.
fn whole_session(journal: &[u8], phandle: u32) -> (Vec<Joined>, Vec<u32>) {
    let (mut all, mut states, mut open) = (Vec::new(), vec![0], false);
    loop {
        let (status, properties, area) = read(journal, phandle, states[states.len() - 1]);
        for property in &properties.list {
            open = join(&mut all, open, property, &area);
        }
        if status == 0 {
            assert_eq!((properties.state, open), (0, false));
            return (all, states);
        }
        states.push(properties.state);
    }
}

#[test]
fn a_sessions_pieces_joined_are_the_nodes_changes() {
    let names: [&[u8]; 4] = [b"a", b"ibm,dynamic-memory", &[b'n'; 30], &[b'm'; 31]];
    let lengths = [0, 1, 4000, 4037, 4039, 4040, 4041, 4042, 4070, 4071, 4072, 9000, 32_767, 32_768];
    for shift in 0..40 {
        let (mut journal, mut changes) = (Vec::new(), Vec::new());
        for (place, &length) in lengths.iter().enumerate() {
            let name = names[(place + shift) % 4];
            let value: Vec<u8> = (0..length + shift).take(32_768).map(|byte| (byte % 7) as u8).collect();
            let value = if (place + shift) % 5 == 0 { None } else { Some(value) };
            journal.extend(record(9, name, value.as_deref()));
            journal.extend(record(8, b"other", Some(b"x")));
            changes.push((name.to_vec(), value));
        }
        let (joined, states) = whole_session(&journal, 9);
        assert_eq!(joined, changes);
        assert!(states.windows(2).all(|two| two[0] < two[1]));
    }
}

#[test]
fn a_session_ends_within_4040_bytes_a_call() {
    for length in [0, 1, 8, 200, 4035, 4036, 4040, 4041, 8000, 32_768] {
        let journal: Vec<u8> = (0..30).flat_map(|_| long(1, &[b'n'; 31], length)).collect();
        let bytes = 30 * (31 + 5 + length);
        let calls = whole_session(&journal, 1).1.len();
        assert!(4040 * (calls - 1) < bytes, "{calls} calls for {bytes} bytes");
    }
}

#[test]
fn a_value_that_fits_to_the_last_byte() {
    // 4,076 bytes for names, descriptors and values; 1 + 1 + 4 of them before the value.
    let (status, properties, area) = read(&long(7, b"a", 4070), 7, 0);
    assert_eq!((status, properties.state, descriptors(&properties)), (0, 0, vec![4070]));
    assert_eq!(area[4095], (4069 % 251) as u8);
}

#[test]
fn one_byte_more_is_divided() {
    let journal = long(7, b"a", 4071);
    let (status, properties, _) = read(&journal, 7, 0);
    // 4 bytes of length and kind, 4 of phandle, "a" and its NUL, then the value.
    assert_eq!((status, properties.state, descriptors(&properties)), (1, 10 + 4070, vec![4070u32.wrapping_neg()]));
    let (status, properties, area) = read(&journal, 7, 4080);
    assert_eq!((status, properties.state, descriptors(&properties)), (0, 0, vec![1]));
    assert_eq!(&area[20..28], b"a\0\0\0\0\x01\x36\xee");
}

#[test]
fn room_for_no_byte_and_for_one() {
    let two = |first: usize| [long(7, b"a", first), long(7, b"b", 2)].concat();
    // 6 bytes are left: name, NUL and descriptor fit, and no byte of the value.
    let (status, properties, area) = read(&two(4064), 7, 0);
    assert_eq!((status, properties.state, descriptors(&properties)), (1, 10 + 4064, vec![4064]));
    assert!(area[4090..].iter().all(|&byte| byte == 0xee));
    // 7 bytes are left.
    let (status, properties, area) = read(&two(4063), 7, 0);
    assert_eq!((status, properties.state, descriptors(&properties)), (1, 10 + 4063 + 10 + 1, vec![4063, 0xffff_ffff]));
    assert_eq!(&area[4089..], b"b\0\xff\xff\xff\xff\0");
    assert_eq!(descriptors(&read(&two(4063), 7, 4084).1), [1]);
}

#[test]
fn a_value_of_32768_bytes_takes_nine_areas() {
    for name in [b"a".as_slice(), &[b'n'; 31]] {
        let (joined, states) = whole_session(&long(7, name, 32_768), 7);
        assert_eq!((joined.len(), states.len()), (1, 9));
        let step = 4076 - name.len() as u32 - 5;
        let from = 8 + name.len() as u32 + 1;
        assert_eq!(states[1..], (1..9).map(|call| from + call * step).collect::<Vec<u32>>());
    }
}

#[test]
fn no_value_and_no_property() {
    let journal = [record(7, b"empty", Some(b"")), record(7, b"gone", None), record(7, b"empty", Some(b""))].concat();
    let (status, properties, area) = read(&journal, 7, 0);
    assert_eq!((status, descriptors(&properties)), (0, vec![0, 0x8000_0000, 0]));
    assert_eq!(&area[16..50], b"\0\0\0\x03empty\0\0\0\0\0gone\0\x80\0\0\0empty\0\0\0\0\0\xee");
}

#[test]
fn names_have_1_to_31_bytes() {
    for (bytes, expected) in [(0, -1), (1, 0), (30, 0), (31, 0), (32, -1), (33, -1)] {
        let name = vec![b'n'; bytes];
        assert_eq!(status(&record(7, &name, Some(b"v")), 7, 0), expected, "{bytes} bytes, kind 5");
        assert_eq!(status(&record(7, &name, None), 7, 0), expected, "{bytes} bytes, kind 6");
    }
}

#[test]
fn a_value_a_byte_too_long_in_a_good_length() {
    // Both records have the length 32,806.
    let long_name = long(7, &[b'n'; 31], 32_768);
    let short_name = long(7, &[b'n'; 30], 32_769);
    assert_eq!((&long_name[..2], &short_name[..2]), ([0x26, 0x80].as_slice(), [0x26, 0x80].as_slice()));
    assert_eq!((status(&long_name, 7, 0), status(&short_name, 7, 0)), (1, -1));
    assert_eq!(status(&long(7, &[b'n'; 31], 32_769), 7, 0), -1);
}

#[test]
fn a_deleted_propertys_name_ends_its_record() {
    let good = record(7, b"gone", None);
    let mut more = good.clone();
    more[0] += 1;
    more.push(0);
    let mut no_nul = good.clone();
    no_nul[0] -= 1;
    no_nul.pop();
    assert_eq!((status(&good, 7, 0), status(&more, 7, 0), status(&no_nul, 7, 0)), (0, -1, -1));
}

#[test]
fn two_nodes_between_each_other() {
    let journal =
        [record(7, b"a", Some(b"1")), long(8, b"b", 5000), record(7, b"c", None), record(8, b"d", Some(b""))].concat();
    let (of_7, states_of_7) = whole_session(&journal, 7);
    let (of_8, states_of_8) = whole_session(&journal, 8);
    assert_eq!(of_7, [(b"a".to_vec(), Some(b"1".to_vec())), (b"c".to_vec(), None)]);
    assert_eq!(of_8.iter().map(|one| one.1.as_ref().map(Vec::len)).collect::<Vec<_>>(), [Some(5000), Some(0)]);
    // 11 bytes of the first record, 10 before the value, 4,070 handed out.
    assert_eq!((states_of_7, states_of_8), (vec![0], vec![0, 11 + 10 + 4070]));
    assert_eq!(status(&journal, 7, 11 + 10 + 4070), -3);
    assert_eq!(status(&journal, 9, 0), -3);
}

#[test]
fn states_that_no_session_carries() {
    let journal = [record(1, b"x", None), long(7, b"a", 4071), long(7, b"b", 8000), record(7, b"c", None)].concat();
    let states = whole_session(&journal, 7).1;
    let good: Vec<u32> = (0..journal.len() as u32 + 2).filter(|&state| status(&journal, 7, state) != -3).collect();
    assert_eq!(good, states);
    // The node's first record, its value's first byte, and the byte before one that is due.
    assert_eq!([10, 20, states[1] - 1].map(|state| status(&journal, 7, state)), [-3; 3]);
}

#[test]
fn the_checks_in_their_order() {
    let (good, malformed) = (record(7, b"a", Some(b"v")), record(7, b"", Some(b"v")));
    let area = |byte: usize| {
        let mut area = vec![0; 4096];
        area[3] = 7;
        area[byte] ^= 1;
        area
    };
    for scope in [1, 2, 3, 0x8000_0000] {
        assert_eq!(call_over(&mut area(20), &good, scope), 0);
        assert_eq!(call_over(&mut area(20), &malformed, scope), -1);
        for byte in [0, 3, 4, 7, 8, 15] {
            assert_eq!(call_over(&mut area(byte), &good, scope), -3, "byte {byte}");
            assert_eq!(call_over(&mut area(byte), &malformed, scope), -1, "byte {byte}");
        }
    }
    for scope in [0, 4, 0x7fff_ffff] {
        assert_eq!(call_over(&mut area(20), &malformed, scope), -3);
    }
    assert_eq!(call_over(&mut area(20)[..4095], &malformed, 1), -3);
}

#[test]
fn node_updates_pass_over_properties() {
    let node = [8, 0, 1, 0, 10, 0, 0x2a, 0, 0, 0];
    let journal = [record(7, b"a", Some(&node)), node.to_vec(), record(7, b"a", None)].concat();
    let operations = super::records::journal(&journal).unwrap();
    assert_eq!(operations.iter().map(|change| change.operation.first).collect::<Vec<u32>>(), [0x2a]);
}

/// An area with this many properties by its count, and these bytes behind it.
fn area_of(count: u32, bytes: &[u8]) -> Vec<u8> {
    let mut area = vec![0; 16];
    area.extend(count.to_be_bytes());
    area.extend(bytes);
    area.resize(4096, b'z');
    area
}

#[test]
fn the_readers_refusals() {
    let refused = |area: &[u8]| refusal(area).map(|refused| (refused.number, refused.offset));
    let mut reserved = area_of(0, b"");
    assert_eq!(refused(&reserved[..4095]), Some((40, 0)));
    assert_eq!(refused(&[reserved.clone(), vec![0]].concat()), Some((40, 0)));
    assert_eq!(refused(&reserved), None);
    reserved[15] = 1;
    assert_eq!(refused(&reserved), Some((41, 8)));
    assert_eq!(refused(&area_of(1, b"\0")), Some((42, 20)));
    assert_eq!(refused(&area_of(2, b"a\0\0\0\0\x01v\0")), Some((42, 27)));
    assert_eq!(refused(&area_of(1, &[[b'n'; 32].as_slice(), &[0; 5]].concat())), Some((42, 20)));
    assert_eq!(refused(&area_of(1, &[[b'n'; 31].as_slice(), &[0; 5]].concat())), None);
    assert_eq!(refused(&area_of(1, b"a\0\x80\0\0\x01")), Some((43, 20)));
    assert_eq!(refused(&area_of(1, b"a\0\x80\0\0\0")), None);
    assert_eq!(refused(&area_of(1, b"a\0\0\0\x0f\xe6")), None);
    assert_eq!(refused(&area_of(1, b"a\0\0\0\x0f\xe7")), Some((43, 20)));
    assert_eq!(refused(&area_of(1, b"a\0\xff\xff\xf0\x1a")), None);
    assert_eq!(refused(&area_of(1, b"a\0\xff\xff\xf0\x19")), Some((43, 20)));
    assert_eq!(refused(&area_of(2, b"a\0\0\0\x0f\xe6")), Some((42, 4096)));
}

#[test]
fn a_descriptor_past_the_end() {
    // A value of 4,064 bytes ends at 4,090, one of 4,065 a byte later.
    for (length, expected) in [(4064u32, None), (4065, Some((43, 4091)))] {
        let first = [b"a\0".as_slice(), &length.to_be_bytes()].concat();
        let mut area = area_of(2, &first);
        let at = 26 + length as usize;
        area[at..].fill(0);
        area[at] = b'b';
        assert_eq!(refusal(&area).map(|refused| (refused.number, refused.offset)), expected);
    }
}
