//! update-properties and the reader of property areas.

use crate::partition::{Partition, NODE_AREA};
use draugsten::{read_properties, Answer, Descriptor, Fault, Property, Reason, Refusal, NAME_LIMIT, VALUE_LIMIT};

/// The node of all readings.
const NODE: u32 = 0x3000;

/// A name, and a value where the property is not deleted.
type Change = (&'static [u8], Option<Vec<u8>>);

/// A journal record of kind 5 or 6.
fn record(phandle: u32, (name, value): &Change) -> Vec<u8> {
    let kind: u16 = if value.is_some() { 5 } else { 6 };
    let body = [&phandle.to_le_bytes(), *name, &[0], value.as_deref().unwrap_or(&[])].concat();
    [&(2 + body.len() as u16).to_le_bytes(), kind.to_le_bytes().as_slice(), &body].concat()
}

fn bytes(length: usize) -> Vec<u8> {
    (0..length).map(|place| (place % 251) as u8).collect()
}

/// A partition whose area names the node and this state, with a record of another node before each change.
fn partition_of(changes: &[Change], state: u32) -> Partition {
    let mut partition = Partition::new();
    for change in changes {
        partition.journal.extend(record(NODE + 1, &(b"other", Some(vec![1]))));
        partition.journal.extend(record(NODE, change));
    }
    let head = [NODE, state].map(u32::to_be_bytes).concat();
    partition.memory[NODE_AREA..NODE_AREA + 8].copy_from_slice(&head);
    partition
}

/// The bytes of a record of the other node.
const OTHER: u32 = 15;

/// Puts the properties of an area behind those that came. A part is joined with what came of its value before.
fn join(joined: &mut Vec<(Vec<u8>, Option<Vec<u8>>)>, open: &mut bool, properties: &[Property]) {
    for property in properties {
        match joined.last_mut() {
            Some((name, Some(value))) if *open => {
                assert_eq!(name, property.name);
                value.extend(property.value);
            }
            _ => {
                let value = (property.descriptor != Descriptor::Deleted).then(|| property.value.to_vec());
                joined.push((property.name.to_vec(), value));
            }
        }
        *open = property.descriptor == Descriptor::Partial;
    }
}

/// Runs the node's session: the answer, state and number of properties of each call. What is handed out are the changes.
fn session(changes: &[Change]) -> Vec<(Answer, u32, usize)> {
    let mut partition = partition_of(changes, 0);
    let (mut calls, mut joined, mut open) = (vec![], vec![], false);
    loop {
        let answer = partition.update_properties(1).unwrap();
        let area = read_properties(partition.node_area()).unwrap();
        assert_eq!(area.phandle, NODE);
        join(&mut joined, &mut open, &area.properties);
        calls.push((answer, area.state, area.properties.len()));
        if answer == Answer::Done {
            let expected: Vec<_> = changes.iter().map(|(name, value)| (name.to_vec(), value.clone())).collect();
            assert_eq!(joined, expected);
            return calls;
        }
    }
}

#[test]
fn a_value_that_fits_to_the_last_byte() {
    assert_eq!(session(&[(b"a", Some(bytes(4070)))]), [(Answer::Done, 0, 1)]);
    let divided = [(Answer::CallAgain, OTHER + 10 + 4070, 1), (Answer::Done, 0, 1)];
    assert_eq!(session(&[(b"a", Some(bytes(4071)))]), divided);
}

#[test]
fn a_divided_value_between_others() {
    let changes: [Change; 4] = [
        (b"status", Some(b"okay\0".to_vec())),
        (b"ibm,vpd", Some(bytes(6000))),
        (b"empty", Some(vec![])),
        (b"old", None),
    ];
    // 4,048 bytes of the value stand in the first area.
    let state = OTHER + 20 + OTHER + 16 + 4048;
    assert_eq!(session(&changes), [(Answer::CallAgain, state, 2), (Answer::Done, 0, 3)]);
}

#[test]
fn the_longest_value_takes_nine_areas() {
    let calls = session(&[(b"a", Some(bytes(VALUE_LIMIT)))]);
    assert_eq!((calls.len(), calls[7].1), (9, OTHER + 10 + 8 * 4070));
    assert_eq!(session(&[(&[b'n'; NAME_LIMIT], Some(bytes(VALUE_LIMIT)))]).len(), 9);
}

#[test]
fn what_a_descriptor_tells() {
    let changes: [Change; 4] = [(b"v", Some(vec![7])), (b"e", Some(vec![])), (b"d", None), (b"p", Some(bytes(5000)))];
    let mut partition = partition_of(&changes, 0);
    assert_eq!(partition.update_properties(3), Ok(Answer::CallAgain));
    let area = read_properties(partition.node_area()).unwrap();
    let told: Vec<_> = area.properties.iter().map(|property| (property.name, property.descriptor)).collect();
    let [v, e, d, p]: [&[u8]; 4] = [b"v", b"e", b"d", b"p"];
    let expected =
        [(v, Descriptor::Complete), (e, Descriptor::NameOnly), (d, Descriptor::Deleted), (p, Descriptor::Partial)];
    assert_eq!(told, expected);
    assert_eq!((area.properties[0].value, area.properties[1].value), (&[7][..], &[][..]));
}

#[test]
fn refused_calls() {
    let changes: [Change; 1] = [(b"a", Some(bytes(4071)))];
    let status = |state: u32| partition_of(&changes, state).update_properties(1);
    assert_eq!(status(OTHER + 10 + 4070), Ok(Answer::Done));
    for state in [1, OTHER, OTHER + 10, OTHER + 10 + 4069, OTHER + 10 + 4071] {
        assert_eq!(status(state), Err(Fault::Parameter), "state {state}");
    }
    let mut partition = partition_of(&changes, 0);
    partition.memory[NODE_AREA + 15] = 1;
    assert_eq!(partition.update_properties(1), Err(Fault::Parameter));
    assert_eq!(partition_of(&[], 0).update_properties(1), Err(Fault::Parameter));
    assert_eq!(partition_of(&changes, 0).update_properties(4), Err(Fault::Parameter));
    let too_long: [Change; 1] = [(&[b'n'; NAME_LIMIT + 1], None)];
    assert_eq!(partition_of(&too_long, 0).update_properties(1), Err(Fault::Malformed));
    assert_eq!(partition_of(&too_long, 0).update_nodes(1), Err(Fault::Malformed));
}

/// An area with this many properties by its count, these bytes, and the letter z to the end.
fn area(count: u8, properties: &[u8]) -> Vec<u8> {
    let mut area = [&[0; 19], [count].as_slice(), properties].concat();
    area.resize(4096, b'z');
    area
}

#[test]
fn refused_areas() {
    let refused = |area: &[u8], reason: Reason, offset: usize| {
        assert_eq!(read_properties(area), Err(Refusal { reason, offset }));
    };
    refused(&area(0, b"")[..4095], Reason::PropertyAreaSize, 0);
    let mut reserved = area(0, b"");
    reserved[8] = 1;
    refused(&reserved, Reason::PropertyReserved, 8);
    refused(&area(1, b"\0"), Reason::PropertyName, 20);
    refused(&area(2, b"a\0\0\0\0\x01v\0"), Reason::PropertyName, 27);
    refused(&area(1, b"a\0\0\0\x0f\xe7"), Reason::PropertyPastEnd, 20);
    refused(&area(1, b"a\0\x80\0\0\x01"), Reason::PropertyPastEnd, 20);
    assert_eq!(read_properties(&area(0, b"\0")).map(|area| area.properties.len()), Ok(0));
}
