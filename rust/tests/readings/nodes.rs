//! update-nodes and the reader of node areas.

use crate::partition::{Partition, NODE_AREA};
use draugsten::{read_nodes, read_state, Answer, Fault, Operation, Reason, Refusal};

/// A journal record of node type 14, of which scope 1 reports all three opcodes.
fn record(operation: Operation) -> Vec<u8> {
    let (kind, operands) = match operation {
        Operation::Delete { phandle } => (1u16, vec![phandle]),
        Operation::Update { phandle } => (2, vec![phandle]),
        Operation::Add { parent, drc_index } => (3, vec![parent, drc_index]),
    };
    let length = 4 + 4 * operands.len() as u16;
    let head = [length, kind, 14].into_iter().flat_map(u16::to_le_bytes);
    head.chain(operands.into_iter().flat_map(u32::to_le_bytes)).collect()
}

fn operations(deletes: u32, updates: u32, additions: u32) -> Vec<Operation> {
    let deletes = (0..deletes).map(|phandle| Operation::Delete { phandle });
    let updates = (0..updates).map(|phandle| Operation::Update { phandle });
    let additions = (0..additions).map(|parent| Operation::Add { parent, drc_index: !parent });
    deletes.chain(updates).chain(additions).collect()
}

fn partition_of(list: &[Operation]) -> Partition {
    let mut partition = Partition::new();
    partition.journal = list.iter().flat_map(|&operation| record(operation)).collect();
    partition
}

/// Runs the session of scope 1: the answer, state and number of operations of each call. What is handed out is the list.
fn session(list: &[Operation]) -> Vec<(Answer, u32, usize)> {
    session_in(&mut partition_of(list), 1, list)
}

/// Runs a session from the bytes that the area begins with.
fn session_in(partition: &mut Partition, scope: i32, list: &[Operation]) -> Vec<(Answer, u32, usize)> {
    let mut calls = vec![];
    let mut handed_out = vec![];
    loop {
        let answer = partition.update_nodes(scope).unwrap();
        let area = read_nodes(partition.node_area(), scope).unwrap();
        calls.push((answer, read_state(partition.node_area(), scope).unwrap(), area.len()));
        handed_out.extend(area);
        if answer == Answer::Done {
            assert_eq!(handed_out, list);
            return calls;
        }
    }
}

/// An area that begins with these words and is zero behind them.
fn area(words: &[u32]) -> Vec<u8> {
    let mut bytes: Vec<u8> = words.iter().flat_map(|word| word.to_be_bytes()).collect();
    bytes.resize(4096, 0);
    bytes
}

fn refused(reason: Reason, offset: usize) -> Result<Vec<Operation>, Refusal> {
    Err(Refusal { reason, offset })
}

#[test]
fn an_area_holds_1018_deletes() {
    assert_eq!(session(&operations(1018, 0, 0)), [(Answer::Done, 0, 1018)]);
    assert_eq!(session(&operations(1019, 0, 0)), [(Answer::CallAgain, 1018, 1018), (Answer::Done, 0, 1)]);
}

#[test]
fn an_area_holds_509_additions() {
    assert_eq!(session(&operations(0, 0, 509)), [(Answer::Done, 0, 509)]);
    assert_eq!(session(&operations(0, 0, 510)), [(Answer::CallAgain, 509, 509), (Answer::Done, 0, 1)]);
}

#[test]
fn every_opcode_takes_an_operator() {
    assert_eq!(session(&operations(1, 1013, 1)), [(Answer::Done, 0, 1015)]);
    assert_eq!(session(&operations(1, 1014, 1)), [(Answer::CallAgain, 1015, 1015), (Answer::Done, 0, 1)]);
}

#[test]
fn an_empty_journal_is_a_terminator() {
    let mut partition = Partition::new();
    partition.memory.fill(0xff);
    partition.memory[NODE_AREA..NODE_AREA + 16].fill(0);
    assert_eq!(partition.update_nodes(1), Ok(Answer::Done));
    assert_eq!(read_nodes(partition.node_area(), 1), Ok(vec![]));
    assert_eq!(partition.node_area()[..20], [0; 20]);
    assert!(partition.node_area()[20..].iter().all(|&byte| byte == 0xff));
}

#[test]
fn scopes() {
    for scope in [i32::MIN, -1, 1, 2, 3] {
        assert_eq!(Partition::new().update_nodes(scope), Ok(Answer::Done));
    }
    for scope in [0, 4, i32::MAX] {
        assert_eq!(Partition::new().update_nodes(scope), Err(Fault::Parameter));
    }
}

#[test]
fn a_state_of_the_lists_length_is_refused() {
    let mut partition = partition_of(&operations(0, 5, 0));
    partition.memory[NODE_AREA + 3] = 5;
    let before = partition.memory.clone();
    assert_eq!(partition.update_nodes(1), Err(Fault::Parameter));
    assert_eq!(partition.memory, before);
    partition.memory[NODE_AREA + 3] = 4;
    assert_eq!(partition.update_nodes(1), Ok(Answer::Done));
    assert_eq!(read_nodes(partition.node_area(), 1), Ok(vec![Operation::Update { phandle: 4 }]));
}

#[test]
fn a_malformed_journal_is_refused() {
    let mut partition = partition_of(&operations(1, 1, 1));
    partition.journal.pop();
    assert_eq!(partition.update_nodes(1), Err(Fault::Malformed));
}

#[test]
fn the_printed_area() {
    let area = area(&[0, 0, 0, 0, 0x01000001, 0x0000002a, 0x02000001, 0x00001000, 0x03000002, 0x00001000, 0x10000005]);
    assert_eq!(read_state(&area, 1), Ok(0));
    assert_eq!(
        read_nodes(&area, 1),
        Ok(vec![
            Operation::Delete { phandle: 0x2a },
            Operation::Update { phandle: 0x1000 },
            Operation::Add { parent: 0x1000, drc_index: 0x10000005 },
        ])
    );
}

#[test]
fn node_areas_are_refused() {
    let read_nodes = |area: &[u8]| read_nodes(area, 1);
    assert_eq!(read_nodes(&[]), refused(Reason::AreaSize, 0));
    assert_eq!(read_nodes(&area(&[0, 0, 0, 1])), refused(Reason::Reserved, 4));
    assert_eq!(read_nodes(&area(&[0, 0, 0, 0, 5])), refused(Reason::Opcode, 16));
    assert_eq!(read_nodes(&area(&[0, 0, 0, 0, 0xff000000])), Ok(vec![]));
    assert_eq!(read_nodes(&area(&[0, 0, 0, 0, 0x010003fc])), refused(Reason::OperandsPastEnd, 16));
    assert_eq!(read_nodes(&area(&[0, 0, 0, 0, 0x03000001])), refused(Reason::OddOperands, 16));
    assert_eq!(read_nodes(&area(&[0, 0, 0, 0, 0x02000001, 9, 0x01000001])), refused(Reason::Order, 24));
    let unterminated = read_nodes(&area(&[0, 0, 0, 0, 0x010003fb]));
    assert_eq!(unterminated, refused(Reason::NoTerminator, 4096));
    assert_eq!(unterminated.unwrap_err().to_string(), "refused 27 at 4096: the area ends without a terminator");
}

const UNIT: u64 = 0x8000_0000_2000_0002;
/// A unit with another high word alone.
const OTHER_UNIT: u64 = 0x8000_0001_2000_0002;

/// A journal record of kind 4, of node type 15.
fn unit_record(unit: u64, phandle: u32) -> Vec<u8> {
    let head = [16, 4, 15].into_iter().flat_map(u16::to_le_bytes);
    head.chain(unit.to_le_bytes()).chain(phandle.to_le_bytes()).collect()
}

fn updates(phandles: std::ops::Range<u32>) -> Vec<Operation> {
    phandles.map(|phandle| Operation::Update { phandle }).collect()
}

/// A partition whose journal has so many updates of each unit in turn, and whose area asks for a unit. The other unit's
/// phandles count from 5,000.
fn partition_of_units(number: u32, asked: u64) -> Partition {
    let mut partition = Partition::new();
    let pair = |phandle: u32| [unit_record(UNIT, phandle), unit_record(OTHER_UNIT, 5000 + phandle)];
    partition.journal = (0..number).flat_map(pair).flatten().collect();
    partition.memory[NODE_AREA + 4..NODE_AREA + 12].copy_from_slice(&asked.to_be_bytes());
    partition
}

#[test]
fn scope_3_reports_one_unit() {
    for (unit, first) in [(UNIT, 0), (OTHER_UNIT, 5000)] {
        let mut partition = partition_of_units(1018, unit);
        assert_eq!(session_in(&mut partition, 3, &updates(first..first + 1018)), [(Answer::Done, 0, 1018)]);

        let mut partition = partition_of_units(1019, unit);
        let calls = session_in(&mut partition, 3, &updates(first..first + 1019));
        assert_eq!(calls, [(Answer::CallAgain, 1018, 1018), (Answer::Done, 0, 1)]);
    }
}

#[test]
fn an_answer_names_its_unit() {
    let carried = |partition: &Partition| partition.node_area()[..16].to_vec();
    let mut partition = partition_of_units(1019, UNIT);
    assert_eq!(partition.update_nodes(3), Ok(Answer::CallAgain));
    assert_eq!(carried(&partition), [0, 0, 3, 0xfa, 0x80, 0, 0, 0, 0x20, 0, 0, 2, 0, 0, 0, 0]);
    assert_eq!(partition.update_nodes(3), Ok(Answer::Done));
    assert_eq!(carried(&partition), [0, 0, 0, 0, 0x80, 0, 0, 0, 0x20, 0, 0, 2, 0, 0, 0, 0]);
}

#[test]
fn a_unit_without_a_record_has_an_empty_list() {
    for unit in [0, 7, UNIT >> 32, UNIT << 32] {
        let mut partition = partition_of_units(3, unit);
        assert_eq!(session_in(&mut partition, 3, &[]), [(Answer::Done, 0, 0)]);
    }
}

#[test]
fn other_scopes_pass_over_units() {
    for scope in [i32::MIN, -1, 1, 2] {
        assert_eq!(session_in(&mut partition_of_units(3, 0), scope, &[]), [(Answer::Done, 0, 0)]);
    }
}

#[test]
fn the_bytes_behind_the_state() {
    for (scope, byte, expected) in [
        (3, 4, Ok(Answer::Done)),
        (3, 11, Ok(Answer::Done)),
        (3, 12, Err(Fault::Parameter)),
        (3, 15, Err(Fault::Parameter)),
        (1, 4, Err(Fault::Parameter)),
        (1, 11, Err(Fault::Parameter)),
        (1, 12, Err(Fault::Parameter)),
        (1, 15, Err(Fault::Parameter)),
    ] {
        let mut partition = partition_of_units(3, 0);
        partition.memory[NODE_AREA + byte] = 1;
        assert_eq!(partition.update_nodes(scope), expected, "scope {scope}, byte {byte}");
    }
}

#[test]
fn the_reader_is_told_the_scope() {
    let mut unit = area(&[7, 0x80000000, 0x20000002, 0, 0x02000001, 0x1000]);
    assert_eq!(read_nodes(&unit, 3), Ok(vec![Operation::Update { phandle: 0x1000 }]));
    assert_eq!(read_state(&unit, 3), Ok(7));
    for scope in [i32::MIN, -1, 0, 1, 2, 4, 0x103, i32::MAX] {
        assert_eq!(read_nodes(&unit, scope), refused(Reason::Reserved, 4));
        assert_eq!(read_nodes(&area(&[]), scope), Ok(vec![]));
    }
    for byte in 12..16 {
        unit[byte] = 1;
        assert_eq!(read_nodes(&unit, 3), refused(Reason::Reserved, 12));
        assert_eq!(read_state(&unit, 3), Err(Refusal { reason: Reason::Reserved, offset: 12 }));
        unit[byte] = 0;
    }
}

#[test]
fn node_types_15_and_16_are_of_kind_4_alone() {
    let with_type = |mut record: Vec<u8>, node_type: u8| {
        record[4] = node_type;
        record
    };
    let update = record(Operation::Update { phandle: 1 });
    for (journal, expected) in [
        (with_type(update.clone(), 14), Ok(Answer::Done)),
        (with_type(update.clone(), 15), Err(Fault::Malformed)),
        (with_type(update, 16), Err(Fault::Malformed)),
        (with_type(unit_record(UNIT, 1), 14), Err(Fault::Malformed)),
        (unit_record(UNIT, 1), Ok(Answer::Done)),
        (with_type(unit_record(UNIT, 1), 16), Ok(Answer::Done)),
        (with_type(unit_record(UNIT, 1), 17), Err(Fault::Malformed)),
    ] {
        for scope in [-1, 1, 2, 3] {
            let mut partition = Partition::new();
            partition.journal = journal.clone();
            assert_eq!(partition.update_nodes(scope), expected);
        }
    }
}
