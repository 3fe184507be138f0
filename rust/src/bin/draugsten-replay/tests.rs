//! What is told of traces that do not agree.

use crate::options::Options;
use crate::shared::flaws::Flaws;
use crate::shared::input::Memory;
use crate::tell;
use draugsten::args::{self, Flag, IndexRequest};
use draugsten::{Edition, Replay};

fn record(kind: u16, body: &[u8]) -> Vec<u8> {
    let head = [2 + body.len() as u16, kind].map(u16::to_le_bytes).concat();
    [&head, body].concat()
}

fn call(before: &[u8], after: &[u8]) -> Vec<u8> {
    [record(32, before), record(33, after)].concat()
}

/// The words of an argument buffer.
fn buffer(words: &[u32]) -> Vec<u8> {
    words.iter().flat_map(|word| word.to_be_bytes()).collect()
}

/// So many zero bytes of memory, and nothing else given.
fn over(size: u64) -> Options {
    let memory = Memory::Zeros(size);
    Options { memory, journal: None, inventory: None, edition: 0, allow_empty: false, trace: None }
}

/// The text of a trace that ends here, over 16 bytes of memory, an empty journal and an empty inventory.
fn told(trace: &[u8]) -> Vec<String> {
    let journal = Some("journal".into());
    told_over(&mut [0; 16], trace, &Options { inventory: journal.clone(), journal, ..over(16) })
}

fn told_over(memory: &mut [u8], trace: &[u8], options: &Options) -> Vec<String> {
    let mut replay = Replay::new(memory, &[], &[], Edition(0));
    replay.feed(trace);
    tell(replay.end(), &replay, options, &Flaws::default(), &[]).lines().map(String::from).collect()
}

/// The last line of a call over a journal and an inventory that are malformed, which was recorded with another status.
fn told_of_malformed(before: &[u8]) -> String {
    let mut after = before.to_vec();
    *after.last_mut().unwrap() = 7;
    let mut memory = [0; 4096];
    let mut replay = Replay::new(&mut memory, &[0], &[0], Edition(0));
    replay.feed(&call(before, &after));
    let flaws = Flaws { journal: Some(String::from("J")), inventory: Some(String::from("I")) };
    tell(replay.end(), &replay, &over(4096), &flaws, &[]).lines().last().unwrap().into()
}

#[test]
fn a_malformed_file_is_named_if_it_made_our_status() {
    assert_eq!(told_of_malformed(&args::update_nodes(0, 1)), "our call gave -1: J");
    assert_eq!(told_of_malformed(&args::update_properties(0, 1)), "our call gave -1: J");
    let request = IndexRequest { flag: Flag::Sensor, type_number: 9006, address: 0, size: 64, starting_number: 1 };
    let mut indices = args::get_indices(&request);
    *indices.last_mut().unwrap() = 9;
    assert_eq!(told_of_malformed(&indices), "our call gave -1: I");
    // A call that does not look at it, and one without a status.
    assert_eq!(told_of_malformed(&args::update_nodes(4, 1)), "  ours:     fffffffd status -3 parameter");
    assert_eq!(told_of_malformed(&buffer(&[1, 1, 0, 5])), "  ours:     00000005");
}

#[test]
fn calls_that_agree_are_counted() {
    let compared = "compared: argument buffers; work areas are not part of a trace";
    assert_eq!(told(&call(&[], &[])), ["agreed 1", compared]);
    let two = [record(34, &[0; 5]), call(&[], &[]), call(&[1], &[1])].concat();
    assert_eq!(told(&two), ["agreed 2", compared]);
    assert_eq!(told_over(&mut [0; 16], &two, &Options { allow_empty: true, ..over(16) }), ["agreed 2", compared]);
}

#[test]
fn a_trace_without_a_call() {
    let rest = ": nothing was compared; if that is meant, give --allow-empty";
    let setting = record(34, &[0; 5]);
    let cases = [
        (0, "the trace is empty"),
        (1, "the trace has 1 record, which sets memory"),
        (2, "the trace has 2 records, which all set memory"),
    ];
    for (number, what) in cases {
        let trace = setting.repeat(number);
        assert_eq!(told(&trace), ["no call", &format!("{what}{rest}")]);
        assert_eq!(told_over(&mut [0; 16], &trace, &Options { allow_empty: true, ..over(16) }), ["agreed 0"]);
    }
}

#[test]
fn what_goes_astray_before_any_call_is_told_as_ever() {
    for allow_empty in [false, true] {
        let of = |trace: &[u8]| told_over(&mut [0; 16], trace, &Options { allow_empty, ..over(16) });
        assert_eq!(of(&[7]), ["malformed record 1", "record 1: cut off by the end, inside its length"]);
        let alone = "record 1: a 32, and the trace ends without its 33";
        assert_eq!(of(&record(32, &[])), ["malformed record 1", alone]);
        assert_eq!(of(&call(&[], &[7]))[0], "differs call 1 at 0");
    }
}

#[test]
fn a_status() {
    let before = args::update_nodes(4096, -1);
    let expected = [
        "differs call 2 at 20",
        "call 2 is records 3 and 4 of the trace; the call before it agreed",
        "ibm,update-nodes, token 1, 2 inputs, 1 output",
        "  input 1: address 0x00001000",
        "  input 2: scope -1",
        "byte 20 is in bytes 20 to 23: output 1, status",
        "  recorded: 00000000 status 0 done",
        "  ours:     fffffffd status -3 parameter",
    ];
    assert_eq!(told(&[call(&[], &[]), call(&before, &before)].concat()), expected);
}

#[test]
fn a_word_of_the_head() {
    let before = args::configure_kernel_dump(args::Command::Unregister, 0, 80);
    let after = |at: usize| {
        let mut after = before;
        after[24..].copy_from_slice(&(-3i32).to_be_bytes());
        after[at] = 4;
        told(&call(&before, &after))
    };
    let token = after(3);
    assert_eq!(token[1], "call 1 is records 1 and 2 of the trace; it is the first call");
    assert_eq!(token[2], "ibm,configure-kernel-dump, token 3, 3 inputs, 1 output");
    assert_eq!(
        token[3..6],
        ["  input 1: command 2 unregister", "  input 2: address 0x00000000", "  input 3: length 80"]
    );
    assert_eq!(token[6], "byte 3 is in bytes 0 to 3: token");
    assert_eq!(token[7], "  recorded: 00000004 token 4 ibm,update-properties");
    assert_eq!(token[8], "  ours:     00000003 token 3 ibm,configure-kernel-dump");
    assert_eq!(
        after(7)[6..8],
        ["byte 7 is in bytes 4 to 7: number of inputs", "  recorded: 00000004 number of inputs 4"]
    );
    assert_eq!(after(11)[6], "byte 11 is in bytes 8 to 11: number of outputs");
    assert_eq!(
        after(15)[6..8],
        ["byte 15 is in bytes 12 to 15: input 1, command", "  recorded: 00000004 command 4 of none"]
    );
}

#[test]
fn a_buffer_that_is_shorter() {
    let before = args::update_properties(0, 1);
    let mut after = before;
    after[20..].copy_from_slice(&(-3i32).to_be_bytes());
    let lines = told(&call(&before, &after[..20]));
    assert_eq!(lines[5], "byte 20 is in bytes 20 to 23: output 1, status");
    assert_eq!(lines[6], "  the recorded buffer has 20 bytes, ours 24 bytes");
    assert_eq!(lines[7..], ["  recorded: ends before it", "  ours:     fffffffd status -3 parameter"]);
    let lines = told(&call(&before, &after[..22]));
    assert_eq!(lines[7..], ["  recorded: ffff, and ends there", "  ours:     fffffffd status -3 parameter"]);
    let lines = told(&call(&before, &[&after[..], &[9]].concat()));
    assert_eq!(lines[5], "byte 24 is in bytes 24 to 27: a word after the outputs");
    assert_eq!(lines[6], "  the recorded buffer has 25 bytes, ours 24 bytes");
    assert_eq!(lines[7..], ["  recorded: 09, and ends there", "  ours:     ends before it"]);
}

#[test]
fn counts_that_are_no_calls_own() {
    let lines = told(&call(&buffer(&[2, 1, 2, 7, 0, 5]), &buffer(&[2, 1, 2, 7, 0xffff_fffd, 6])));
    assert_eq!(lines[2], "ibm,get-indices, token 2, 1 input, 2 outputs, unlike the call's own");
    assert_eq!(lines[3], "  input 1: 00000007");
    assert_eq!(lines[4..], ["byte 23 is in bytes 20 to 23: output 2", "  recorded: 00000006", "  ours:     00000005"]);
    let lines = told(&call(&buffer(&[9, 0, 1, 0]), &buffer(&[9, 0, 1, 5])));
    assert_eq!(lines[2], "an unknown call, token 9, 0 inputs, 1 output");
    assert_eq!(lines[4..], ["  recorded: 00000005 status 5 of no call", "  ours:     fffffffd status -3 parameter"]);
}

#[test]
fn a_buffer_without_a_status() {
    let changed = |before: &[u8]| {
        let mut after = before.to_vec();
        *after.last_mut().unwrap() ^= 1;
        told(&call(before, &after))
    };
    let refused = |lines: Vec<String>| lines[2].clone();
    assert_eq!(
        refused(changed(&[1])),
        "its buffer has 1 byte: number 10, under 12 bytes; our call leaves it as it was"
    );
    assert!(refused(changed(&buffer(&[1, 17, 1]))).contains("number 12, more than 16 inputs or outputs"));
    assert!(refused(changed(&buffer(&[1, 2, 1]))).contains("number 10, fewer bytes than its inputs and outputs take"));
    let lines = changed(&buffer(&[1, 1, 0, 5]));
    assert_eq!(lines[2], "its buffer has 16 bytes: number 11, no output for a status; our call leaves it as it was");
    assert_eq!(lines[3], "byte 15 is in bytes 12 to 15: no input and no output");
    assert_eq!(lines[4..], ["  recorded: 00000004", "  ours:     00000005"]);
    assert_eq!(
        told(&call(&[], &[7]))[3..5],
        ["byte 0 is in bytes 0 to 3: token", "  the recorded buffer has 1 byte, ours 0 bytes"]
    );
}

/// The last line of a call that differs in its last byte, over 4,096 zero bytes, where only memory was given.
fn last(before: &[u8]) -> String {
    let mut after = before.to_vec();
    *after.last_mut().unwrap() = 7;
    told_over(&mut [0; 4096], &call(before, &after), &over(4096)).pop().unwrap()
}

/// A get-indices for a sensor.
fn indices(type_number: u32, size: u32, starting_number: u32) -> String {
    let request = IndexRequest { flag: Flag::Sensor, type_number, address: 0, size, starting_number };
    last(&args::get_indices(&request))
}

#[test]
fn what_was_not_given_is_told_where_the_call_looks_at_it() {
    let journal = "no --journal was given: our call had an empty journal";
    assert_eq!(last(&args::update_nodes(0, 1)), journal);
    assert_eq!(last(&args::update_properties(0, 1)), journal);
    assert_eq!(indices(9006, 64, 1), "no --inventory was given: our call had an empty inventory");
}

#[test]
fn what_was_not_given_is_not_told_where_the_call_is_refused_before() {
    let parameter = "  ours:     fffffffd status -3 parameter";
    for address in [4, 4096] {
        assert_eq!(last(&args::update_nodes(address, 1)), parameter);
        assert_eq!(last(&args::update_properties(address, 1)), parameter);
    }
    assert_eq!(last(&args::update_nodes(0, 4)), parameter);
    assert_eq!(last(&args::update_properties(0, 0)), parameter);
    for (type_number, size, starting_number) in [(9003, 64, 1), (9006, 3, 1), (9006, 64, 2)] {
        assert_eq!(indices(type_number, size, starting_number), parameter);
    }
    for token in [1, 2, 3, 4, 9] {
        assert_eq!(last(&buffer(&[token, 0, 1, 0])), parameter);
    }
    assert_eq!(last(&buffer(&[1, 2, 1, 0])), "  ours:     00000000");
}

/// The line below the verdict, of a trace with a call in front.
fn flaw(rest: &[u8]) -> String {
    let lines = told(&[&call(&[], &[]), rest].concat());
    assert_eq!((lines.len(), &lines[0][..]), (2, "malformed record 3"));
    lines[1].clone()
}

#[test]
fn flaws_of_a_record() {
    assert_eq!(flaw(&record(7, &[1])), "record 3: kind 7; a trace has kinds 32 to 34");
    assert_eq!(flaw(&[1, 0, 32, 0]), "record 3: length 1, which does not count its kind");
    assert_eq!(flaw(&[1, 0, 32]), "record 3: length 1, which does not count its kind");
    assert_eq!(flaw(&record(34, &[0; 4101])), "record 3: length 4103 for kind 34, which has 7 to 4102");
    assert_eq!(flaw(&record(33, &[])), "record 3: a 33 without a 32 right before it");
    assert_eq!(flaw(&record(34, &[0; 4])), "record 3: length 6 for kind 34, which has 7 to 4102");
    assert_eq!(
        flaw(&record(34, &[15, 0, 0, 0, 7, 7])),
        "record 3: kind 34 for bytes 15 to 16 of memory, which has 16; give --memory-size 17 or more"
    );
    assert_eq!(
        flaw(&record(34, &[0, 0, 0, 0x80, 7])),
        "record 3: kind 34 for bytes 2147483648 to 2147483648 of memory, which has 16; give --memory-size 2147483649 or more"
    );
    assert_eq!(flaw(&[7]), "record 3: cut off by the end, inside its length");
    assert_eq!(flaw(&[7, 0, 34]), "record 3: cut off by the end, inside its kind");
}

#[test]
fn a_memory_file_that_is_too_small() {
    let options = Options { memory: Memory::File("a\nb".into()), ..over(16) };
    let lines = told_over(&mut [0; 16], &record(34, &[14, 0, 0, 0, 7, 7, 7]), &options);
    let help = "give in the place of a\\x0ab a file of 17 bytes or more";
    assert_eq!(lines[1], format!("record 1: kind 34 for bytes 14 to 16 of memory, which has 16; {help}"));
}

#[test]
fn flaws_after_a_32() {
    let after = |rest: &[u8]| flaw(&[&record(32, &[5]), rest].concat());
    assert_eq!(after(&[]), "record 3: a 32, and the trace ends without its 33");
    assert_eq!(
        after(&[3, 0, 33, 0]),
        "record 3: a 32, and record 4 is not its 33: cut off by the end, after 4 of 5 bytes"
    );
    assert_eq!(after(&record(34, &[0; 5])), "record 3: a 32, and record 4 is not its 33: kind 34");
    assert_eq!(
        after(&record(35, &[])),
        "record 3: a 32, and record 4 is not its 33: kind 35; a trace has kinds 32 to 34"
    );
}
