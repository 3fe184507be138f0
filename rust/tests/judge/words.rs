//! What is said of a malformed record.

use crate::judge::{judge_inventory, judge_journal};
use crate::records::record;

const DELETE: [u8; 10] = [8, 0, 1, 0, 11, 0, 0x2a, 0, 0, 0];

/// What is said of a record after two good ones.
fn journal(rest: &[u8]) -> String {
    let told = judge_journal(&[&DELETE.repeat(2)[..], rest].concat()).unwrap_err().to_string();
    String::from(told.strip_prefix("record 3, at byte 20: ").expect(&told))
}

fn inventory(rest: &[u8]) -> String {
    let good = record(16, b"\x01\0\x01\0\0\0\x02\0\0\0U1");
    let told = judge_inventory(&[&good[..], rest].concat()).unwrap_err().to_string();
    String::from(told.strip_prefix("record 2, at byte 16: ").expect(&told))
}

#[test]
fn a_flaw_has_its_record_and_its_byte() {
    let told = judge_journal(&[&DELETE.repeat(2)[..], &record(1, &[11, 0, 1, 2, 3, 4, 5])].concat()).unwrap_err();
    assert_eq!((told.record, told.offset), (3, 20));
    assert_eq!(told.to_string(), "record 3, at byte 20: length 9 for kind 1, which has 8");
    assert_eq!((judge_journal(&[]), judge_inventory(&[]), judge_journal(&DELETE)), (Ok(()), Ok(()), Ok(())));
}

#[test]
fn of_a_head() {
    assert_eq!(journal(&[8]), "cut off by the end, inside its length");
    assert_eq!(journal(&[8, 0, 1]), "cut off by the end, inside its kind");
    assert_eq!(journal(&DELETE[..9]), "cut off by the end, after 9 of 10 bytes");
    assert_eq!(journal(&[1, 0]), "length 1, which does not count its kind");
    assert_eq!(journal(&record(7, &[0; 6])), "kind 7; a journal has kinds 1 to 6");
    assert_eq!(journal(&record(16, &[0; 13])), "kind 16; a journal has kinds 1 to 6");
    assert_eq!(journal(&record(3, &[0; 6])), "length 8 for kind 3, which has 12");
    assert_eq!(journal(&record(5, b"1234a")), "length 7 for kind 5, which has 8 to 32806");
    assert_eq!(journal(&[0xff, 0xff, 6, 0]), "length 65535 for kind 6, which has 8 to 38");
    assert_eq!(inventory(&DELETE), "kind 1; an inventory has kind 16");
    assert_eq!(inventory(&record(16, &[0; 10])), "length 12 for kind 16, which has 13 to 1035");
}

#[test]
fn of_a_body() {
    assert_eq!(journal(&record(1, &[15, 0, 0, 0, 0, 0])), "node type 15 for kind 1, which has 1 to 14");
    assert_eq!(journal(&record(4, &[14; 14])), "node type 3598 for kind 4, which has 15 to 16");
    assert_eq!(journal(&record(5, b"1234abc")), "its name has no NUL");
    assert_eq!(journal(&record(5, b"1234\0abc")), "a name of 0 bytes; a name has 1 to 31");
    let long = [&b"1234"[..], &[b'a'; 32], &[0]].concat();
    assert_eq!(journal(&record(5, &long)), "a name of 32 bytes; a name has 1 to 31");
    let value = [&b"1234a\0"[..], &[0; 32_769]].concat();
    assert_eq!(journal(&record(5, &value)), "a value of 32769 bytes; a value has at most 32768");
    assert_eq!(journal(&record(6, b"1234abc\0de")), "2 bytes after the NUL of its name, and kind 6 has none");
    let flag = "flag 2, which is neither 0 for an indicator nor 1 for a sensor";
    assert_eq!(inventory(&record(16, b"\x02\0\x01\0\0\0\x02\0\0\0U1")), flag);
    let nul = "a NUL in its location code, after 2 of 4 bytes";
    assert_eq!(inventory(&record(16, b"\x01\0\x01\0\0\0\x02\0\0\0U1\0U")), nul);
}

#[test]
fn of_a_buffer_that_is_too_long() {
    let told = judge_journal(&DELETE.repeat(104_858)).unwrap_err();
    assert_eq!((told.record, told.offset), (104_858, 1_048_570));
    assert_eq!(told.what, "it passes byte 1048576, and a journal has no more bytes");
    // A record that is malformed before that is named first.
    assert_eq!(judge_journal(&vec![0; 1_048_577]).unwrap_err().record, 1);
}
