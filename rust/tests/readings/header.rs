//! Every number that the header names has a name in the crate.

use draugsten::trace::{self, Kind, BODY_LIMIT};
use draugsten::{
    args, Answer, Fault, NotKept, NotLocated, Phase, Reason, Refused, Section, Status, Token, CODE_LIMIT, DUMP_ERROR,
    DUMP_PERFORMED, FIELD_LIMIT, LONGEST_RECORD, NAME_LIMIT, STRUCTURE_LIMIT, VALUE_LIMIT,
};

const HEADER: &str = include_str!("../../../include/draugsten.h");

/// The names that begin so, each with its number, in the header's order. A status is a word of 32 bits.
fn numbers(prefix: &str) -> Vec<(&str, i32)> {
    let tokens = HEADER.split(|c: char| c.is_whitespace() || c == ',' || c == '=').filter(|token| !token.is_empty());
    let tokens: Vec<&str> = tokens.collect();
    let named = tokens.windows(2).filter_map(|pair| Some((pair[0].strip_prefix(prefix)?, number(pair[1])?)));
    named.collect()
}

fn number(text: &str) -> Option<i32> {
    match text.strip_prefix("0x") {
        Some(word) => u32::from_str_radix(word.strip_suffix('u')?, 16).ok().map(|word| word as i32),
        None => text.trim_matches(['(', ')']).parse().ok(),
    }
}

/// The statuses as words, or as numbers with a sign, whose names have a suffix.
fn statuses(signed: bool) -> Vec<(&'static str, i32)> {
    let all = numbers("DRAUGSTEN_STATUS_").into_iter().filter(|(name, _)| name.ends_with("_SIGNED") == signed);
    all.map(|(name, number)| (name.trim_end_matches("_SIGNED"), number)).collect()
}

#[test]
fn limits() {
    assert_eq!(numbers("DRAUGSTEN_CODE_LIMIT"), [("", CODE_LIMIT as i32)]);
    assert_eq!(numbers("DRAUGSTEN_STRUCTURE_LIMIT"), [("", STRUCTURE_LIMIT as i32)]);
    assert_eq!(numbers("DRAUGSTEN_NAME_LIMIT"), [("", NAME_LIMIT as i32)]);
    assert_eq!(numbers("DRAUGSTEN_VALUE_LIMIT"), [("", VALUE_LIMIT as i32)]);
    assert_eq!(numbers("DRAUGSTEN_TRACE_BODY_LIMIT"), [("", BODY_LIMIT as i32)]);
    // The header makes these of the limits of a code and of a body.
    assert_eq!((FIELD_LIMIT, args::SUFFICIENT_SIZE, trace::RECORD_LIMIT), (1024, 1036, 4104));
    assert!(HEADER.contains(&format!("#define DRAUGSTEN_TRACE_RECORDS_LIMIT {}u ", trace::RECORDS_LIMIT)));
}

#[test]
fn words_and_numbers_of_statuses() {
    let expected = [
        ("DONE", Answer::Done as i32),
        ("CALL_AGAIN", Answer::CallAgain as i32),
        ("MALFORMED", Fault::Malformed as i32),
        ("PARAMETER", Fault::Parameter as i32),
        ("CHANGED", Fault::Changed as i32),
        ("ALREADY_REGISTERED", Fault::AlreadyRegistered as i32),
        ("DUMP_ACTIVE", Fault::DumpActive as i32),
    ];
    assert_eq!(statuses(false), expected);
    assert_eq!(statuses(true), expected);
}

#[test]
fn numbers_of_calls() {
    let expected = [
        ("STATUS", 0),
        ("SHORT", Fault::Short as i32),
        ("NO_OUTPUTS", Fault::NoOutputs as i32),
        ("TOO_MANY", Fault::TooMany as i32),
        ("NO_REGISTRATION", Fault::NoRegistration as i32),
    ];
    assert_eq!(numbers("DRAUGSTEN_NUMBER_"), expected);
}

#[test]
fn kinds_of_a_trace() {
    let expected = [("BEFORE", Kind::Before as i32), ("AFTER", Kind::After as i32), ("MEMORY", Kind::Memory as i32)];
    let kinds = numbers("DRAUGSTEN_TRACE_").into_iter().filter(|(name, _)| !name.ends_with("LIMIT"));
    assert_eq!(kinds.collect::<Vec<_>>(), expected);
}

/// The crate has the verdicts as `Report`; its replays are always taken.
#[test]
fn numbers_of_replays() {
    assert_eq!(numbers("DRAUGSTEN_VERDICT_"), [("AGREED", 0), ("DIFFERS", 1), ("MALFORMED", 2)]);
    assert_eq!(numbers("DRAUGSTEN_REPLAY_"), [("TAKEN", 0), ("NO_STATE", 14), ("NO_ROOM", 15)]);
}

/// The crate has the numbers as `NotAdded` and `NotMerged`, and the places of the statuses.
#[test]
fn numbers_of_the_month() {
    let refusals =
        [("ADDED", 0), ("NO_STATE", 14), ("NO_ROOM", 15), ("NOT_AGREED", 16), ("PAST_LIMIT", 17), ("NO_TOTALS", 18)];
    let statuses = [
        ("DONE", Status::Done),
        ("AGAIN", Status::CallAgain),
        ("MALFORMED", Status::Malformed),
        ("PARAMETER", Status::Parameter),
        ("CHANGED", Status::Changed),
        ("ALREADY_REGISTERED", Status::AlreadyRegistered),
        ("DUMP_ACTIVE", Status::DumpActive),
    ];
    let places = statuses.map(|(name, status)| (name, status.place() as i32));
    assert_eq!(numbers("DRAUGSTEN_MONTH_"), refusals);
    assert_eq!(numbers("DRAUGSTEN_ROW_"), places);
}

#[test]
fn numbers_of_tallies() {
    let expected = [
        ("DONE", 0),
        ("MALFORMED", NotKept::Malformed as i32),
        ("NO_ROOM", NotKept::NoRoom as i32),
        ("NO_JOURNAL", NotKept::NoJournal as i32),
    ];
    assert_eq!(numbers("DRAUGSTEN_TALLIES_"), expected);
}

/// The crate has the numbers 50, 51 and 53 as `Refused` and `NotWhole`; its intakes are always ones that bursts leave.
#[test]
fn numbers_of_intakes() {
    let expected = [
        ("TAKEN", 0),
        ("MALFORMED", Refused::Malformed { record: 1 }.number() as i32),
        ("NO_ROOM", Refused::NoRoom { record: 1 }.number() as i32),
        ("UNFINISHED", 53),
        ("NO_STATE", 54),
        ("SMALL_STORE", 55),
    ];
    assert_eq!(numbers("DRAUGSTEN_INTAKE_"), expected);
    assert_eq!(numbers("DRAUGSTEN_STORE_SIZE"), [("", LONGEST_RECORD as i32)]);
}

/// The crate has the numbers as `NotLocated` and `ViewStep`, and the buffers as the part that is handed back.
#[test]
fn numbers_of_locations() {
    assert_eq!(numbers("DRAUGSTEN_LOCATION_"), [("FOUND", 0), ("NOT_FOUND", NotLocated::NotFound.number() as i32)]);
    assert_eq!(numbers("DRAUGSTEN_BUFFER_"), [("NONE", 0), ("AREA", 1), ("FIXED", 2)]);
    assert_eq!(numbers("DRAUGSTEN_VIEW_"), [("ENTRY", 0), ("END", 35)]);
}

#[test]
fn tokens_and_statuses_that_are_counted() {
    let tokens = [
        ("UPDATE_NODES", Token::UpdateNodes as i32),
        ("GET_INDICES", Token::GetIndices as i32),
        ("CONFIGURE_KERNEL_DUMP", Token::ConfigureKernelDump as i32),
        ("UPDATE_PROPERTIES", Token::UpdateProperties as i32),
    ];
    assert_eq!(numbers("DRAUGSTEN_TOKEN_"), tokens);
    let statuses = statuses(false).into_iter().map(|(_, number)| number);
    assert!(statuses.eq(Status::ALL.into_iter().map(|status| status as i32)));
}

#[test]
fn phases() {
    let expected =
        [("NONE", Phase::None as i32), ("REGISTERED", Phase::Registered as i32), ("ACTIVE", Phase::Active as i32)];
    assert_eq!(numbers("DRAUGSTEN_PHASE_"), expected);
}

#[test]
fn flags_of_a_dump() {
    let status_flags = [("PERFORMED", DUMP_PERFORMED), ("ERROR", DUMP_ERROR)];
    let error_flags = [
        ("SOURCE", Section::SOURCE),
        ("LENGTH", Section::LENGTH),
        ("DESTINATION", Section::DESTINATION),
        ("ROOM", Section::ROOM),
    ];
    assert_eq!(numbers("DRAUGSTEN_DUMP_"), status_flags.map(|(name, flag)| (name, i32::from(flag))));
    assert_eq!(numbers("DRAUGSTEN_SECTION_"), error_flags.map(|(name, flag)| (name, i32::from(flag))));
}

#[test]
fn refusals() {
    let expected = [
        ("NONE", 0),
        ("AREA_SIZE", Reason::AreaSize as i32),
        ("RESERVED", Reason::Reserved as i32),
        ("OPCODE", Reason::Opcode as i32),
        ("OPERANDS_PAST_END", Reason::OperandsPastEnd as i32),
        ("ODD_OPERANDS", Reason::OddOperands as i32),
        ("ORDER", Reason::Order as i32),
        ("NO_TERMINATOR", Reason::NoTerminator as i32),
        ("NO_COUNT", Reason::NoCount as i32),
        ("SET_PAST_END", Reason::SetPastEnd as i32),
        ("CODE_LENGTH", Reason::CodeLength as i32),
        ("CODE", Reason::Code as i32),
        ("PROPERTY_AREA_SIZE", Reason::PropertyAreaSize as i32),
        ("PROPERTY_RESERVED", Reason::PropertyReserved as i32),
        ("PROPERTY_NAME", Reason::PropertyName as i32),
        ("PROPERTY_PAST_END", Reason::PropertyPastEnd as i32),
    ];
    assert_eq!(numbers("DRAUGSTEN_REFUSAL_"), expected);
}
