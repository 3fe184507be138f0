//! `Display` prints the words of include/draugsten_text.h.

use draugsten::args::Command;
use draugsten::{
    lookup, read_nodes, Answer, Fault, Forecast, NotAdded, NotKept, NotLocated, NotMerged, NotWhole, Reason, Refusal,
    Refused, Report, Status, Token,
};

const TABLE: &str = include_str!("../../../include/draugsten_text.h");

/// The numbers of a kind with their words, in the table's order.
fn lines(kind: &str) -> Vec<(i32, String)> {
    let line_of = |line: &str| {
        let (number, rest) = line.trim().strip_prefix(&format!("X({kind}, "))?.split_once(", \"")?;
        Some((number.parse().ok()?, String::from(rest.split_once("\")")?.0)))
    };
    TABLE.lines().filter_map(line_of).collect()
}

/// The words of one number.
fn words(kind: &str, number: i32) -> String {
    let found: Vec<_> = lines(kind).into_iter().filter(|line| line.0 == number).collect();
    assert_eq!(found.len(), 1, "{kind} {number}");
    found[0].1.clone()
}

#[test]
fn statuses() {
    assert_eq!(Status::ALL.map(|status| (status as i32, status.to_string())).to_vec(), lines("STATUS"));
    assert_eq!(format!("{:>6}|{:<6}|", Status::Done, Answer::Done), "  done|done  |");
    let answers = [Answer::Done, Answer::CallAgain].map(|answer| (answer as i32, answer.to_string()));
    assert_eq!(answers[..], lines("STATUS")[..2]);
    for number in -300..300 {
        let known = lines("STATUS").iter().any(|line| line.0 == number);
        assert_eq!(Status::of(number).map(|status| status as i32), known.then_some(number));
    }
}

#[test]
fn faults() {
    let statuses = [Fault::Malformed, Fault::Parameter, Fault::Changed, Fault::AlreadyRegistered, Fault::DumpActive];
    let numbers = [Fault::Short, Fault::NoOutputs, Fault::TooMany, Fault::NoRegistration];
    assert_eq!(statuses.map(|fault| (fault as i32, String::from(fault.words())))[..], lines("STATUS")[2..]);
    assert_eq!(numbers.map(|fault| (fault as i32, String::from(fault.words())))[..], lines("NUMBER")[1..]);
    for (sort, faults) in [("status", &statuses[..]), ("number", &numbers[..])] {
        for fault in faults {
            assert_eq!(fault.to_string(), format!("refused by {sort} {}: {}", *fault as i32, fault.words()));
        }
    }
    assert_eq!(Fault::DumpActive.to_string(), "refused by status -10: dump active");
}

#[test]
fn tokens_and_commands() {
    assert_eq!(Token::ALL.map(|token| (token as i32, token.to_string())).to_vec(), lines("TOKEN"));
    let commands = [Command::Register, Command::Unregister, Command::Complete];
    assert_eq!(commands.map(|command| (command as i32, command.to_string())).to_vec(), lines("COMMAND"));
    for number in 0..300 {
        assert_eq!(Token::of(number).map(|token| token as u32), (1..=4).contains(&number).then_some(number));
        assert_eq!(Command::of(number).map(|command| command as u32), (1..=3).contains(&number).then_some(number));
    }
}

#[test]
fn refusals() {
    let reasons = [
        Reason::AreaSize,
        Reason::Reserved,
        Reason::Opcode,
        Reason::OperandsPastEnd,
        Reason::OddOperands,
        Reason::Order,
        Reason::NoTerminator,
        Reason::NoCount,
        Reason::SetPastEnd,
        Reason::CodeLength,
        Reason::Code,
        Reason::PropertyAreaSize,
        Reason::PropertyReserved,
        Reason::PropertyName,
        Reason::PropertyPastEnd,
    ];
    let told = reasons.map(|reason| Refusal { reason, offset: 4 }.to_string());
    let lines = lines("REFUSAL").into_iter().skip(1);
    let expected: Vec<_> = lines.map(|(number, words)| format!("refused {number} at 4: {words}")).collect();
    assert_eq!(told[..], expected);
}

/// In scope 3 the reserved bytes are others, and no other refusal is.
#[test]
fn refusals_in_scope_3() {
    let mut area = vec![0; 4096];
    area[15] = 1;
    let told = |area: &[u8], scope| read_nodes(area, scope).unwrap_err().to_string();
    assert_eq!(told(&area, 1), format!("refused 21 at 4: {}", words("REFUSAL", 21)));
    assert_eq!(told(&area, 3), format!("refused 21 at 12: {}", words("UNIT_REFUSAL", 21)));
    assert_eq!(lines("UNIT_REFUSAL").len(), 1);
    (area[15], area[16]) = (0, 4);
    area[19] = 1;
    assert_eq!(told(&area, 3), format!("refused 22 at 16: {}", words("REFUSAL", 22)));
    let code = Refusal { reason: Reason::Code, offset: 12 }.to_string();
    assert_eq!(code, format!("refused 33 at 12: {}", words("REFUSAL", 33)));
}

#[test]
fn lookups() {
    assert_eq!(NotLocated::NotFound.to_string(), words("LOCATION_NUMBER", 34));
    let refused = lookup(&[0; 3], &[], 0).unwrap_err();
    assert_eq!(refused.to_string(), format!("refused 30 at 0: {}", words("REFUSAL", 30)));
}

#[test]
fn verdicts() {
    let reports = [
        (Report::Agreed { calls: 7 }, " 7"),
        (Report::Differs { call: 4, offset: 39 }, " call 4 at 39"),
        (Report::Malformed { record: 16 }, " record 16"),
    ];
    for ((report, rest), (_, words)) in reports.into_iter().zip(lines("VERDICT")) {
        assert_eq!((report.to_string(), NotAdded::Report(report).to_string()), (words.clone() + rest, words + rest));
    }
    assert_eq!(lines("VERDICT").len(), 3);
}

#[test]
fn months() {
    assert_eq!(NotAdded::PastLimit.to_string(), words("MONTH_NUMBER", 17));
    assert_eq!(NotMerged::PastLimit.to_string(), words("MONTH_NUMBER", 17));
    assert_eq!(NotMerged::NoTotals.to_string(), words("MONTH_NUMBER", 18));
}

#[test]
fn tallies_and_forecasts() {
    let refusals = [NotKept::Malformed, NotKept::NoRoom, NotKept::NoJournal];
    assert_eq!(refusals.map(|refusal| (refusal as i32, refusal.to_string()))[..], lines("TALLIES_NUMBER")[1..]);
    let forecasts = [Forecast::Done, Forecast::CallAgain { next: 1018 }, Forecast::Parameter];
    let rests = ["", ", next state 1018", ""];
    for ((forecast, rest), (number, words)) in forecasts.into_iter().zip(rests).zip(lines("FORECAST")) {
        assert_eq!((forecast.status(), forecast.to_string()), (number, format!("status {number}: {words}{rest}")));
    }
    assert_eq!(lines("FORECAST").len(), 3);
}

#[test]
fn intakes() {
    let told = |number| format!("refused {number} at record 9: {}", words("INTAKE_NUMBER", number));
    for refused in [Refused::Malformed { record: 9 }, Refused::NoRoom { record: 9 }] {
        let expected = told(refused.number() as i32);
        assert_eq!((refused.to_string(), NotWhole::Refused(refused).to_string()), (expected.clone(), expected));
    }
    assert_eq!(NotWhole::Unfinished { record: 9 }.to_string(), told(53));
}
