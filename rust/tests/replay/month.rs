//! Random sessions, counted as they are replayed, beside a count of their calls by hand.

use crate::random::Random;
use crate::records::records;
use crate::session::{Platform, Session};
use draugsten::{
    call, read_nodes, Answer, Counted, CountingReplay, Fault, Figures, NotAdded, ReadingRecord, Registration, Report,
    Status, Token, Totals,
};

const SESSIONS: u64 = 60;
const DEEDS: usize = 60;

fn session(seed: u64) -> (Random, Platform, Session) {
    let mut random = Random::new(1000 + seed);
    let platform = Platform::random(&mut random);
    let session = platform.record(&mut random, DEEDS);
    (random, platform, session)
}

/// What a trace counts that is fed in pieces of random lengths.
fn counted(random: &mut Random, platform: &Platform, mut trace: &[u8]) -> Counted {
    let mut memory = platform.memory.clone();
    let mut replay = CountingReplay::new(&mut memory, &platform.journal, &platform.inventory, platform.edition);
    let most = random.pick(&[1, 7, 100, 5_000, 1_000_000]);
    while !trace.is_empty() {
        let size = random.below(most + 1).min(trace.len());
        assert_eq!(replay.feed(&trace[..size]), replay.report());
        trace = &trace[size..];
    }
    replay.counted()
}

fn word(bytes: &[u8], at: usize) -> u32 {
    u32::from_be_bytes(bytes[at..at + 4].try_into().unwrap())
}

/// The words from the first operator of a node area to its terminator.
fn words_used(area: &[u8]) -> usize {
    let mut at = 16;
    while word(area, at) != 0 {
        at += 4 + 4 * (word(area, at) as usize & 0xff_ffff);
    }
    at / 4 - 4
}

fn place_of(answer: Result<Answer, Fault>) -> Option<usize> {
    let number = answer.map_or_else(|fault| fault as i32, |answer| answer as i32);
    Status::ALL.into_iter().position(|status| status as i32 == number)
}

/// Adds a call that was made, with the memory that it left.
fn count(figures: &mut Figures, args: &[u8], answer: Result<Answer, Fault>, memory: &[u8]) {
    let Some(status) = place_of(answer) else { return };
    let Some(token) = (word(args, 0) as usize).checked_sub(1).filter(|token| *token < 4) else { return };
    figures.calls[token][status] += 1;
    figures.token_calls[token] += 1;
    if token == Token::UpdateNodes.place() && answer.is_ok() {
        let area = &memory[word(args, 12) as usize..][..4096];
        figures.operations += read_nodes(area, word(args, 16) as i32).unwrap().len() as u64;
        figures.used += words_used(area) as u64;
        figures.available += 1019;
    }
}

/// The figures of a trace, whose calls are made once more, one by one.
fn by_hand(platform: &Platform, trace: &[u8]) -> Figures {
    let mut figures = Figures::default();
    let mut memory = platform.memory.clone();
    let (mut registration, mut reading) = (Registration::none(), ReadingRecord::none());
    for (kind, mut body) in records(trace) {
        match kind {
            32 => {
                let Platform { journal, inventory, edition, .. } = platform;
                let answer =
                    call(&mut body, &mut memory, journal, inventory, *edition, &mut registration, &mut reading);
                count(&mut figures, &body, answer, &memory);
            }
            34 => {
                let address = u32::from_le_bytes(body[..4].try_into().unwrap()) as usize;
                memory[address..address + body.len() - 4].copy_from_slice(&body[4..]);
            }
            _ => {}
        }
    }
    figures
}

#[test]
fn a_session_counts_what_it_counts_by_hand() {
    let mut all = Figures::default();
    for seed in 0..SESSIONS {
        let (mut random, platform, session) = session(seed);
        let (mut totals, figures) = (Totals::none(), by_hand(&platform, &session.trace));
        let calls = session.calls.len() as u32;
        assert_eq!(totals.add(&counted(&mut random, &platform, &session.trace)), Ok(calls), "{seed}");
        assert_eq!(totals.figures(), figures, "{seed}");
        for (all, calls) in all.calls.iter_mut().flatten().zip(figures.calls.as_flattened()) {
            *all += calls;
        }
        all.used += figures.used;
    }
    // All statuses of update-nodes and of get-indices but -4 come up, and words.
    for (token, statuses) in [(0, &[0, 1, 2, 3][..]), (1, &[0, 1, 2, 3]), (2, &[0, 3, 5]), (3, &[0, 1, 2, 3])] {
        assert!(statuses.iter().all(|status| all.calls[token][*status] > 0), "{token} {all:?}");
    }
    assert!(all.used > 10_000);
}

#[test]
fn totals_are_the_same_in_any_order_and_by_parts() {
    let parts: Vec<Counted> = (0..9)
        .map(|seed| {
            let (mut random, platform, session) = session(seed);
            counted(&mut random, &platform, &session.trace)
        })
        .collect();
    let sum = |parts: &mut dyn Iterator<Item = &Counted>| {
        let mut totals = Totals::none();
        parts.for_each(|part| _ = totals.add(part).unwrap());
        totals
    };
    let all = sum(&mut parts.iter());
    assert_eq!(sum(&mut parts.iter().rev()), all);
    let mut merged = sum(&mut parts[..4].iter());
    merged.merge(&sum(&mut parts[4..].iter()).figures()).unwrap();
    assert_eq!(merged, all);
}

#[test]
fn a_session_that_is_cut_off_adds_nothing() {
    for seed in 0..SESSIONS {
        let (mut random, platform, session) = session(seed);
        let cut = &session.trace[..session.trace.len() - 1];
        let mut totals = Totals::none();
        let refusal = totals.add(&counted(&mut random, &platform, cut)).unwrap_err();
        assert!(matches!(refusal, NotAdded::Report(Report::Malformed { .. })), "{seed} {refusal}");
        assert_eq!(totals, Totals::none());
    }
}
