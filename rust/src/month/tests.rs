use super::{Counted, CountingReplay, Figures, NotAdded, NotMerged, Share, Status, Token, Totals};
use crate::{args, ffi, Edition, Recorder, Report};

/// A delete of the node 0x2a: one operation, two words.
const JOURNAL: [u8; 10] = [8, 0, 1, 0, 11, 0, 0x2a, 0, 0, 0];

/// One update-nodes that is answered, one that is refused, a token of no call, and a buffer that is too short.
fn trace() -> Vec<u8> {
    let (mut trace, mut memory) = (vec![], [0; 4096]);
    let mut recorder = Recorder::new(&mut trace, &mut memory, &JOURNAL, &[], Edition(0));
    recorder.call(&mut args::update_nodes(0, 1)).unwrap().unwrap();
    recorder.call(&mut args::update_nodes(4, 1)).unwrap().unwrap_err();
    recorder.call(&mut [0, 0, 0, 9, 0, 0, 0, 0, 0, 0, 0, 1, 0, 0, 0, 0]).unwrap().unwrap_err();
    recorder.call(&mut [0; 11]).unwrap().unwrap_err();
    trace
}

/// What a trace counts that is fed in bursts of so many bytes.
fn counted(trace: &[u8], burst: usize) -> Counted {
    let mut memory = [0; 4096];
    let mut replay = CountingReplay::new(&mut memory, &JOURNAL, &[], Edition(0));
    trace.chunks(burst).for_each(|part| _ = replay.feed(part));
    replay.counted()
}

/// The figures of so many such traces.
fn figures(traces: u64) -> Figures {
    let mut figures = Figures { operations: traces, used: 2 * traces, available: 1019 * traces, ..Figures::default() };
    figures.calls[0][0] = traces;
    figures.calls[0][3] = traces;
    figures.token_calls[0] = 2 * traces;
    figures
}

#[test]
fn places_are_those_of_the_lists() {
    for (place, token) in Token::ALL.into_iter().enumerate() {
        assert_eq!((token.place(), token as usize), (place, place + 1));
    }
    for (place, status) in Status::ALL.into_iter().enumerate() {
        assert_eq!(status.place(), place);
    }
}

#[test]
fn a_trace_counts_the_same_however_it_is_cut() {
    let trace = trace();
    for burst in [1, 2, 7, 27, 28, 1000] {
        let mut totals = Totals::none();
        assert_eq!(totals.add(&counted(&trace, burst)), Ok(4));
        assert_eq!(totals.figures(), figures(1), "{burst}");
        assert_eq!(totals.add(&counted(&trace, burst)), Ok(4));
        assert_eq!(totals.figures(), figures(2), "{burst}");
    }
}

#[test]
fn each_figure_has_its_name() {
    let mut totals = Totals::none();
    assert_eq!(totals.share(), Share { part: 0, whole: 1 });
    totals.add(&counted(&trace(), 100)).unwrap();
    assert_eq!(totals.calls(Token::UpdateNodes, Status::Done), 1);
    assert_eq!(totals.calls(Token::UpdateNodes, Status::Parameter), 1);
    assert_eq!(totals.calls(Token::GetIndices, Status::Done), 0);
    assert_eq!(totals.token_calls(Token::UpdateNodes), 2);
    assert_eq!((totals.operations(), totals.used(), totals.available()), (1, 2, 1019));
    assert_eq!(totals.share(), Share { part: 2, whole: 1019 });
}

#[test]
fn what_is_astray_adds_nothing() {
    let mut trace = trace();
    let mut totals = Totals::none();
    totals.add(&counted(&trace, 100)).unwrap();
    let malformed = NotAdded::Report(Report::Malformed { record: 7 });
    assert_eq!(totals.add(&counted(&trace[..trace.len() - 1], 100)), Err(malformed));
    let end = trace.len() - 1;
    trace[end] = 7;
    let differs = NotAdded::Report(Report::Differs { call: 4, offset: 10 });
    assert_eq!(totals.add(&counted(&trace, 100)), Err(differs));
    assert_eq!((totals.figures(), differs.to_string()), (figures(1), String::from("differs call 4 at 10")));
}

/// Totals with the most calls of get-indices that there can be.
fn full() -> Figures {
    let mut full = Figures::default();
    full.calls[1][0] = u64::MAX;
    full.token_calls[1] = u64::MAX;
    full
}

#[test]
fn no_total_passes_the_limit() {
    let mut totals = Totals::none();
    totals.merge(&full()).unwrap();
    totals.add(&counted(&trace(), 100)).unwrap();
    let before = totals;
    let mut one = Figures::default();
    one.calls[1][2] = 1;
    one.token_calls[1] = 1;
    assert_eq!((totals.merge(&one), totals), (Err(NotMerged::PastLimit), before));
    let most = u64::MAX / 1019;
    totals.merge(&figures(most - 1)).unwrap();
    let before = totals;
    assert_eq!((totals.add(&counted(&trace(), 100)), totals), (Err(NotAdded::PastLimit), before));
    assert_eq!(NotAdded::PastLimit.to_string(), "a total would pass 2^64 - 1");
}

#[test]
fn figures_of_no_traces_are_not_merged() {
    let mut totals = Totals::none();
    let wrongs: [fn(&mut Figures); 4] = [
        |wrong| wrong.token_calls[3] += 1,
        |wrong| wrong.available += 1,
        |wrong| wrong.operations = wrong.used + 1,
        |wrong| wrong.used = wrong.available + 1,
    ];
    for make in wrongs {
        let mut wrong = figures(3);
        make(&mut wrong);
        assert_eq!((totals.merge(&wrong), totals), (Err(NotMerged::NoTotals), Totals::none()));
    }
}

/// A state that the library never gave has the numbers of the header, and is not taken.
#[test]
fn a_state_of_no_feed_is_refused() {
    let mut state = ffi::month_start(0);
    state.counts.calls[0][0] = 1;
    assert_eq!(ffi::month_add(Figures::default().flat(), state).number, 14);
    let (mut held, mut args) = ([0; 4104], [0; 4100]);
    assert_eq!(ffi::month_feed(&mut held, &mut args, &mut [], &[], &[], state, &[]).number, 14);
    assert_eq!(ffi::month_feed(&mut held[1..], &mut args, &mut [], &[], &[], state, &[]).number, 15);
}
