//! One place to ask for a location (M-112).

use draugsten::{
    lookup, read_indices, Entry, IndexView, NotLocated, Reason, Refusal, ViewStep, CODE_LIMIT, FIELD_LIMIT,
};

/// An area of these sets, each an index and a code.
fn area(sets: &[(u32, &[u8])]) -> Vec<u8> {
    let mut area = (sets.len() as u32).to_be_bytes().to_vec();
    for (index, code) in sets {
        let length = 4 * (code.len() / 4 + 1);
        area.extend(index.to_be_bytes().into_iter().chain((length as u32).to_be_bytes()));
        area.extend_from_slice(code);
        area.resize(area.len() + length - code.len(), 0);
    }
    area
}

fn refused(reason: Reason, offset: usize) -> NotLocated {
    NotLocated::Refused(Refusal { reason, offset })
}

/// The offset of a part in its buffer; none where it is no part of it.
fn offset_in(buffer: &[u8], part: &[u8]) -> Option<usize> {
    let offset = (part.as_ptr() as usize).checked_sub(buffer.as_ptr() as usize)?;
    (offset + part.len() <= buffer.len()).then_some(offset)
}

#[test]
fn an_index_that_the_area_lists_wins_by_its_first_entry() {
    let area = area(&[(1, b"one"), (2, b"two"), (2, b"again")]);
    let fixed = b"zero\0fixed\0third\0fourth\0";
    let found = |index| lookup(&area, fixed, index).unwrap();
    assert_eq!([found(0), found(1), found(2), found(3)], [&b"zero"[..], b"one", b"two", b"fourth"]);
    assert_eq!(offset_in(&area, found(2)), Some(24));
    assert_eq!(offset_in(fixed, found(3)), Some(17));
}

#[test]
fn entries_of_the_fixed_list() {
    let none = area(&[]);
    let found = |fixed: &'static [u8], index| lookup(&none, fixed, index).map(<[u8]>::to_vec);
    assert_eq!(found(b"a\0b\0c\0", 0), Ok(b"a".to_vec()));
    assert_eq!(found(b"a\0b\0c\0", 2), Ok(b"c".to_vec()));
    assert_eq!(found(b"a\0\0c\0", 2), Ok(b"c".to_vec()));
    for (fixed, index) in [(&b""[..], 0), (b"\0", 0), (b"a", 0), (b"a\0b", 1), (b"a\0\0c\0", 1), (b"a\0", 1)] {
        assert_eq!(found(fixed, index), Err(NotLocated::NotFound), "{fixed:?}, {index}");
    }
    let long = [vec![b'x'; 70_000], b"\0y\0".to_vec()].concat();
    assert_eq!(lookup(&none, &long, 0).map(<[u8]>::len), Ok(70_000));
    assert_eq!(lookup(&none, &long, 1), Ok(&b"y"[..]));
}

#[test]
fn a_refused_area_refuses_every_index() {
    let mut area = area(&[(1, b"one"), (2, b"two")]);
    area[27] = b'x';
    for index in [0, 1, 2, 3, u32::MAX] {
        let refusal = lookup(&area, b"zero\0fixed\0", index).unwrap_err();
        assert_eq!(refusal, refused(Reason::Code, 16));
        assert_eq!((refusal.number(), refusal.to_string().starts_with("refused 33 at 16: ")), (33, true));
    }
    assert_eq!(lookup(&area[..3], b"zero\0", 0), Err(refused(Reason::NoCount, 0)));
    assert_eq!(lookup(&area[..15], b"zero\0", 0), Err(refused(Reason::SetPastEnd, 4)));
    area[23] = 5;
    assert_eq!(lookup(&area, b"zero\0", 0), Err(refused(Reason::CodeLength, 16)));
}

#[test]
fn the_largest_index_is_never_found() {
    let listed = area(&[(u32::MAX, b"code"), (u32::MAX - 1, b"other")]);
    let missed = lookup(&listed, b"zero\0", u32::MAX).unwrap_err();
    assert_eq!((missed, missed.number(), missed.to_string()), (NotLocated::NotFound, 34, String::from("not found")));
    assert_eq!(lookup(&listed, b"zero\0", u32::MAX - 1), Ok(&b"other"[..]));
}

#[test]
fn the_longest_code() {
    let code = vec![b'U'; CODE_LIMIT];
    let listed = area(&[(7, &code)]);
    assert_eq!((listed.len(), lookup(&listed, b"", 7)), (12 + FIELD_LIMIT, Ok(&code[..])));
    let longer = area(&[(7, &[b'U'; CODE_LIMIT + 1])]);
    assert_eq!(lookup(&longer, b"", 7), Err(refused(Reason::CodeLength, 4)));
}

#[test]
fn a_view_gives_the_entries_then_the_end_again_and_again() {
    let area = area(&[(5, b"a"), (6, b"bcde"), (5, b"f")]);
    let mut view = IndexView::new(&area);
    for entry in read_indices(&area).unwrap() {
        assert_eq!(view.step(), ViewStep::Entry(entry));
    }
    assert_eq!([view.step(), view.step(), view.step()], [ViewStep::End; 3]);
    let mut empty = IndexView::new(b"\0\0\0\0rest");
    assert_eq!([empty.step(), empty.step()], [ViewStep::End; 2]);
    assert_eq!(empty.area(), b"\0\0\0\0rest");
}

#[test]
fn a_view_of_a_refused_area_gives_what_stands_before_the_fault() {
    let mut area = area(&[(5, b"a"), (6, b"bcde"), (7, b"f")]);
    area[4 + 12 + 16 + 7] = 3;
    let mut view = IndexView::new(&area);
    assert_eq!(view.step(), ViewStep::Entry(Entry { index: 5, code: b"a" }));
    assert_eq!(view.step(), ViewStep::Entry(Entry { index: 6, code: b"bcde" }));
    let refusal = Refusal { reason: Reason::CodeLength, offset: 32 };
    assert_eq!([view.step(), view.step(), view.step()], [ViewStep::Refused(refusal); 3]);
    let mut short = IndexView::new(&area[..3]);
    let refusal = Refusal { reason: Reason::NoCount, offset: 0 };
    assert_eq!([short.step(), short.step()], [ViewStep::Refused(refusal); 2]);
}

#[test]
fn an_iterator_gives_a_refusal_once() {
    let whole = area(&[(5, b"a"), (6, b"bcde")]);
    let mut entries = IndexView::new(&whole).into_iter();
    assert_eq!(entries.by_ref().map(|entry| entry.unwrap().index).collect::<Vec<_>>(), [5, 6]);
    assert_eq!([entries.next(), entries.next()], [None, None]);
    let collected: Result<Vec<_>, _> = IndexView::new(&whole).into_iter().collect();
    assert_eq!(collected, read_indices(&whole));

    let cut = &whole[..whole.len() - 1];
    let refusal = Refusal { reason: Reason::SetPastEnd, offset: 16 };
    let mut entries = IndexView::new(cut).into_iter();
    assert_eq!(entries.next(), Some(Ok(Entry { index: 5, code: b"a" })));
    assert_eq!([entries.next(), entries.next(), entries.next()], [Some(Err(refusal)), None, None]);
    let collected: Result<Vec<_>, _> = IndexView::new(cut).into_iter().collect();
    assert_eq!(collected, Err(refusal));
    assert_eq!(IndexView::new(&[]).into_iter().count(), 1);
}

#[test]
fn an_iterator_goes_on_from_the_views_position() {
    let area = area(&[(5, b"a"), (6, b"b"), (7, b"c")]);
    let mut view = IndexView::new(&area);
    view.step();
    let rest: Vec<u32> = view.clone().into_iter().map(|entry| entry.unwrap().index).collect();
    assert_eq!(rest, [6, 7]);
    assert_eq!(view.step(), ViewStep::Entry(Entry { index: 6, code: b"b" }));
}
