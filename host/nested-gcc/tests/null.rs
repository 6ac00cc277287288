//! The functions of `include/nested_gcc.h`, called as a C host calls them, with NULL for each buffer that has length 0,
//! as an empty `std::vector` may have. Every expected number and byte is typed by hand.

use std::ptr::{null, null_mut};

// The crate has the archive linked.
use nested_gcc as _;

#[repr(C)]
#[derive(Clone, Copy)]
struct State {
    record: [usize; 7],
    masks: [u32; 256],
    cells: [u16; 16528],
    heights: [u16; 256],
    trail: [u8; 25088],
}

extern "C" {
    fn nested_gcc_open_in(
        book: *const u8,
        book_len: usize,
        masks: *mut u32,
        masks_len: usize,
        cells: *mut u16,
        cells_len: usize,
        trail: *mut u8,
        trail_len: usize,
        heights: *mut u16,
        heights_len: usize,
        record: *mut usize,
        record_len: usize,
    ) -> u32;
    fn nested_gcc_step_in(
        calls: *const u8,
        calls_len: usize,
        answers: *mut u32,
        answers_len: usize,
        masks: *mut u32,
        masks_len: usize,
        cells: *mut u16,
        cells_len: usize,
        trail: *mut u8,
        trail_len: usize,
        heights: *mut u16,
        heights_len: usize,
        record: *mut usize,
        record_len: usize,
    ) -> u32;
    fn nested_gcc_check(book: *const u8, book_len: usize) -> u32;
    fn nested_gcc_import_csv(text: *const u8, text_len: usize, book: *mut u8, book_len: usize) -> u32;
    fn nested_gcc_close(
        book: *const u8,
        book_len: usize,
        lowers: *mut u8,
        lowers_len: usize,
        uppers: *mut u8,
        uppers_len: usize,
    ) -> u32;
    fn nested_gcc_settle(book: *const u8, book_len: usize, masks: *mut u8, masks_len: usize) -> u32;
    fn nested_gcc_session(
        book: *const u8,
        book_len: usize,
        calls: *const u8,
        calls_len: usize,
        answers: *mut u8,
        answers_len: usize,
        masks: *mut u8,
        masks_len: usize,
    ) -> u32;
    fn nested_gcc_probe(
        book: *const u8,
        book_len: usize,
        calls: *const u8,
        calls_len: usize,
        dead: *mut u8,
        dead_len: usize,
    ) -> u32;
    fn nested_gcc_canonical(book: *const u8, book_len: usize, out: *mut u8, out_len: usize) -> u32;
}

/// One slot, two types, no rows: live, with mask 3.
const LIVE: [u8; 16] = [1, 0, 2, 0, 0, 0, 12, 0, 16, 0, 16, 0, 3, 0, 0, 0];

/// One slot, one type, one row: type 0, end 1, lower 2, no upper. It is dead.
const DEAD: [u8; 24] = [1, 0, 1, 0, 1, 0, 12, 0, 16, 0, 24, 0, 1, 0, 0, 0, 0, 0, 1, 0, 2, 0, 255, 255];

/// A show of slot 0.
const CALL: [u8; 4] = [5, 0, 0, 0];

/// What an output holds at first.
const OLD: u8 = 0xa5;

#[test]
fn check_without_a_book() {
    // SAFETY: no byte is lent.
    assert_eq!(unsafe { nested_gcc_check(null(), 0) }, 257);
}

/// `nested_gcc_import_csv` with `None` as NULL and 0, and what it left in the output if that is lent.
fn import_csv(text: Option<&[u8]>, with_book: bool) -> (u32, [u8; 17]) {
    let mut book = [OLD; 17];
    let (book_at, book_len) = if with_book { (book.as_mut_ptr(), 17) } else { (null_mut(), 0) };
    let (text_at, text_len) = text.map_or((null(), 0), |text| (text.as_ptr(), text.len()));
    // SAFETY: each pointer has so many bytes, apart from the other, or is NULL with length 0.
    let answer = unsafe { nested_gcc_import_csv(text_at, text_len, book_at, book_len) };
    (answer, book)
}

#[test]
fn import_csv_with_null() {
    let old = [OLD; 17];
    // 18: a text without a byte is one empty field, whether there is room for a book or not.
    assert_eq!(import_csv(None, false), (274, old));
    assert_eq!(import_csv(None, true), (274, old));
    // 9: there is no room for the book. The other numbers come before it.
    assert_eq!(import_csv(Some(b"1,2"), false), (265, old));
    assert_eq!(import_csv(Some(b"1,\"2"), false), (273, old));
    assert_eq!(import_csv(Some(b"1,33"), false), (258, old));
    // Nothing NULL: the book LIVE.
    let (answer, book) = import_csv(Some(b"1,2"), true);
    assert_eq!((answer, &book[..16], book[16]), (0, &LIVE[..], OLD));
}

/// `nested_gcc_close` with `None` as NULL and 0, and what it left in the outputs that are lent.
fn close(book: Option<&[u8]>, with_lowers: bool, with_uppers: bool) -> (u32, [u8; 9], [u8; 9]) {
    let (mut lowers, mut uppers) = ([OLD; 9], [OLD; 9]);
    let (lowers_at, lowers_len) = if with_lowers { (lowers.as_mut_ptr(), 9) } else { (null_mut(), 0) };
    let (uppers_at, uppers_len) = if with_uppers { (uppers.as_mut_ptr(), 9) } else { (null_mut(), 0) };
    let (book_at, book_len) = book.map_or((null(), 0), |book| (book.as_ptr(), book.len()));
    // SAFETY: each pointer has so many bytes, apart from the others, or is NULL with length 0.
    let answer = unsafe { nested_gcc_close(book_at, book_len, lowers_at, lowers_len, uppers_at, uppers_len) };
    (answer, lowers, uppers)
}

#[test]
fn close_with_null() {
    let old = [OLD; 9];
    for book in [None, Some(&LIVE[..]), Some(&DEAD[..])] {
        for (with_lowers, with_uppers) in [(false, false), (false, true), (true, false), (true, true)] {
            // 1 for no book; 9 for an output too short, be the book live or dead. A refusal writes nothing.
            let refusal = match book {
                None => 257,
                Some(_) if !with_lowers || !with_uppers => 265,
                Some(_) => continue,
            };
            assert_eq!(
                close(book, with_lowers, with_uppers),
                (refusal, old, old),
                "{book:?} {with_lowers} {with_uppers}"
            );
        }
    }
    // Beside those a call with nothing NULL, so that the buffers above are known to be good: two types, ends 0 and 1.
    let (answer, lowers, uppers) = close(Some(&LIVE), true, true);
    assert_eq!((answer, lowers), (0, [0, 0, 0, 0, 0, 0, 0, 0, OLD]));
    assert_eq!(uppers, [0, 0, 1, 0, 0, 0, 1, 0, OLD]);
}

/// `nested_gcc_settle` with `None` as NULL and 0, and what it left in the output if that is lent.
fn settle(book: Option<&[u8]>, with_masks: bool) -> (u32, [u8; 5]) {
    let mut masks = [OLD; 5];
    let (masks_at, masks_len) = if with_masks { (masks.as_mut_ptr(), 5) } else { (null_mut(), 0) };
    let (book_at, book_len) = book.map_or((null(), 0), |book| (book.as_ptr(), book.len()));
    // SAFETY: each pointer has so many bytes, apart from the other, or is NULL with length 0.
    let answer = unsafe { nested_gcc_settle(book_at, book_len, masks_at, masks_len) };
    (answer, masks)
}

#[test]
fn settle_with_null() {
    let old = [OLD; 5];
    assert_eq!(settle(None, false), (257, old));
    assert_eq!(settle(None, true), (257, old));
    assert_eq!(settle(Some(&LIVE), false), (265, old));
    assert_eq!(settle(Some(&DEAD), false), (265, old));
    assert_eq!(settle(Some(&LIVE), true), (0, [3, 0, 0, 0, OLD]));
}

/// `nested_gcc_session` with `None` as NULL and 0, and what it left in the outputs that are lent.
fn session(
    book: Option<&[u8]>,
    calls: Option<&[u8]>,
    with_answers: bool,
    with_masks: bool,
) -> (u32, [u8; 9], [u8; 5]) {
    let (mut answers, mut masks) = ([OLD; 9], [OLD; 5]);
    let (answers_at, answers_len) = if with_answers { (answers.as_mut_ptr(), 9) } else { (null_mut(), 0) };
    let (masks_at, masks_len) = if with_masks { (masks.as_mut_ptr(), 5) } else { (null_mut(), 0) };
    let (book_at, book_len) = book.map_or((null(), 0), |book| (book.as_ptr(), book.len()));
    let (calls_at, calls_len) = calls.map_or((null(), 0), |calls| (calls.as_ptr(), calls.len()));
    // SAFETY: each pointer has so many bytes, apart from the others, or is NULL with length 0.
    let answer = unsafe {
        nested_gcc_session(
            book_at,
            book_len,
            calls_at,
            calls_len,
            answers_at,
            answers_len,
            masks_at,
            masks_len,
        )
    };
    (answer, answers, masks)
}

#[test]
fn session_with_null() {
    let (old_answers, old_masks) = ([OLD; 9], [OLD; 5]);
    // No book: 1, whatever else is NULL.
    for calls in [None, Some(&CALL[..])] {
        for (with_answers, with_masks) in [(false, false), (false, true), (true, false), (true, true)] {
            let left = session(None, calls, with_answers, with_masks);
            assert_eq!(left, (257, old_answers, old_masks), "{calls:?} {with_answers} {with_masks}");
        }
    }
    // A list without calls is good, and needs no answers; the masks are written, 0 of a dead book.
    for with_answers in [false, true] {
        assert_eq!(session(Some(&LIVE), None, with_answers, true), (0, old_answers, [3, 0, 0, 0, OLD]));
        assert_eq!(session(Some(&DEAD), None, with_answers, true), (1, old_answers, [0, 0, 0, 0, OLD]));
        // 9: there is no room for the mask.
        assert_eq!(session(Some(&LIVE), None, with_answers, false), (265, old_answers, old_masks));
        assert_eq!(session(Some(&DEAD), None, with_answers, false), (265, old_answers, old_masks));
    }
    // 9: there is no room for the answer.
    assert_eq!(session(Some(&LIVE), Some(&CALL), false, true), (265, old_answers, old_masks));
    // 10 comes before 9.
    assert_eq!(session(Some(&LIVE), Some(&CALL[..3]), false, false), (266, old_answers, old_masks));
    // Nothing NULL: the value 3.
    let whole = (0, [2, 0, 0, 0, 3, 0, 0, 0, OLD], [3, 0, 0, 0, OLD]);
    assert_eq!(session(Some(&LIVE), Some(&CALL), true, true), whole);
}

/// `nested_gcc_probe` with `None` as NULL and 0, and what it left in the output if that is lent.
fn probe(book: Option<&[u8]>, calls: Option<&[u8]>, with_dead: bool) -> (u32, [u8; 2]) {
    let mut dead = [OLD; 2];
    let (dead_at, dead_len) = if with_dead { (dead.as_mut_ptr(), 2) } else { (null_mut(), 0) };
    let (book_at, book_len) = book.map_or((null(), 0), |book| (book.as_ptr(), book.len()));
    let (calls_at, calls_len) = calls.map_or((null(), 0), |calls| (calls.as_ptr(), calls.len()));
    // SAFETY: each pointer has so many bytes, apart from the others, or is NULL with length 0.
    let answer = unsafe { nested_gcc_probe(book_at, book_len, calls_at, calls_len, dead_at, dead_len) };
    (answer, dead)
}

#[test]
fn probe_with_null() {
    let old = [OLD; 2];
    // Type 0 in slot 0.
    let pick = [1, 0, 0, 0];
    for with_dead in [false, true] {
        // No book: 1, whatever else is NULL.
        assert_eq!(probe(None, None, with_dead), (257, old));
        assert_eq!(probe(None, Some(&pick), with_dead), (257, old));
        assert_eq!(probe(None, Some(&CALL[..3]), with_dead), (257, old));
        // A list without calls is good, and needs no output.
        assert_eq!(probe(Some(&LIVE), None, with_dead), (0, old));
        assert_eq!(probe(Some(&DEAD), None, with_dead), (1, old));
        for book in [&LIVE[..], &DEAD[..]] {
            // 10; 11, a show; 12, slot 1; 13, type 2. They come before 9.
            assert_eq!(probe(Some(book), Some(&pick[..3]), with_dead), (266, old));
            assert_eq!(probe(Some(book), Some(&CALL), with_dead), (267, old));
            assert_eq!(probe(Some(book), Some(&[1, 0, 1, 0]), with_dead), (268, old));
            assert_eq!(probe(Some(book), Some(&[1, 2, 0, 0]), with_dead), (269, old));
        }
    }
    // 9: there is no room for the byte.
    assert_eq!(probe(Some(&LIVE), Some(&pick), false), (265, old));
    assert_eq!(probe(Some(&DEAD), Some(&pick), false), (265, old));
    // Nothing NULL.
    assert_eq!(probe(Some(&LIVE), Some(&pick), true), (0, [0, OLD]));
    assert_eq!(probe(Some(&DEAD), Some(&pick), true), (1, [1, OLD]));
}

/// `nested_gcc_canonical` with `None` as NULL and 0, and what it left in the output if that is lent.
fn canonical(book: Option<&[u8]>, with_out: bool) -> (u32, [u8; 17]) {
    let mut out = [OLD; 17];
    let (out_at, out_len) = if with_out { (out.as_mut_ptr(), 17) } else { (null_mut(), 0) };
    let (book_at, book_len) = book.map_or((null(), 0), |book| (book.as_ptr(), book.len()));
    // SAFETY: each pointer has so many bytes, apart from the other, or is NULL with length 0.
    let answer = unsafe { nested_gcc_canonical(book_at, book_len, out_at, out_len) };
    (answer, out)
}

#[test]
fn canonical_with_null() {
    let old = [OLD; 17];
    // No book: 1, whether there is room for another or not.
    assert_eq!(canonical(None, false), (257, old));
    assert_eq!(canonical(None, true), (257, old));
    // 9: there is no room for the canonical book. The other numbers come before it, and so does dead.
    assert_eq!(canonical(Some(&LIVE), false), (265, old));
    assert_eq!(canonical(Some(&LIVE[..15]), false), (260, old));
    assert_eq!(canonical(Some(&DEAD), false), (1, old));
    assert_eq!(canonical(Some(&DEAD), true), (1, old));
    // Nothing NULL: LIVE is its own canonical book.
    let (answer, out) = canonical(Some(&LIVE), true);
    assert_eq!((answer, &out[..16], out[16]), (0, &LIVE[..], OLD));
}

/// 19 comes before 9: 256 slots and 32 types; of type 0 one within 2 slots, two within 4, up to 33 within 66. That
/// needs 33 rows for each type.
#[test]
fn canonical_of_too_many_rows_with_null() {
    let mut book = vec![0, 1, 32, 0, 33, 0, 12, 0, 12, 4, 20, 5];
    book.extend([255; 4 * 256]);
    for step in 1..=33 {
        book.extend([0, 0, 2 * step, 0, step, 0, 255, 255]);
    }
    assert_eq!(canonical(Some(&book), false), (275, [OLD; 17]));
    assert_eq!(canonical(Some(&book), true), (275, [OLD; 17]));
}

/// A state, all of its numbers 7.
fn painted() -> Box<State> {
    Box::new(State {
        record: [7; 7],
        masks: [7; 256],
        cells: [7; 16528],
        heights: [7; 256],
        trail: [7; 25088],
    })
}

/// `nested_gcc_open_in` with `None` as NULL and 0 for the book, and so too for the slices of the state that are not lent:
/// masks, cells, trail, heights, record.
fn open(book: Option<&[u8]>, lent: [bool; 5], state: &mut State) -> u32 {
    fn part<T>(lent: bool, slice: &mut [T]) -> (*mut T, usize) {
        if lent {
            (slice.as_mut_ptr(), slice.len())
        } else {
            (null_mut(), 0)
        }
    }
    let (book_at, book_len) = book.map_or((null(), 0), |book| (book.as_ptr(), book.len()));
    let (masks_at, masks_len) = part(lent[0], &mut state.masks);
    let (cells_at, cells_len) = part(lent[1], &mut state.cells);
    let (trail_at, trail_len) = part(lent[2], &mut state.trail);
    let (heights_at, heights_len) = part(lent[3], &mut state.heights);
    let (record_at, record_len) = part(lent[4], &mut state.record);
    // SAFETY: each pointer has so many elements, apart from the others, or is NULL with length 0.
    unsafe {
        nested_gcc_open_in(
            book_at,
            book_len,
            masks_at,
            masks_len,
            cells_at,
            cells_len,
            trail_at,
            trail_len,
            heights_at,
            heights_len,
            record_at,
            record_len,
        )
    }
}

fn is_painted(state: &State) -> bool {
    let State { record, masks, cells, heights, trail } = state;
    *record == [7; 7]
        && *masks == [7; 256]
        && *cells == [7; 16528]
        && *heights == [7; 256]
        && *trail == [7; 25088]
}

#[test]
fn open_with_null() {
    let all = [true; 5];
    let mut state = painted();
    for mask in 0..32u8 {
        let lent = [0, 1, 2, 3, 4].map(|slice| mask >> slice & 1 == 1);
        assert_eq!(open(None, lent, &mut state), 257, "{lent:?}");
        if lent != all {
            assert_eq!(open(Some(&LIVE), lent, &mut state), 265, "{lent:?}");
            assert_eq!(open(Some(&DEAD), lent, &mut state), 265, "{lent:?}");
        }
        assert!(is_painted(&state), "{lent:?}");
    }
    assert_eq!(open(Some(&LIVE), all, &mut state), 0);
    assert_eq!((state.masks[0], state.masks[1], state.record[0]), (3, 7, 1));
}

/// `nested_gcc_step_in` with `None` as NULL and 0, and what it left in the answers.
fn step(state: &mut State, calls: Option<&[u8]>, with_answers: bool) -> (u32, [u32; 3]) {
    let mut answers = [7; 3];
    let (calls_at, calls_len) = calls.map_or((null(), 0), |calls| (calls.as_ptr(), calls.len()));
    let (answers_at, answers_len) = if with_answers { (answers.as_mut_ptr(), 3) } else { (null_mut(), 0) };
    // SAFETY: each pointer has so many elements, apart from the others, or is NULL with length 0; the state is opened.
    let answer = unsafe {
        nested_gcc_step_in(
            calls_at,
            calls_len,
            answers_at,
            answers_len,
            state.masks.as_mut_ptr(),
            256,
            state.cells.as_mut_ptr(),
            16528,
            state.trail.as_mut_ptr(),
            25088,
            state.heights.as_mut_ptr(),
            256,
            state.record.as_mut_ptr(),
            7,
        )
    };
    (answer, answers)
}

#[test]
fn step_with_null() {
    for (book, stands) in [(&LIVE[..], 0), (&DEAD[..], 1)] {
        let mut state = painted();
        assert_eq!(open(Some(book), [true; 5], &mut state), stands);
        // A list without calls is good, and needs no answers.
        assert_eq!(step(&mut state, None, false), (stands, [7; 3]));
        assert_eq!(step(&mut state, None, true), (stands, [7; 3]));
        // 9: there is no room for the answer. 10 comes before 9.
        assert_eq!(step(&mut state, Some(&CALL), false), (265, [7; 3]));
        assert_eq!(step(&mut state, Some(&CALL[..3]), false), (266, [7; 3]));
        assert_eq!(state.record[2], 0);
        // Nothing NULL: the value 3, or 0 of a dead book.
        let mask = if stands == 0 { 3 } else { 0 };
        assert_eq!(step(&mut state, Some(&CALL), true), (stands, [2, mask, 7]));
        assert_eq!(state.record[2], 1);
    }
}
