//! `session` on the run M8 of `docs/SPECIFICATION.md`, on each kind of call and each refusal, with every expected
//! word typed by hand; what it writes, and what it leaves, for lengths about the least that will do.

mod chains;
mod lent;

use lent::Lent;
use nested_gcc::{
    session, session_into, Answer, Book, CallRefusal, Calls, Refusal, Session, Verdict, ANSWERS_BYTES,
    CALLS_BYTES, MASKS_BYTES,
};

/// n = 3, k = 2, masks 3 3 3, one row: type 0, end 2, lower 1, no upper.
fn m8() -> Book {
    Book::new(3, 2).row(0, 2, 1, None)
}

/// n = 2, k = 2, lower 1 at end 1 for types 0 and 1: dead in closing.
fn m6() -> Book {
    Book::new(2, 2).row(0, 1, 1, None).row(1, 1, 1, None)
}

/// Two slots have only type 0, of which one is allowed: it closes, and does not settle. On masks 0 the formula
/// would find an upper wall of type 0 at end 2.
fn unsettled() -> Book {
    Book::new(2, 2).mask(0, 1).mask(1, 1).row(0, 2, 0, Some(1))
}

/// The book with these masks.
fn with_masks(book: Book, masks: &[u32]) -> Book {
    masks.iter().enumerate().fold(book, |book, (slot, &mask)| book.mask(slot, mask))
}

fn bytes(words: &[u32]) -> Vec<u8> {
    words.iter().flat_map(|word| word.to_le_bytes()).collect()
}

/// Makes the calls of `run`, each with the two words that it answers, on a session that opens like this.
fn assert_run(book: &Book, opened: Verdict, run: &[([u8; 4], [u32; 2])], masks: &[u32]) {
    let calls: Vec<[u8; 4]> = run.iter().map(|&(call, _)| call).collect();
    let words: Vec<[u32; 2]> = run.iter().map(|&(_, words)| words).collect();
    let session = session(&book.to_bytes(), &calls.concat()).expect("an accepted list");
    assert_eq!(session.opened, opened, "{book:?}");
    let answers: Vec<[u32; 2]> = session.answers.iter().map(|answer| answer.words()).collect();
    for (at, call) in calls.iter().enumerate() {
        assert_eq!(answers[at], words[at], "call {at}, {call:?}, of {book:?}");
    }
    assert_eq!(answers.len(), calls.len());
    assert_eq!(session.masks, masks, "{book:?}");
}

#[test]
fn m8_run() {
    let run = [
        ([3, 0, 0, 0], [3, 0]),
        ([1, 1, 0, 0], [0, 2]),
        ([6, 1, 0, 0], [2, 0]),
        ([4, 0, 0, 0], [3, 0]),
        ([6, 1, 0, 0], [2, 1]),
        ([2, 0, 1, 0], [0, 2]),
        ([5, 0, 0, 0], [2, 1]),
        ([1, 1, 0, 0], [1, 0]),
        ([1, 0, 2, 0], [271, 0]),
    ];
    assert_run(&m8(), Verdict::Live, &run, &[1, 2, 3]);
}

#[test]
fn m8_run_typed() {
    let mut calls = Calls::new();
    calls.mark().assign(0, 1).upper_walls(1).back().upper_walls(1).remove(1, 0).show(0).assign(0, 1);
    calls.assign(2, 0);
    let answers = vec![
        Answer::Done,
        Answer::Live { struck: 2 },
        Answer::Value(0),
        Answer::Done,
        Answer::Value(1),
        Answer::Live { struck: 2 },
        Answer::Value(1),
        Answer::Dead,
        Answer::Refused(CallRefusal::WhileDead),
    ];
    let expected = Session { opened: Verdict::Live, answers, masks: vec![1, 2, 3] };
    assert_eq!(session(&m8().to_bytes(), calls.as_bytes()), Ok(expected));
}

#[test]
fn each_call_as_bytes() {
    let mut calls = Calls::new();
    calls.assign(258, 31).remove(255, 0).mark().back().show(65535).upper_walls(7).lower_walls(255);
    let expected = [
        [1, 31, 2, 1],
        [2, 0, 255, 0],
        [3, 0, 0, 0],
        [4, 0, 0, 0],
        [5, 0, 255, 255],
        [6, 7, 0, 0],
        [7, 255, 0, 0],
    ];
    assert_eq!(calls.as_bytes(), expected.concat());
}

/// Each refusal of a call with its number.
#[test]
fn numbers_of_call_refusals() {
    let refusals = [
        (CallRefusal::Kind, 11),
        (CallRefusal::Slot, 12),
        (CallRefusal::Type, 13),
        (CallRefusal::NoOpenMark, 14),
        (CallRefusal::WhileDead, 15),
        (CallRefusal::TooManyMarks, 16),
    ];
    for (refusal, number) in refusals {
        assert_eq!(refusal.number(), number);
    }
    assert_eq!(Refusal::CallList.number(), 10);
}

/// An empty list answers nothing and gives the settled masks.
#[test]
fn no_calls() {
    assert_run(&m8(), Verdict::Live, &[], &[3, 3, 3]);
    assert_run(&m6(), Verdict::Dead, &[], &[0, 0]);
    assert_run(&unsettled(), Verdict::Dead, &[], &[0, 0]);
    let book = Book::new(3, 2).row(0, 2, 0, Some(0));
    assert_run(&book, Verdict::Live, &[], &[2, 2, 3]);
}

/// Kind 0 and the kinds from 8 up, whatever the other fields; also while dead.
#[test]
fn unknown_kinds() {
    let unknown = || [0u8].into_iter().chain(8..=255);
    let refused = |kind| ([kind, kind, kind, 255 - kind], [267, 0]);
    let mut run: Vec<_> = unknown().map(refused).collect();
    assert_eq!(run.len(), 249);
    run.push(([5, 0, 0, 0], [2, 3]));
    run.push(([3, 0, 0, 0], [3, 0]));
    run.push(([1, 0, 0, 0], [0, 1]));
    run.extend(unknown().map(refused));
    run.push(([1, 1, 0, 0], [1, 0]));
    run.extend(unknown().map(refused));
    run.push(([5, 0, 0, 0], [2, 1]));
    run.push(([4, 0, 0, 0], [3, 0]));
    assert_run(&m8(), Verdict::Live, &run, &[3, 3, 3]);
}

/// Each kind with junk in the fields that it does not use.
#[test]
fn unused_fields_are_not_read() {
    let run = [
        ([3, 255, 255, 255], [3, 0]),
        ([5, 255, 2, 0], [2, 3]),
        ([6, 1, 255, 255], [2, 1]),
        ([7, 1, 3, 0], [2, 0]),
        ([7, 0, 0, 1], [2, 1]),
        ([1, 1, 0, 0], [0, 2]),
        ([4, 2, 3, 0], [3, 0]),
        ([5, 2, 0, 0], [2, 3]),
    ];
    assert_run(&m8(), Verdict::Live, &run, &[3, 3, 3]);
}

/// Slots are 2 bytes: slot 256 + 2 is not slot 2.
#[test]
fn slot_n_or_more() {
    let run = [
        ([1, 0, 3, 0], [268, 0]),
        ([2, 0, 3, 0], [268, 0]),
        ([5, 0, 3, 0], [268, 0]),
        ([1, 0, 2, 1], [268, 0]),
        ([2, 0, 0, 1], [268, 0]),
        ([5, 0, 255, 255], [268, 0]),
        ([5, 0, 2, 0], [2, 3]),
    ];
    assert_run(&m8(), Verdict::Live, &run, &[3, 3, 3]);
    let run = [([5, 0, 255, 0], [2, 1]), ([5, 0, 0, 1], [268, 0]), ([1, 0, 0, 1], [268, 0])];
    assert_run(&Book::new(256, 1), Verdict::Live, &run, &[1; 256]);
}

#[test]
fn type_k_or_more() {
    let run = [
        ([1, 2, 0, 0], [269, 0]),
        ([2, 2, 0, 0], [269, 0]),
        ([6, 2, 0, 0], [269, 0]),
        ([7, 2, 0, 0], [269, 0]),
        ([1, 32, 0, 0], [269, 0]),
        ([2, 33, 0, 0], [269, 0]),
        ([6, 255, 0, 0], [269, 0]),
        ([7, 128, 0, 0], [269, 0]),
        ([7, 1, 0, 0], [2, 0]),
    ];
    assert_run(&m8(), Verdict::Live, &run, &[3, 3, 3]);
    let run = [([2, 31, 0, 0], [0, 1]), ([2, 32, 0, 0], [269, 0]), ([6, 32, 0, 0], [269, 0])];
    assert_run(&Book::new(1, 32), Verdict::Live, &run, &[0x7fff_ffff]);
}

/// Within a call: 11, 12, 13, 15, 14, 16. No kind has both 14 and another of these. The second mark that is
/// refused has both 15 and 16.
#[test]
fn order_within_a_call() {
    let mut run = vec![
        ([0, 2, 3, 0], [267, 0]),
        ([1, 2, 3, 0], [268, 0]),
        ([2, 2, 3, 0], [268, 0]),
        ([1, 2, 2, 0], [269, 0]),
        ([4, 2, 3, 0], [270, 0]),
    ];
    run.extend(vec![([3, 2, 3, 0], [3, 0]); 256]);
    run.extend([
        ([3, 2, 3, 0], [272, 0]),
        ([8, 2, 3, 0], [267, 0]),
        ([1, 1, 0, 0], [0, 2]),
        ([1, 1, 1, 0], [1, 0]),
        ([8, 2, 3, 0], [267, 0]),
        ([1, 2, 3, 0], [268, 0]),
        ([2, 2, 3, 0], [268, 0]),
        ([1, 2, 0, 0], [269, 0]),
        ([1, 1, 0, 0], [271, 0]),
        ([3, 2, 3, 0], [271, 0]),
        ([5, 2, 3, 0], [268, 0]),
        ([6, 2, 3, 0], [269, 0]),
        ([4, 2, 3, 0], [3, 0]),
        ([5, 2, 1, 0], [2, 3]),
    ]);
    assert_run(&m8(), Verdict::Live, &run, &[3, 3, 3]);
}

/// M8's book: type 0 in one of the first two slots.
#[test]
fn decisions() {
    // An absent type assigned is dead, and the masks stay; removed it is live.
    let run = [
        ([2, 1, 2, 0], [0, 1]),
        ([2, 1, 2, 0], [0, 0]),
        ([1, 0, 2, 0], [0, 0]),
        ([3, 0, 0, 0], [3, 0]),
        ([1, 1, 2, 0], [1, 0]),
        ([5, 0, 2, 0], [2, 1]),
        ([4, 0, 0, 0], [3, 0]),
        ([1, 0, 2, 0], [0, 0]),
    ];
    assert_run(&m8(), Verdict::Live, &run, &[3, 3, 1]);
    // The only type of a slot removed is dead.
    let run = [([1, 0, 2, 0], [0, 1]), ([2, 0, 2, 0], [1, 0]), ([2, 1, 2, 0], [271, 0])];
    assert_run(&m8(), Verdict::Live, &run, &[3, 3, 1]);
    // Type 1 in both of the first slots.
    let run = [([1, 1, 1, 0], [0, 2]), ([2, 0, 0, 0], [1, 0])];
    assert_run(&m8(), Verdict::Live, &run, &[1, 2, 3]);
    // Of 32 types all but one are struck.
    let run = [([1, 31, 1, 0], [0, 31]), ([2, 0, 0, 0], [0, 1]), ([5, 0, 0, 0], [2, 0xffff_fffe])];
    assert_run(&Book::new(2, 32), Verdict::Live, &run, &[0xffff_fffe, 0x8000_0000]);
}

/// A dead session answers what only reads, on the masks before the decision that was dead. A back makes it
/// live.
#[test]
fn dead_then_back() {
    let run = [
        ([3, 0, 0, 0], [3, 0]),
        ([2, 0, 2, 0], [0, 1]),
        ([3, 0, 0, 0], [3, 0]),
        ([1, 1, 0, 0], [0, 2]),
        ([1, 1, 1, 0], [1, 0]),
        ([5, 0, 0, 0], [2, 2]),
        ([5, 0, 1, 0], [2, 1]),
        ([6, 1, 0, 0], [2, 0]),
        ([3, 0, 0, 0], [271, 0]),
        ([4, 0, 0, 0], [3, 0]),
        ([6, 1, 0, 0], [2, 1]),
        ([5, 0, 2, 0], [2, 2]),
        ([2, 1, 2, 0], [1, 0]),
        ([4, 0, 0, 0], [3, 0]),
        ([5, 0, 2, 0], [2, 3]),
        ([4, 0, 0, 0], [270, 0]),
        ([1, 0, 2, 0], [0, 1]),
    ];
    assert_run(&m8(), Verdict::Live, &run, &[3, 3, 1]);
    // A dead session with no open mark stays dead.
    let run = [
        ([1, 0, 0, 0], [0, 1]),
        ([1, 1, 0, 0], [1, 0]),
        ([4, 0, 0, 0], [270, 0]),
        ([2, 0, 1, 0], [271, 0]),
        ([5, 0, 0, 0], [2, 1]),
    ];
    assert_run(&m8(), Verdict::Live, &run, &[1, 3, 3]);
}

/// Dead in closing, and dead in settling: every mask and every number of walls is 0, and no mark can be made.
#[test]
fn opened_dead() {
    let run = [
        ([5, 0, 0, 0], [2, 0]),
        ([5, 0, 1, 0], [2, 0]),
        ([5, 0, 2, 0], [268, 0]),
        ([6, 0, 0, 0], [2, 0]),
        ([6, 1, 0, 0], [2, 0]),
        ([7, 0, 0, 0], [2, 0]),
        ([7, 1, 0, 0], [2, 0]),
        ([7, 2, 0, 0], [269, 0]),
        ([4, 0, 0, 0], [270, 0]),
        ([3, 0, 0, 0], [271, 0]),
        ([1, 0, 0, 0], [271, 0]),
        ([2, 2, 2, 0], [268, 0]),
        ([4, 0, 0, 0], [270, 0]),
        ([9, 0, 0, 0], [267, 0]),
        ([6, 0, 0, 0], [2, 0]),
    ];
    assert_run(&m6(), Verdict::Dead, &run, &[0, 0]);
    assert_run(&unsettled(), Verdict::Dead, &run, &[0, 0]);
}

/// Slot i is assigned at mark i, so that each back brings back the slot of its own mark.
#[test]
fn marks_256_deep() {
    let book = Book::new(256, 2);
    let slot = |slot: u16| slot.to_le_bytes();
    let mut run = Vec::new();
    for i in 0..256 {
        let [low, high] = slot(i);
        run.push(([3, 0, 0, 0], [3, 0]));
        run.push(([1, (i % 2) as u8, low, high], [0, 1]));
    }
    run.push(([3, 0, 0, 0], [272, 0]));
    run.push(([3, 0, 0, 0], [272, 0]));
    for i in (0..256).rev() {
        let [low, high] = slot(i);
        run.push(([5, 0, low, high], [2, 1 << (i % 2)]));
        run.push(([4, 0, 0, 0], [3, 0]));
        run.push(([5, 0, low, high], [2, 3]));
        if i > 0 {
            let [low, high] = slot(i - 1);
            run.push(([5, 0, low, high], [2, 1 << ((i - 1) % 2)]));
        }
    }
    run.push(([4, 0, 0, 0], [270, 0]));
    // A mark that is gone makes room for another.
    run.extend(vec![([3, 0, 0, 0], [3, 0]); 256]);
    run.push(([3, 0, 0, 0], [272, 0]));
    run.push(([4, 0, 0, 0], [3, 0]));
    run.push(([3, 0, 0, 0], [3, 0]));
    run.push(([3, 0, 0, 0], [272, 0]));
    assert_run(&book, Verdict::Live, &run, &[3; 256]);
}

/// Chains through all 256 slots, begun by a call and taken back, again and again.
#[test]
fn chains_of_256_slots() {
    let fixed: Vec<u32> = (0..256).map(|slot| 1 << (slot % 32)).collect();
    let two = |slot: u32| 1 << (slot % 32) | 1 << ((slot + 1) % 32);
    let turn = |last: u32, struck: u32, kept: u32| {
        [
            ([3, 0, 0, 0], [3, 0]),
            ([1, 0, 0, 0], [0, struck]),
            ([5, 0, 255, 0], [2, last]),
            ([4, 0, 0, 0], [3, 0]),
            ([5, 0, 255, 0], [2, kept]),
        ]
    };
    // Slot 0 has the types 0 and 1, each other slot the types before it and its own; all lose one.
    let begun = chains::strikes().mask(0, 3);
    let kept: Vec<u32> = [3].into_iter().chain((0..255).map(two)).collect();
    let run: Vec<_> = (0..100).flat_map(|_| turn(1 << 31, 256, two(254))).collect();
    assert_run(&begun, Verdict::Live, &run, &kept);
    assert_run(&begun, Verdict::Live, &[([1, 0, 0, 0], [0, 256])], &fixed);
    // The last slot keeps the types 31 and 0; the others lose one.
    let begun = chains::fixes().mask(0, 3);
    let kept: Vec<u32> = (0..256).map(two).collect();
    let run: Vec<_> = (0..100).flat_map(|_| turn(0x8000_0001, 255, 0x8000_0001)).collect();
    assert_run(&begun, Verdict::Live, &run, &kept);
}

/// Upper walls of type 0, which may have 1 at end 2 and 2 at end 4: upper 0 1 1 2 2, with corners at 2 and 4.
#[test]
fn upper_walls() {
    let rows = || Book::new(4, 2).row(0, 2, 0, Some(1)).row(0, 4, 0, Some(2));
    // Slacks 1 and 2.
    assert_run(&rows(), Verdict::Live, &[([6, 0, 0, 0], [2, 2])], &[3; 4]);
    // Slacks 1 and 1: a wall is below every later one.
    let run = [([1, 0, 3, 0], [0, 1]), ([6, 0, 0, 0], [2, 1])];
    assert_run(&rows(), Verdict::Live, &run, &[3, 3, 3, 1]);
    // Slacks 1 and 0: a corner of slack 0 has no wall and takes the earlier one's.
    let opened = with_masks(rows(), &[3, 3, 1, 1]);
    assert_run(&opened, Verdict::Live, &[([6, 0, 0, 0], [2, 0])], &[2, 2, 1, 1]);
    // Slacks 0 and 1, and after the back again 1 and 2.
    let run = [
        ([3, 0, 0, 0], [3, 0]),
        ([1, 0, 0, 0], [0, 2]),
        ([6, 0, 0, 0], [2, 1]),
        ([4, 0, 0, 0], [3, 0]),
        ([6, 0, 0, 0], [2, 2]),
    ];
    assert_run(&rows(), Verdict::Live, &run, &[3; 4]);
}

/// Lower walls of type 0, of which 1 is needed at end 3 and 2 at end 5: lower 0 0 0 1 1 2, with corners at 3
/// and 5. Type 1 then has upper 0 1 2 2 3 3, with corners there too.
#[test]
fn lower_walls() {
    let book = Book::new(5, 2).row(0, 3, 1, None).row(0, 5, 2, None);
    // Slacks 2 and 3 of both types.
    let run = [
        ([7, 0, 0, 0], [2, 2]),
        ([6, 1, 0, 0], [2, 2]),
        ([7, 1, 0, 0], [2, 0]),
        ([6, 0, 0, 0], [2, 0]),
        ([3, 0, 0, 0], [3, 0]),
        // Slacks 2 and 2 of both types: of two equal ones the later stands.
        ([2, 0, 4, 0], [0, 1]),
        ([7, 0, 0, 0], [2, 1]),
        ([6, 1, 0, 0], [2, 1]),
        // Slacks 1 and 1.
        ([2, 0, 0, 0], [0, 1]),
        ([7, 0, 0, 0], [2, 1]),
        // Slacks 1 and 0: slots 1 and 2 have to be of type 0.
        ([2, 0, 3, 0], [0, 3]),
        ([7, 0, 0, 0], [2, 0]),
        ([4, 0, 0, 0], [3, 0]),
        ([7, 0, 0, 0], [2, 2]),
        ([6, 1, 0, 0], [2, 2]),
    ];
    assert_run(&book, Verdict::Live, &run, &[3; 5]);
}

/// 16,384 bytes are 4096 calls; 4 bytes more, or any that are no whole call, are refused.
#[test]
fn lengths_of_call_lists() {
    assert_eq!((CALLS_BYTES, ANSWERS_BYTES, MASKS_BYTES), (16384, 32768, 1024));
    let book = m8().to_bytes();
    let calls: Vec<u8> = [[3, 0, 0, 0], [1, 1, 0, 0], [4, 0, 0, 0], [5, 0, 0, 0]].concat().repeat(1025);
    let answers = [Answer::Done, Answer::Live { struck: 2 }, Answer::Done, Answer::Value(3)].repeat(1024);
    let whole = Session { opened: Verdict::Live, answers, masks: vec![3; 3] };
    assert_eq!(session(&book, &calls[..16384]), Ok(whole));
    let shorter = session(&book, &calls[..16380]).expect("an accepted list");
    assert_eq!((shorter.answers.len(), shorter.masks), (4095, vec![3; 3]));
    for length in [1, 2, 3, 5, 6, 7, 16381, 16382, 16383, 16385, 16386, 16387, 16388, 16392, 16400] {
        assert_eq!(session(&book, &calls[..length]), Err(Refusal::CallList), "{length}");
    }
    for length in [32768, 65536, 65540, 131072, 262144] {
        assert_eq!(session(&book, &vec![5; length]), Err(Refusal::CallList), "{length}");
    }
}

/// Runs the list into outputs of these lengths. The answer is the expected one; an accepted list writes these
/// bytes and nothing else, and a refusal writes nothing.
fn assert_session_into(
    book: &[u8],
    calls: &[u8],
    lengths: (usize, usize),
    expected: Result<Verdict, Refusal>,
    written: (&[u8], &[u8]),
) {
    let written = if expected.is_ok() { written } else { (&[][..], &[][..]) };
    for seed in [0, 1, 2, 3, 252, 253, 254, 255] {
        let case = (lengths, seed);
        let (mut answers, mut masks) = (Lent::new(lengths.0, seed), Lent::new(lengths.1, 255 - seed));
        assert_eq!(session_into(book, calls, answers.output(), masks.output()), expected, "{case:?}");
        answers.assert_written(written.0, &case);
        masks.assert_written(written.1, &case);
    }
}

/// Each length of the answers and of the masks about those that will do, and far past them.
fn assert_lengths(book: &[u8], calls: &[u8], verdict: Verdict, written: (&[u8], &[u8])) {
    let (answers, masks) = (written.0.len(), written.1.len());
    let about = |needed: usize| (0..=4).chain(needed.saturating_sub(9)..=needed + 9).chain([65536, 65539]);
    let fits = |lengths: (usize, usize)| lengths.0 >= answers && lengths.1 >= masks;
    for lengths in about(answers).flat_map(|answers| about(masks).map(move |masks| (answers, masks))) {
        let expected = if fits(lengths) { Ok(verdict) } else { Err(Refusal::OutputTooShort) };
        assert_session_into(book, calls, lengths, expected, written);
    }
}

#[test]
fn lengths_of_outputs() {
    let calls = [[1, 1, 0, 0], [9, 0, 0, 0], [5, 0, 1, 0]].concat();
    let answers = bytes(&[0, 2, 267, 0, 2, 1]);
    assert_lengths(&m8().to_bytes(), &calls, Verdict::Live, (&answers, &bytes(&[2, 1, 3])));
    let answers = bytes(&[271, 0, 267, 0, 2, 0]);
    assert_lengths(&m6().to_bytes(), &calls, Verdict::Dead, (&answers, &[0; 8]));
    assert_lengths(&unsettled().to_bytes(), &calls, Verdict::Dead, (&answers, &[0; 8]));
    assert_lengths(&m8().to_bytes(), &[], Verdict::Live, (&[], &bytes(&[3, 3, 3])));
    assert_lengths(&Book::new(1, 1).to_bytes(), &[], Verdict::Live, (&[], &[1, 0, 0, 0]));
}

/// A session that dies on the way answers as one opened live, and writes the masks that stayed.
#[test]
fn lengths_of_outputs_after_death() {
    let calls = [[1, 1, 0, 0], [1, 1, 1, 0]].concat();
    assert_lengths(&m8().to_bytes(), &calls, Verdict::Live, (&bytes(&[0, 2, 1, 0]), &bytes(&[2, 1, 3])));
}

#[test]
fn lengths_of_the_longest_outputs() {
    let book = Book::new(256, 32).mask(0, 0xfedc_ba98).mask(255, 0x7654_3210);
    let calls = [5, 0, 255, 0].repeat(4096);
    let answers = bytes(&[2, 0x7654_3210]).repeat(4096);
    let mut masks = vec![255; 1024];
    masks[..4].copy_from_slice(&[0x98, 0xba, 0xdc, 0xfe]);
    masks[1020..].copy_from_slice(&[0x10, 0x32, 0x54, 0x76]);
    let written = (&answers[..], &masks[..]);
    let fitting = [(32768, 1024), (32769, 1027), (32775, 1025), (65536, 65536), (262144, 131072)];
    for lengths in fitting {
        assert_session_into(&book.to_bytes(), &calls, lengths, Ok(Verdict::Live), written);
    }
    for lengths in [(32767, 1024), (32768, 1023), (32760, 1024), (0, 1024), (32768, 0), (0, 0)] {
        assert_session_into(&book.to_bytes(), &calls, lengths, Err(Refusal::OutputTooShort), written);
    }
}

/// First the book's numbers, then 10, then 9, then whether it is live.
#[test]
fn order_of_refusals() {
    let with = |at: usize, byte: u8| {
        let mut bytes = m8().to_bytes();
        bytes[at] = byte;
        bytes
    };
    // n = 3: the masks are at 12, the row at 24; 32 bytes.
    let refused = [
        (with(0, 3)[..11].to_vec(), Refusal::TooShort),
        (with(1, 2), Refusal::OutOfRange),
        (with(3, 3), Refusal::IdleType),
        (with(8, 25), Refusal::Layout),
        (with(20, 0), Refusal::Mask),
        (with(24, 2), Refusal::RowType),
        (with(26, 4), Refusal::RowEnd),
        (with(29, 1), Refusal::RowBound),
    ];
    let written = (&[][..], &[][..]);
    let call_lists = [vec![], vec![5, 0, 0, 0], vec![5, 0, 0, 0, 0], vec![5; 16388]];
    for calls in &call_lists {
        for lengths in [(0, 0), (8, 12), (7, 12), (8, 11), (40000, 2000)] {
            for (book, refusal) in &refused {
                assert_session_into(book, calls, lengths, Err(*refusal), written);
            }
        }
    }
    for book in [m8(), m6(), unsettled()] {
        for calls in &call_lists[2..] {
            for lengths in [(0, 0), (7, 12), (8, 7), (16, 12), (40000, 2000)] {
                assert_session_into(&book.to_bytes(), calls, lengths, Err(Refusal::CallList), written);
            }
        }
    }
    // Bad calls refuse no list: 9 it is.
    assert_session_into(&m6().to_bytes(), &[0; 8], (15, 8), Err(Refusal::OutputTooShort), written);
    assert_session_into(&m6().to_bytes(), &[0; 8], (16, 7), Err(Refusal::OutputTooShort), written);
}
