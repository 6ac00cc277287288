//! A kept session on runs with every word typed by hand: as `Live`, and as another language calls the functions, on memory
//! between guards. What opening writes and leaves, each refusal, and how the numbers of calls go on.

mod memory;

use memory::{Guarded, Memory, LENGTHS};
use nested_gcc::{session, Answer, Book, CallRefusal, Calls, Decided, Live, Refusal, Standing, Verdict};

/// n = 3, k = 2, masks 3 3 3, one row: type 0, end 2, lower 1, no upper.
fn m8() -> Book {
    Book::new(3, 2).row(0, 2, 1, None)
}

/// n = 2, k = 2, lower 1 at end 1 for types 0 and 1: dead in closing.
fn m6() -> Book {
    Book::new(2, 2).row(0, 1, 1, None).row(1, 1, 1, None)
}

/// Two slots have only type 0, of which one is allowed: it closes, and does not settle.
fn unsettled() -> Book {
    Book::new(2, 2).mask(0, 1).mask(1, 1).row(0, 2, 0, Some(1))
}

/// M8's run: each call with its two words.
const M8: [([u8; 4], [u32; 2]); 9] = [
    ([3, 0, 0, 0], [3, 0]),
    ([1, 1, 0, 0], [0, 2]),
    ([6, 1, 0, 0], [2, 0]),
    ([4, 0, 0, 0], [3, 0]),
    ([6, 1, 0, 0], [2, 1]),
    ([2, 0, 1, 0], [0, 2]),
    ([5, 0, 0, 0], [2, 1]),
    ([1, 1, 0, 0], [1, 0]),
    ([1, 0, 2, 0], [271, 0]),
];

/// The calls of the run, and their words.
fn parts(run: &[([u8; 4], [u32; 2])]) -> (Vec<u8>, Vec<u32>) {
    let calls: Vec<[u8; 4]> = run.iter().map(|&(call, _)| call).collect();
    let words: Vec<[u32; 2]> = run.iter().map(|&(_, words)| words).collect();
    (calls.concat(), words.concat())
}

/// Steps the run, and the memory says so. The answers have room for two words more.
fn assert_step(memory: &mut Memory, run: &[([u8; 4], [u32; 2])], answer: u32) {
    let (calls, words) = parts(run);
    let mut answers = Guarded::new(words.len() + 2, 9);
    assert_eq!(memory.step(&calls, answers.slice_mut()), answer, "{run:?}");
    assert_eq!(answers.slice()[..words.len()], words, "{run:?}");
    answers.assert_kept_from(words.len(), "answers");
}

/// Opens the book in painted memory.
fn opened(book: &Book, answer: u32) -> Memory {
    let mut memory = Memory::new(5);
    assert_eq!(memory.open(&book.to_bytes()), answer, "{book:?}");
    memory
}

#[test]
fn m8_typed() -> Result<(), CallRefusal> {
    let mut session = Live::open(&m8().to_bytes()).expect("a good book");
    assert_eq!((session.slots(), session.types(), session.masks()), (3, 2, &[3, 3, 3][..]));
    assert_eq!((session.standing(), session.calls_made(), session.open_marks()), (Standing::Live, 0, 0));
    session.mark()?;
    assert_eq!((session.calls_made(), session.open_marks()), (1, 1));
    assert_eq!(session.assign(0, 1)?, Decided::Live { struck: 2 });
    assert_eq!(session.masks(), [2, 1, 3]);
    assert_eq!(session.upper_walls(1)?, 0);
    session.back()?;
    assert_eq!((session.open_marks(), session.masks()), (0, &[3, 3, 3][..]));
    assert_eq!(session.upper_walls(1)?, 1);
    assert_eq!(session.lower_walls(0)?, 1);
    assert_eq!(session.remove(1, 0)?, Decided::Live { struck: 2 });
    assert_eq!(session.show(0)?, 1);
    assert_eq!(session.assign(0, 1)?, Decided::Dead);
    assert_eq!(session.standing(), Standing::Dead { call: 8 });
    assert_eq!(session.assign(2, 0), Err(CallRefusal::WhileDead));
    assert_eq!(session.remove(2, 0), Err(CallRefusal::WhileDead));
    assert_eq!(session.mark(), Err(CallRefusal::WhileDead));
    assert_eq!(session.back(), Err(CallRefusal::NoOpenMark));
    assert_eq!(session.show(3), Err(CallRefusal::Slot));
    assert_eq!(session.lower_walls(2), Err(CallRefusal::Type));
    assert_eq!((session.standing(), session.calls_made()), (Standing::Dead { call: 8 }, 15));
    assert_eq!(session.masks(), [1, 2, 3]);
    let debug = "Live { slots: 3, types: 2, calls_made: 15, open_marks: 0, standing: Dead { call: 8 }, .. }";
    assert_eq!(format!("{session:?}"), debug);
    Ok(())
}

/// M8's run cut at each two places: the words and the last masks are those of the whole list, and the call that it is
/// dead since is the eighth of all.
#[test]
fn m8_in_pieces() {
    for first in 0..=9 {
        for second in first..=9 {
            let mut memory = opened(&m8(), 0);
            for (from, to) in [(0, first), (first, second), (second, 9)] {
                assert_step(&mut memory, &M8[from..to], u32::from(to >= 8));
                assert_eq!(memory.numbers()[2], to);
            }
            assert_eq!(memory.numbers(), [3, 2, 9, 1, 7, 0], "{first} {second}");
            assert_eq!(memory.masks.slice()[..3], [1, 2, 3]);
            memory.assert_guards(3);
        }
    }
}

#[test]
fn m8_call_by_call() {
    let mut memory = opened(&m8(), 0);
    for (at, ([kind, board_type, low, high], words)) in M8.into_iter().enumerate() {
        let slot = u16::from_le_bytes([low, high]);
        assert_eq!(memory.call(kind.into(), board_type.into(), slot.into()), words, "call {at}");
        let dead = at >= 7;
        let marks = usize::from(at < 3);
        assert_eq!(
            memory.numbers(),
            [3, 2, at + 1, dead.into(), if dead { 7 } else { 0 }, marks],
            "call {at}"
        );
        memory.assert_guards(3);
    }
    assert_eq!(memory.masks.slice()[..3], [1, 2, 3]);
}

/// An opening writes the first n masks and the record, of which the last number is its own, whatever the memory held; the
/// masks past the n-th stay.
#[test]
fn what_an_opening_writes() {
    for (book, answer, masks, numbers) in [
        (m8(), 0, vec![3, 3, 3], [3, 2, 0, 0, 0, 0]),
        (m6(), 1, vec![0, 0], [2, 2, 0, 2, 0, 0]),
        (unsettled(), 1, vec![0, 0], [2, 2, 0, 2, 0, 0]),
        (Book::new(3, 2).row(0, 2, 0, Some(0)), 0, vec![2, 2, 3], [3, 2, 0, 0, 0, 0]),
        (Book::new(1, 1), 0, vec![1], [1, 1, 0, 0, 0, 0]),
        (Book::new(256, 32), 0, vec![u32::MAX; 256], [256, 32, 0, 0, 0, 0]),
    ] {
        let last_number = opened(&book, answer).record.slice()[6];
        for seed in 0..8 {
            let mut memory = Memory::new(seed);
            assert_eq!(memory.open(&book.to_bytes()), answer, "{book:?}");
            assert_eq!(memory.record.slice()[6], last_number, "{book:?}");
            assert_eq!(memory.masks.slice()[..masks.len()], masks, "{book:?}");
            assert_eq!(memory.numbers(), numbers, "{book:?}");
            memory.assert_guards(masks.len());
        }
    }
}

/// A refused book leaves every element as it was: one for each number, of M8's 32 bytes.
#[test]
fn refused_books_touch_nothing() {
    let with = |at: usize, byte: u8| {
        let mut bytes = m8().to_bytes();
        bytes[at] = byte;
        bytes
    };
    let refused = [
        (Vec::new(), Refusal::TooShort),
        (with(0, 3)[..11].to_vec(), Refusal::TooShort),
        (with(1, 2), Refusal::OutOfRange),
        (with(3, 3), Refusal::IdleType),
        (with(8, 25), Refusal::Layout),
        (with(20, 0), Refusal::Mask),
        (with(24, 2), Refusal::RowType),
        (with(26, 4), Refusal::RowEnd),
        (with(29, 1), Refusal::RowBound),
    ];
    for (book, refusal) in refused {
        assert_eq!(Live::open(&book).err(), Some(refusal));
        let mut memory = Memory::new(77);
        assert_eq!(memory.open(&book), 256 + refusal.number());
        memory.assert_untouched(&format!("{refusal:?}"));
        // The book's number comes before 9.
        let mut memory = Memory::of_lengths([0; 5], 77);
        assert_eq!(memory.open(&book), 256 + refusal.number());
        memory.assert_untouched(&format!("{refusal:?}"));
    }
}

/// Every flipped bit of a book: where it is refused nothing is touched, where not the masks are those of `session`.
#[test]
fn damaged_books() {
    let good = m8().to_bytes();
    let (mut refused, mut taken) = (0, 0);
    for bit in 0..8 * good.len() {
        let mut book = good.clone();
        book[bit / 8] ^= 1 << (bit % 8);
        let mut memory = Memory::new(bit);
        let answer = memory.open(&book);
        match session(&book, &[]) {
            Err(refusal) => {
                assert_eq!(answer, 256 + refusal.number(), "bit {bit}");
                memory.assert_untouched(&format!("bit {bit}"));
                refused += 1;
            }
            Ok(ran) => {
                let dead = ran.opened == Verdict::Dead;
                assert_eq!(answer, u32::from(dead), "bit {bit}");
                assert_eq!(memory.masks.slice()[..ran.masks.len()], ran.masks, "bit {bit}");
                assert_eq!(memory.numbers()[2..], [0, if dead { 2 } else { 0 }, 0, 0], "bit {bit}");
                memory.assert_guards(ran.masks.len());
                taken += 1;
            }
        }
    }
    assert!(refused > 100 && taken > 10, "{refused} {taken}");
}

/// Each slice too short, and too long: 9, and nothing is touched, be the book live or dead.
#[test]
fn wrong_lengths_of_memory() {
    for book in [m8(), m6(), unsettled()] {
        for slice in 0..LENGTHS.len() {
            let right = LENGTHS[slice];
            for wrong in [0, 1, right / 2, right - 1, right + 1, right + 8, 2 * right, 65536] {
                let mut lengths = LENGTHS;
                lengths[slice] = wrong;
                let mut memory = Memory::of_lengths(lengths, 3);
                assert_eq!(memory.open(&book.to_bytes()), 265, "{lengths:?}");
                memory.assert_untouched(&format!("{lengths:?}"));
            }
        }
        let mut memory = Memory::of_lengths([1; 5], 3);
        assert_eq!(memory.open(&book.to_bytes()), 265);
        memory.assert_untouched("each of length 1");
    }
}

/// A list that is no whole calls or too long: 10; then 9 for the answers. Neither memory nor answers are touched.
#[test]
fn refused_lists_touch_nothing() {
    for book in [m8(), m6()] {
        let mut memory = opened(&book, u32::from(book.to_bytes() == m6().to_bytes()));
        memory.call(3, 0, 0);
        memory.call(2, 1, 1);
        let before = memory.clone();
        let list = [5, 0, 0, 0].repeat(4100);
        let cases = [
            (1, 8192, 266),
            (2, 0, 266),
            (3, 8192, 266),
            (5, 8192, 266),
            (16383, 8192, 266),
            (16385, 16384, 266),
            (16388, 16384, 266),
            (16400, 0, 266),
            (4, 0, 265),
            (4, 1, 265),
            (8, 3, 265),
            (16384, 8191, 265),
            (16384, 0, 265),
        ];
        for (bytes, words, answer) in cases {
            let mut answers = Guarded::new(words, 9);
            assert_eq!(memory.step(&list[..bytes], answers.slice_mut()), answer, "{bytes} {words}");
            answers.assert_kept_from(0, "answers");
            assert!(memory == before, "{bytes} {words}");
        }
        // The longest list, with just the room.
        let mut answers = Guarded::new(8192, 9);
        let live = memory.numbers()[3] == 0;
        assert_eq!(memory.step(&list[..16384], answers.slice_mut()), u32::from(!live));
        assert_eq!(answers.slice(), [2, if live { 3 } else { 0 }].repeat(4096));
        answers.assert_kept_from(8192, "answers");
    }
}

/// No calls: the answer says how the session stands.
#[test]
fn empty_lists() {
    let mut memory = opened(&m8(), 0);
    assert_step(&mut memory, &[], 0);
    memory.call(1, 0, 0);
    memory.call(2, 0, 0);
    assert_step(&mut memory, &[], 1);
    assert_eq!(memory.numbers(), [3, 2, 2, 1, 1, 0]);
    assert_step(&mut opened(&m6(), 1), &[], 1);
}

/// The number of the call goes on from step to step; a back makes the session live, and the next death has its own.
#[test]
fn dead_since_which_call() {
    let mut memory = opened(&m8(), 0);
    assert_step(&mut memory, &[([3, 0, 0, 0], [3, 0]), ([9, 0, 0, 0], [267, 0]), ([3, 0, 0, 0], [3, 0])], 0);
    assert_step(&mut memory, &[([1, 0, 0, 0], [0, 1]), ([1, 1, 0, 0], [1, 0]), ([3, 0, 0, 0], [271, 0])], 1);
    assert_eq!(memory.numbers(), [3, 2, 6, 1, 4, 2]);
    assert_eq!(memory.call(1, 0, 0), [271, 0]);
    assert_eq!(memory.numbers(), [3, 2, 7, 1, 4, 2]);
    assert_step(&mut memory, &[([5, 0, 0, 0], [2, 1]), ([4, 0, 0, 0], [3, 0])], 0);
    assert_eq!(memory.numbers(), [3, 2, 9, 0, 0, 1]);
    assert_eq!(memory.call(1, 1, 0), [0, 2]);
    assert_eq!(memory.call(1, 1, 1), [1, 0]);
    assert_eq!(memory.numbers(), [3, 2, 11, 1, 10, 1]);
    assert_step(&mut memory, &[([4, 0, 0, 0], [3, 0]), ([4, 0, 0, 0], [270, 0])], 0);
    assert_eq!(memory.numbers(), [3, 2, 13, 0, 0, 0]);
    assert_eq!(memory.masks.slice()[..3], [3, 3, 3]);
}

#[test]
fn opened_dead() {
    let run = [
        ([5, 0, 0, 0], [2, 0]),
        ([5, 0, 2, 0], [268, 0]),
        ([6, 0, 0, 0], [2, 0]),
        ([7, 2, 0, 0], [269, 0]),
        ([4, 0, 0, 0], [270, 0]),
        ([3, 0, 0, 0], [271, 0]),
        ([1, 0, 0, 0], [271, 0]),
        ([2, 2, 2, 0], [268, 0]),
        ([9, 0, 0, 0], [267, 0]),
    ];
    for book in [m6(), unsettled()] {
        let mut memory = opened(&book, 1);
        for ([kind, board_type, slot, _], words) in run {
            assert_eq!(memory.call(kind.into(), board_type.into(), slot.into()), words);
        }
        assert_step(&mut memory, &run[..4], 1);
        assert_step(&mut memory, &run[4..], 1);
        assert_eq!((memory.numbers(), &memory.masks.slice()[..2]), ([2, 2, 18, 2, 0, 0], &[0, 0][..]));
        memory.assert_guards(2);
        let mut session = Live::open(&book.to_bytes()).expect("a good book");
        assert_eq!(session.assign(0, 0), Err(CallRefusal::WhileDead));
        assert_eq!(session.back(), Err(CallRefusal::NoOpenMark));
        assert_eq!(session.show(1), Ok(0));
        assert_eq!((session.standing(), session.masks()), (Standing::OpenedDead, &[0, 0][..]));
        assert_eq!(session.run_into(&[], &mut []), Ok(Verdict::Dead));
    }
}

/// What is too large for a byte, or for two, is not cut to them.
#[test]
fn large_fields() {
    let mut memory = opened(&m8(), 0);
    for kind in [0, 8, 9, 128, 255, 256, 257, 259, 261, 65536, 65537, 1 << 31, u32::MAX - 2, u32::MAX] {
        assert_eq!(memory.call(kind, 0, 0), [267, 0], "kind {kind}");
    }
    for slot in [3, 4, 255, 256, 65535, 65536, 65538, 1 << 31, u32::MAX] {
        for kind in [1, 2, 5] {
            assert_eq!(memory.call(kind, 0, slot), [268, 0], "slot {slot}");
        }
    }
    for board_type in [2, 31, 32, 33, 255, 256, 257, 65536, 65537, 1 << 31, u32::MAX] {
        for kind in [1, 2, 6, 7] {
            assert_eq!(memory.call(kind, board_type, 0), [269, 0], "type {board_type}");
        }
    }
    assert_eq!(memory.numbers(), [3, 2, 14 + 27 + 44, 0, 0, 0]);
    // Fields that the kind does not use.
    assert_eq!(memory.call(3, u32::MAX, u32::MAX), [3, 0]);
    assert_eq!(memory.call(5, u32::MAX, 2), [2, 3]);
    assert_eq!(memory.call(6, 1, u32::MAX), [2, 1]);
    assert_eq!(memory.call(7, 0, 65536), [2, 1]);
    assert_eq!(memory.call(4, 256, 65536), [3, 0]);
    assert_eq!(memory.masks.slice()[..3], [3, 3, 3]);
    memory.assert_guards(3);
}

/// Slot i is assigned at mark i, in steps of seven calls; the 257th mark is refused, in whichever step.
#[test]
fn marks_256_deep() {
    let mut run = Vec::new();
    for i in 0..=255u8 {
        run.push(([3, 0, 0, 0], [3, 0]));
        run.push(([1, i % 2, i, 0], [0, 1]));
    }
    let mut memory = opened(&Book::new(256, 2), 0);
    for piece in run.chunks(7) {
        assert_step(&mut memory, piece, 0);
    }
    assert_eq!(memory.numbers(), [256, 2, 512, 0, 0, 256]);
    assert_step(&mut memory, &[([3, 0, 0, 0], [272, 0])], 0);
    assert_eq!(memory.call(3, 0, 0), [272, 0]);
    for i in (0..=255u8).rev() {
        assert_eq!(memory.masks.slice()[usize::from(i)], 1 << (i % 2));
        assert_eq!(memory.call(4, 0, 0), [3, 0]);
        assert_eq!(memory.numbers()[5], i.into());
        assert_eq!(memory.masks.slice()[usize::from(i)], 3);
    }
    assert_eq!(memory.call(4, 0, 0), [270, 0]);
    assert_eq!(memory.masks.slice(), [3; 256]);
    memory.assert_guards(256);
    let mut session = Live::open(&Book::new(2, 2).to_bytes()).expect("a good book");
    for marks in 1..=256 {
        assert_eq!((session.mark(), session.open_marks()), (Ok(()), marks));
    }
    assert_eq!((session.mark(), session.open_marks()), (Err(CallRefusal::TooManyMarks), 256));
}

/// A second opening in the same memory knows nothing of the first: neither its marks nor its calls nor its trail.
#[test]
fn opened_again() {
    let mut memory = opened(&Book::new(4, 3), 0);
    for slot in 0..4 {
        assert_eq!(memory.call(3, 0, 0), [3, 0]);
        assert_eq!(memory.call(1, slot % 3, slot), [0, 2]);
    }
    assert_eq!(memory.call(2, 0, 0), [1, 0]);
    assert_eq!(memory.numbers(), [4, 3, 9, 1, 8, 4]);
    // A refused opening: the session goes on.
    let before = memory.clone();
    assert_eq!(memory.open(&m8().to_bytes()[..31]), 260);
    assert!(memory == before);
    assert_eq!(memory.call(4, 0, 0), [3, 0]);
    assert_eq!(memory.masks.slice()[..4], [1, 2, 4, 7]);
    // An opening, live and then dead.
    assert_eq!(memory.open(&m8().to_bytes()), 0);
    assert_eq!((memory.numbers(), &memory.masks.slice()[..4]), ([3, 2, 0, 0, 0, 0], &[3, 3, 3, 7][..]));
    assert_eq!(memory.record.slice(), opened(&m8(), 0).record.slice());
    assert_eq!(memory.call(4, 0, 0), [270, 0]);
    assert_step(&mut memory, &M8, 1);
    assert_eq!(memory.numbers(), [3, 2, 10, 1, 8, 0]);
    assert_eq!(memory.open(&m6().to_bytes()), 1);
    assert_eq!((memory.numbers(), &memory.masks.slice()[..4]), ([2, 2, 0, 2, 0, 0], &[0, 0, 3, 7][..]));
    memory.assert_guards(4);
}

/// As many strikes as there can be, a mark before each slot's, and all of them taken back; then the same in a second
/// opening.
#[test]
fn every_type_struck() {
    let book = Book::new(256, 32).to_bytes();
    let mut memory = Memory::new(5);
    for _ in 0..3 {
        assert_eq!(memory.open(&book), 0);
        for slot in 0..256 {
            assert_eq!(memory.call(3, 0, 0), [3, 0]);
            assert_eq!(memory.call(1, slot % 32, slot), [0, 31]);
        }
        memory.assert_guards(256);
        let fixed: Vec<u32> = (0..256).map(|slot| 1 << (slot % 32)).collect();
        assert_eq!(memory.masks.slice(), fixed);
        for _ in 0..128 {
            assert_eq!(memory.call(4, 0, 0), [3, 0]);
        }
        assert_eq!(memory.masks.slice()[..128], fixed[..128]);
        assert_eq!(memory.masks.slice()[128..], [u32::MAX; 128]);
        memory.assert_guards(256);
    }
}

/// Two states, called in turn: each has its own.
#[test]
fn interleaved() {
    let (mut first, mut second) = (opened(&m8(), 0), opened(&Book::new(4, 3), 0));
    for (at, (call, words)) in M8.into_iter().enumerate() {
        assert_step(&mut first, &[(call, words)], u32::from(at >= 7));
        let slot = at as u32 % 4;
        if at < 4 {
            assert_eq!(second.call(3, 0, 0), [3, 0]);
            assert_eq!(second.call(1, slot % 3, slot), [0, 2]);
        } else if at < 8 {
            assert_eq!(second.call(4, 0, 0), [3, 0]);
        }
    }
    assert_eq!((first.numbers(), &first.masks.slice()[..3]), ([3, 2, 9, 1, 7, 0], &[1, 2, 3][..]));
    assert_eq!((second.numbers(), &second.masks.slice()[..4]), ([4, 3, 12, 0, 0, 0], &[7, 7, 7, 7][..]));
}

/// A copy stands where the first stands, and each goes its own way.
#[test]
fn copies() -> Result<(), CallRefusal> {
    let mut first = Live::open(&Book::new(4, 3).row(0, 4, 0, Some(1)).to_bytes()).expect("a good book");
    first.mark()?;
    assert_eq!(first.assign(1, 2)?, Decided::Live { struck: 2 });
    first.mark()?;
    let mut second = first.clone();
    // At most one of type 0: the others lose it.
    assert_eq!(first.assign(0, 0)?, Decided::Live { struck: 4 });
    assert_eq!(second.remove(0, 0)?, Decided::Live { struck: 1 });
    assert_eq!(second.assign(1, 0)?, Decided::Dead);
    assert_eq!((first.masks(), second.masks()), (&[1, 4, 6, 6][..], &[6, 4, 7, 7][..]));
    assert_eq!((first.standing(), second.standing()), (Standing::Live, Standing::Dead { call: 4 }));
    assert_eq!((first.calls_made(), second.calls_made()), (4, 5));
    first.back()?;
    second.back()?;
    assert_eq!((first.masks(), second.masks()), (&[7, 4, 7, 7][..], &[7, 4, 7, 7][..]));
    first.back()?;
    assert_eq!((first.masks(), second.masks()), (&[7, 7, 7, 7][..], &[7, 4, 7, 7][..]));
    assert_eq!((first.open_marks(), second.open_marks()), (0, 1));
    // A copy in another thread.
    let mut third = second.clone();
    let there =
        std::thread::spawn(move || third.back().map(|()| (third.masks().to_vec(), third.calls_made())));
    assert_eq!(there.join().expect("the thread ends")?, (vec![7; 4], 7));
    assert_eq!((second.masks(), second.calls_made()), (&[7, 4, 7, 7][..], 6));
    Ok(())
}

/// 100,000 calls, in a list that `run` cuts into steps, and in steps of many lengths; then dead of call 100,001.
#[test]
fn a_hundred_thousand_calls() {
    let turn =
        [([3, 0, 0, 0], [3, 0]), ([1, 1, 0, 0], [0, 2]), ([4, 0, 0, 0], [3, 0]), ([5, 0, 0, 0], [2, 3])];
    let run = turn.repeat(25_000);
    let (calls, words) = parts(&run);
    let mut session = Live::open(&m8().to_bytes()).expect("a good book");
    let answers = session.run(&calls).expect("whole calls");
    let turn = [Answer::Done, Answer::Live { struck: 2 }, Answer::Done, Answer::Value(3)];
    assert!(answers == turn.repeat(25_000));
    assert_eq!((session.calls_made(), session.standing()), (100_000, Standing::Live));
    let mut again = vec![7; words.len() + 1];
    assert_eq!(session.run_into(&calls, &mut again), Ok(Verdict::Live));
    assert!(again[..words.len()] == words && again[words.len()] == 7);
    assert_eq!(session.calls_made(), 200_000);

    let mut memory = opened(&m8(), 0);
    let (mut from, mut length) = (0, 0);
    while from < run.len() {
        let to = usize::min(from + length, run.len());
        assert_step(&mut memory, &run[from..to], 0);
        (from, length) = (to, (5 * length + 7) % 4096);
    }
    assert_eq!((memory.numbers(), &memory.masks.slice()[..3]), ([3, 2, 100_000, 0, 0, 0], &[3, 3, 3][..]));
    assert_eq!(memory.call(1, 0, 0), [0, 1]);
    assert_eq!(memory.call(2, 0, 0), [1, 0]);
    assert_eq!(memory.numbers(), [3, 2, 100_002, 1, 100_001, 0]);
    memory.assert_guards(3);
}

/// `run` refuses before it makes a call, however long the list.
#[test]
fn refused_runs_make_no_call() {
    let mut session = Live::open(&m8().to_bytes()).expect("a good book");
    let calls = [3, 0, 0, 0].repeat(5000);
    for length in [1, 2, 3, 5, 16383, 16385, 16386, 19999] {
        assert_eq!(session.run(&calls[..length]), Err(Refusal::CallList), "{length}");
        let mut none = [];
        assert_eq!(session.run_into(&calls[..length], &mut none), Err(Refusal::CallList), "{length}");
    }
    for (length, room) in [(4, 1), (16384, 8191), (16388, 8193), (20000, 9999)] {
        let mut answers = vec![7; room];
        assert_eq!(session.run_into(&calls[..length], &mut answers), Err(Refusal::OutputTooShort));
        assert_eq!(answers, vec![7; room]);
    }
    assert_eq!((session.calls_made(), session.open_marks()), (0, 0));
    assert_eq!(session.run(&[]), Ok(Vec::new()));
}

/// 2^63 calls are the most. A session cannot come there in this world; the number is put into its record.
#[test]
fn the_most_calls() {
    let most = 1 << 63;
    let mut memory = opened(&m8(), 0);
    memory.record.slice_mut()[2] = most - 3;
    assert_step(&mut memory, &M8[..2], 0);
    let before = memory.clone();
    let mut answers = Guarded::new(8, 9);
    assert_eq!(memory.step(&[5, 0, 0, 0].repeat(2), answers.slice_mut()), 266);
    answers.assert_kept_from(0, "answers");
    assert!(memory == before);
    assert_eq!(memory.call(1, 1, 1), [1, 0]);
    assert_eq!(memory.numbers(), [3, 2, most, 1, most - 1, 1]);
    let before = memory.clone();
    assert_eq!(memory.call(4, 0, 0), [266, 0]);
    assert_eq!(memory.call(99, 0, 0), [266, 0]);
    assert_eq!(memory.step(&[4, 0, 0, 0], answers.slice_mut()), 266);
    assert!(memory == before);
    assert_step(&mut memory, &[], 1);
    assert!(memory == before);
}

#[test]
fn lists_of_calls() {
    let mut calls = Calls::new();
    assert!(calls.is_empty());
    assert_eq!((calls.len(), calls.pop()), (0, None));
    calls.mark().assign(258, 1).back().show(3);
    assert_eq!((calls.len(), calls.is_empty()), (4, false));
    assert_eq!(calls.pop(), Some([5, 0, 3, 0]));
    calls.truncate(3);
    calls.truncate(usize::MAX);
    assert_eq!(calls.len(), 3);
    calls.truncate(2).back();
    assert_eq!(calls.as_bytes(), [3, 0, 0, 0, 1, 1, 2, 1, 4, 0, 0, 0]);
    assert!(calls.truncate(0).is_empty());
}
