//! The order of the numbers within a call: every kind, with slots and types within and out of range, on sessions that are
//! live, that died and that opened dead, without a mark and with as many as may be open; over the session, a step and a
//! single call. And what the order changed: an answer by the order before is another one exactly where
//! `CHANGELOG.md` says so of 1.5.0.

mod memory;

use memory::Memory;
use nested_gcc::{session, Book};

const MARKS: usize = 256;

/// In this order the numbers are asked, and in this one they were before.
const NOW: [u32; 6] = [11, 12, 13, 15, 14, 16];
const BEFORE: [u32; 6] = [11, 15, 12, 13, 14, 16];

/// A session at the moment of the call: its book, the calls before, and what the numbers look at.
struct Moment {
    book: Book,
    calls: Vec<[u8; 4]>,
    n: u32,
    k: u32,
    dead: bool,
    marks: usize,
}

/// M8's book, with so many marks open, and dead by a type that its slot lacks or live.
fn on_m8(marks: usize, dead: bool) -> Moment {
    let mut calls = vec![[3, 0, 0, 0]; marks];
    if dead {
        calls.extend([[2, 1, 2, 0], [1, 1, 2, 0]]);
    }
    Moment { book: Book::new(3, 2).row(0, 2, 1, None), calls, n: 3, k: 2, dead, marks }
}

fn opened_dead(book: Book) -> Moment {
    Moment { book, calls: Vec::new(), n: 2, k: 2, dead: true, marks: 0 }
}

fn moments() -> Vec<Moment> {
    let in_closing = Book::new(2, 2).row(0, 1, 1, None).row(1, 1, 1, None);
    let in_settling = Book::new(2, 2).mask(0, 1).mask(1, 1).row(0, 2, 0, Some(1));
    let mut moments: Vec<Moment> = [0, 1, MARKS].iter().map(|&marks| on_m8(marks, false)).collect();
    moments.extend([0, 1, MARKS].iter().map(|&marks| on_m8(marks, true)));
    moments.extend([in_closing, in_settling].map(opened_dead));
    moments
}

/// Whether the number applies to a call of this kind, type and slot.
fn applies(number: u32, at: &Moment, [kind, board_type, slot]: [u32; 3]) -> bool {
    match number {
        11 => !(1..=7).contains(&kind),
        12 => [1, 2, 5].contains(&kind) && slot >= at.n,
        13 => [1, 2, 6, 7].contains(&kind) && board_type >= at.k,
        14 => kind == 4 && at.marks == 0,
        15 => [1, 2, 3].contains(&kind) && at.dead,
        _ => kind == 3 && at.marks == MARKS,
    }
}

fn first(order: [u32; 6], at: &Moment, call: [u32; 3]) -> Option<u32> {
    order.into_iter().find(|&number| applies(number, at, call))
}

/// The words of a refused call; the first word of any other is below 256.
fn assert_words(words: [u32; 2], number: Option<u32>, case: &str) {
    match number {
        Some(number) => assert_eq!(words, [256 + number, 0], "{case}"),
        None => assert!(words[0] < 4, "{words:?}: {case}"),
    }
}

/// The last two words and the last masks of a session with the moment's calls and this one.
fn in_a_session(at: &Moment, call: [u8; 4]) -> ([u32; 2], Vec<u32>) {
    let calls = [at.calls.concat(), call.to_vec()].concat();
    let ran = session(&at.book.to_bytes(), &calls).expect("an accepted list");
    (ran.answers.last().expect("the list has a call").words(), ran.masks)
}

fn memory_at(at: &Moment) -> Memory {
    let mut memory = Memory::new(3);
    assert!(memory.open(&at.book.to_bytes()) < 2);
    let mut words = vec![0; 2 * at.calls.len()];
    assert!(memory.step(&at.calls.concat(), &mut words) < 2);
    memory
}

/// The words of a call of these bytes in all three forms, the same in each. A refused one leaves the session as it was.
fn assert_call(at: &Moment, before: &Memory, call: [u8; 4], number: Option<u32>) {
    let [kind, board_type, low, high] = call;
    let case = format!("{call:?} with {} open, dead {}, on {:?}", at.marks, at.dead, at.book);
    let (words, masks) = in_a_session(at, call);
    assert_words(words, number, &case);
    let (mut stepped, mut called) = (before.clone(), before.clone());
    let mut answers = [9; 2];
    stepped.step(&call, &mut answers);
    assert_eq!(answers, words, "{case}");
    let slot = u16::from_le_bytes([low, high]);
    assert_eq!(called.call(kind.into(), board_type.into(), slot.into()), words, "{case}");
    let n = at.n as usize;
    assert_eq!((&stepped.masks.slice()[..n], &called.masks.slice()[..n]), (&masks[..], &masks[..]), "{case}");
    if number.is_some() {
        for after in [stepped, called] {
            assert_eq!(after.masks.slice()[..n], before.masks.slice()[..n], "{case}");
            assert_eq!(after.numbers()[3..], before.numbers()[3..], "{case}");
        }
    }
}

/// What the order changed: on a dead session an assign or a remove whose slot is n or more was 15 and is 12, and one whose
/// type alone is k or more was 15 and is 13. Says whether the call is one of them.
fn assert_changed(at: &Moment, call: [u32; 3]) -> bool {
    let [kind, board_type, slot] = call;
    let out = slot >= at.n || board_type >= at.k;
    let changed = at.dead && (kind == 1 || kind == 2) && out;
    let (before, now) = (first(BEFORE, at, call), first(NOW, at, call));
    assert_eq!(before != now, changed, "{call:?}");
    if changed {
        assert_eq!((before, now), (Some(15), Some(if slot >= at.n { 12 } else { 13 })), "{call:?}");
    }
    changed
}

#[test]
fn every_kind_in_and_out_of_range() {
    for at in moments() {
        let memory = memory_at(&at);
        let mut changed = 0;
        for kind in [0, 1, 2, 3, 4, 5, 6, 7, 8, 9, 127, 128, 129, 130, 255] {
            for board_type in [0, at.k - 1, at.k, 31, 32, 128, 255] {
                for slot in [0, at.n - 1, at.n, 255, 256, 257, 65535] {
                    let [low, high] = (slot as u16).to_le_bytes();
                    let fields = [kind, board_type, slot];
                    assert_call(
                        &at,
                        &memory,
                        [kind as u8, board_type as u8, low, high],
                        first(NOW, &at, fields),
                    );
                    changed += usize::from(assert_changed(&at, fields));
                }
            }
        }
        // Of 2 kinds, 7 types and 7 slots those with 2 types and 2 slots in range are as they were.
        assert_eq!(changed, if at.dead { 2 * (7 * 7 - 2 * 2) } else { 0 });
    }
}

/// A single call's fields are not cut to a byte or two: what is too large for them is out of range, while dead too.
#[test]
fn fields_past_their_bytes() {
    for at in moments() {
        let memory = memory_at(&at);
        for kind in [1, 2, 3, 4, 5, 6, 7, 256, 257, 258, u32::MAX] {
            for board_type in [0, 256, 257, u32::MAX] {
                for slot in [0, 65536, 65537, u32::MAX] {
                    let fields = [kind, board_type, slot];
                    let words = memory.clone().call(kind, board_type, slot);
                    assert_words(words, first(NOW, &at, fields), &format!("{fields:?} on {:?}", at.book));
                }
            }
        }
    }
}
