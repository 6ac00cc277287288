//! The idle type of a book. It changes struck figures, which leave it out, and nothing else: M8 and chains of
//! strikes with every word typed by hand, as sessions and as kept ones; random books with none and with each
//! of their types idle.

mod chains;
mod makers;
mod memory;

use std::collections::BTreeMap;

use makers::{random_book, random_list, HABITS};
use memory::{Guarded, Memory};
use nested_gcc::{
    close_into, session, settle_into, Answer, Book, CallRefusal, Decided, Live, Refusal, Session, Standing,
    Verdict, MASKS_BYTES, TABLE_BYTES,
};
use plain_filter::{self as plain, Machine};
use random_books::{bytes, with_idle, Random};

const BOOKS: usize = 2_000;
/// How often each kind of case comes up at least.
const LEAST: usize = 100;

/// Calls, each with its two words.
type Run = [([u8; 4], [u32; 2])];

/// M8's run where no type is idle. Each of its live decisions takes type 0 from a slot and type 1 from
/// another.
const M8: [([u8; 4], [u32; 2]); 9] = [
    ([3, 0, 0, 0], [3, 0]),
    ([1, 1, 0, 0], [0, 2]),
    ([6, 1, 0, 0], [2, 0]),
    ([4, 0, 0, 0], [3, 0]),
    ([6, 1, 0, 0], [2, 1]),
    ([2, 0, 1, 0], [0, 2]),
    ([5, 0, 0, 0], [2, 1]),
    ([1, 1, 0, 0], [1, 0]),
    ([1, 0, 2, 0], [271, 0]),
];

/// M8's run where type 0 is idle, or type 1.
const M8_IDLE: [([u8; 4], [u32; 2]); 9] = [
    ([3, 0, 0, 0], [3, 0]),
    ([1, 1, 0, 0], [0, 1]),
    ([6, 1, 0, 0], [2, 0]),
    ([4, 0, 0, 0], [3, 0]),
    ([6, 1, 0, 0], [2, 1]),
    ([2, 0, 1, 0], [0, 1]),
    ([5, 0, 0, 0], [2, 1]),
    ([1, 1, 0, 0], [1, 0]),
    ([1, 0, 2, 0], [271, 0]),
];

/// The book with this idle type.
fn with(book: Book, idle: Option<u8>) -> Book {
    match idle {
        Some(board_type) => book.idle(board_type),
        None => book,
    }
}

/// n = 3, k = 2, masks 3 3 3, one row: type 0, end 2, lower 1, no upper.
fn m8(idle: Option<u8>) -> Book {
    with(Book::new(3, 2).row(0, 2, 1, None), idle)
}

/// Two slots have only type 0, of which one is allowed: it closes, and does not settle.
fn unsettled() -> Book {
    Book::new(2, 2).mask(0, 1).mask(1, 1).row(0, 2, 0, Some(1))
}

fn words_of(answers: &[Answer]) -> Vec<u32> {
    answers.iter().flat_map(|answer| answer.words()).collect()
}

/// Opens the book in painted memory.
fn opened(book: &Book, answer: u32) -> Memory {
    let mut memory = Memory::new(5);
    assert_eq!(memory.open(&book.to_bytes()), answer, "{book:?}");
    memory
}

/// Makes the run call by call.
fn assert_calls(memory: &mut Memory, run: &Run) {
    for &([kind, board_type, low, high], words) in run {
        let slot = u16::from_le_bytes([low, high]);
        assert_eq!(memory.call(kind.into(), board_type.into(), slot.into()), words, "{run:?}");
    }
}

/// Makes the run in one step.
fn assert_step(memory: &mut Memory, run: &Run) {
    let (calls, words): (Vec<_>, Vec<_>) = run.iter().copied().unzip();
    let mut answers = Guarded::new(2 * run.len(), 9);
    assert!(memory.step(&calls.concat(), answers.slice_mut()) < 2, "{run:?}");
    assert_eq!(answers.slice(), words.concat(), "{run:?}");
}

/// The run as two lists on a kept session, which is copied between them; by both.
fn assert_run_kept(book: &Book, run: &Run, cut: usize, masks: &[u32]) {
    let (calls, words): (Vec<_>, Vec<_>) = run.iter().copied().unzip();
    let (calls, words) = (calls.concat(), words.concat());
    let mut kept = Live::open(&book.to_bytes()).expect("a good book");
    let first = kept.run(&calls[..4 * cut]).expect("whole calls");
    for session in [&mut kept.clone(), &mut kept] {
        let later = session.run(&calls[4 * cut..]).expect("whole calls");
        assert_eq!(words_of(&[&first[..], &later[..]].concat()), words, "{book:?}, cut at {cut}");
        assert_eq!(session.masks(), masks, "{book:?}, cut at {cut}");
    }
}

/// The run in memory: a step, and from then on a step, and in a copy call by call.
fn assert_run_in_memory(book: &Book, run: &Run, cut: usize, masks: &[u32]) {
    let mut memory = opened(book, 0);
    assert_step(&mut memory, &run[..cut]);
    let mut copy = memory.clone();
    assert_step(&mut memory, &run[cut..]);
    assert_calls(&mut copy, &run[cut..]);
    for memory in [memory, copy] {
        assert_eq!(memory.masks.slice()[..masks.len()], *masks, "{book:?}, cut at {cut}");
        memory.assert_guards(masks.len());
    }
}

/// The run has these words, and leads to these masks: as a session, kept, and in memory.
fn assert_run(book: &Book, run: &Run, masks: &[u32]) {
    let (calls, words): (Vec<_>, Vec<_>) = run.iter().copied().unzip();
    let whole = session(&book.to_bytes(), &calls.concat()).expect("an accepted list");
    assert_eq!((words_of(&whole.answers), &whole.masks[..]), (words.concat(), masks), "{book:?}");
    for cut in 0..=run.len() {
        assert_run_kept(book, run, cut, masks);
        assert_run_in_memory(book, run, cut, masks);
    }
}

#[test]
fn m8_run() {
    for (idle, run) in [(None, &M8), (Some(0), &M8_IDLE), (Some(1), &M8_IDLE)] {
        assert_run(&m8(idle), run, &[1, 2, 3]);
    }
}

/// Slot 2 loses type 1, and no other slot loses a type.
#[test]
fn one_type_struck() {
    for (idle, words) in [(None, [0, 1]), (Some(0), [0, 1]), (Some(1), [0, 0])] {
        assert_run(&m8(idle), &[([1, 0, 2, 0], words)], &[3, 3, 1]);
    }
}

/// M8's run by the method of each kind, with all that a kept session says of itself.
#[test]
fn m8_typed() -> Result<(), CallRefusal> {
    for (idle, struck) in [(None, 2), (Some(0), 1), (Some(1), 1)] {
        let mut session = Live::open(&m8(idle).to_bytes()).expect("a good book");
        assert_eq!((session.slots(), session.types(), session.standing()), (3, 2, Standing::Live));
        session.mark()?;
        assert_eq!(session.assign(0, 1)?, Decided::Live { struck }, "{idle:?}");
        assert_eq!((session.upper_walls(1)?, session.masks()), (0, &[2, 1, 3][..]));
        session.back()?;
        assert_eq!((session.upper_walls(1)?, session.lower_walls(0)?), (1, 1));
        assert_eq!((session.standing(), session.open_marks()), (Standing::Live, 0));
        assert_eq!(session.remove(1, 0)?, Decided::Live { struck }, "{idle:?}");
        assert_eq!(session.show(0)?, 1);
        assert_eq!(session.assign(0, 1)?, Decided::Dead);
        assert_eq!(session.assign(2, 0), Err(CallRefusal::WhileDead));
        assert_eq!((session.standing(), session.calls_made()), (Standing::Dead { call: 8 }, 10));
        assert_eq!(session.clone().standing(), Standing::Dead { call: 8 });
        assert_eq!(session.run_into(&[], &mut []), Ok(Verdict::Dead));
    }
    Ok(())
}

/// Marks, backs, a death and refused calls on the way: the idle type stays. Of the live decisions the first,
/// the third and the fourth take type 1 from a slot; the second takes type 0 from slot 0, and type 1 from
/// slot 1.
#[test]
fn the_idle_type_stays() {
    let cases = [(None, [1, 2, 1, 1]), (Some(0), [1, 1, 1, 1]), (Some(1), [0, 1, 0, 0])];
    for (idle, [first, second, third, fourth]) in cases {
        let run = [
            ([3, 0, 0, 0], [3, 0]),
            ([1, 0, 2, 0], [0, first]),
            ([3, 0, 0, 0], [3, 0]),
            ([1, 1, 0, 0], [0, second]),
            ([1, 1, 1, 0], [1, 0]),
            ([2, 1, 2, 0], [271, 0]),
            ([4, 0, 0, 0], [3, 0]),
            ([9, 0, 0, 0], [267, 0]),
            ([1, 0, 0, 0], [0, third]),
            ([5, 0, 0, 0], [2, 1]),
            ([4, 0, 0, 0], [3, 0]),
            ([4, 0, 0, 0], [270, 0]),
            ([2, 1, 2, 0], [0, fourth]),
            ([2, 1, 2, 0], [0, 0]),
        ];
        assert_run(&m8(idle), &run, &[3, 3, 1]);
    }
}

/// Slot 1 keeps type 31 alone, and slot 0 loses type 0.
#[test]
fn the_idle_type_of_32() {
    for (idle, assigned, removed) in [(None, 31, 1), (Some(0), 30, 0), (Some(1), 30, 1), (Some(31), 31, 1)] {
        let run = [([1, 31, 1, 0], [0, assigned]), ([2, 0, 0, 0], [0, removed])];
        assert_run(&with(Book::new(2, 32), idle), &run, &[0xffff_fffe, 0x8000_0000]);
    }
}

/// Each of 256 slots loses a type: slot 0 type 1, and slot s the type s - 1 modulo 32. So each type is struck
/// 8 times, but type 1 once more, and type 31 once less.
#[test]
fn a_chain_of_strikes() {
    let fixed: Vec<u32> = (0..256).map(|slot| 1 << (slot % 32)).collect();
    for (idle, struck) in [(None, 256), (Some(0), 248), (Some(1), 247), (Some(2), 248), (Some(31), 249)] {
        let book = with(chains::strikes().mask(0, 3), idle);
        assert_run(&book, &[([1, 0, 0, 0], [0, struck])], &fixed);
    }
}

/// Each slot but the last loses a type: slot s the type s + 1 modulo 32. So each type is struck 8 times, but
/// type 0 once less.
#[test]
fn a_chain_of_fixes() {
    let mut masks: Vec<u32> = (0..256).map(|slot| 1 << (slot % 32)).collect();
    masks[255] = 0x8000_0001;
    for (idle, struck) in [(None, 255), (Some(0), 248), (Some(1), 247), (Some(31), 247)] {
        let book = with(chains::fixes().mask(0, 3), idle);
        assert_run(&book, &[([1, 0, 0, 0], [0, struck])], &masks);
    }
}

/// Live, dead of a call, or opened dead: what a host reads in the record does not tell the idle type.
#[test]
fn the_record() {
    for idle in [None, Some(0), Some(1)] {
        let mut memory = opened(&m8(idle), 0);
        assert_eq!(memory.numbers(), [3, 2, 0, 0, 0, 0]);
        assert_step(&mut memory, if idle.is_none() { &M8 } else { &M8_IDLE });
        assert_eq!(memory.numbers(), [3, 2, 9, 1, 7, 0]);
        let memory = opened(&with(unsettled(), idle), 1);
        assert_eq!(memory.numbers(), [2, 2, 0, 2, 0, 0]);
        let session = Live::open(&with(unsettled(), idle).to_bytes()).expect("a good book");
        assert_eq!((session.standing(), session.masks()), (Standing::OpenedDead, &[0, 0][..]));
    }
}

/// A second opening in the same memory has its own idle type. A refused one leaves that of the first.
#[test]
fn opened_again() {
    let mut memory = opened(&m8(Some(1)), 0);
    assert_calls(&mut memory, &[([3, 0, 0, 0], [3, 0]), ([1, 0, 2, 0], [0, 0]), ([4, 0, 0, 0], [3, 0])]);
    let before = memory.clone();
    assert_eq!(memory.open(&m8(Some(2)).to_bytes()), 256 + Refusal::IdleType.number());
    assert!(memory == before);
    assert_calls(&mut memory, &[([1, 0, 2, 0], [0, 0])]);
    for (idle, words) in [(Some(0), [0, 1]), (Some(1), [0, 0]), (None, [0, 1]), (Some(1), [0, 0])] {
        assert_eq!(memory.open(&m8(idle).to_bytes()), 0);
        assert_calls(&mut memory, &[([1, 0, 2, 0], words)]);
    }
}

/// What `close` and `settle` answer, and all that is then in their outputs, which are longer than any book
/// needs.
fn tables_and_masks(book: &[u8]) -> (Verdict, Verdict, [Vec<u8>; 3]) {
    let mut outputs = [TABLE_BYTES + 3, TABLE_BYTES + 3, MASKS_BYTES + 3].map(|length| vec![0xa5; length]);
    let [lowers, uppers, masks] = &mut outputs;
    let closed = close_into(book, lowers, uppers).expect("a good book");
    let settled = settle_into(book, masks).expect("a good book");
    (closed, settled, outputs)
}

/// The struck figures, and the answers with 0 for each of them.
fn apart(answers: &[Answer]) -> (Vec<u32>, Vec<Answer>) {
    let figure = |&answer: &Answer| match answer {
        Answer::Live { struck } => (Some(struck), Answer::Live { struck: 0 }),
        other => (None, other),
    };
    let (figures, others): (Vec<_>, Vec<_>) = answers.iter().map(figure).unzip();
    (figures.into_iter().flatten().collect(), others)
}

/// The list is answered as the plain machine answers it.
fn assert_plain(book: &plain::Book, calls: &[u8], ran: &Session) {
    let mut machine = Machine::open(book);
    assert_eq!(ran.opened == Verdict::Dead, machine.dead, "{book:?}");
    let words = calls.chunks_exact(4).flat_map(|call| machine.call([call[0], call[1], call[2], call[3]]));
    assert_eq!(words_of(&ran.answers), words.collect::<Vec<u32>>(), "{calls:?} on {book:?}");
    assert_eq!(ran.masks, machine.masks, "{book:?}");
}

/// The list on a kept session, which is copied on the way, is answered as in one session; by both.
fn assert_kept(book: &plain::Book, calls: &[u8], cut: usize, ran: &Session) {
    let mut kept = Live::open(&bytes(book)).expect("a good book");
    let first = kept.run(&calls[..cut]).expect("whole calls");
    for session in [&mut kept.clone(), &mut kept] {
        let later = session.run(&calls[cut..]).expect("whole calls");
        assert!([&first[..], &later[..]].concat() == ran.answers, "{calls:?} on {book:?}");
        assert_eq!((session.masks(), session.calls_made()), (&ran.masks[..], calls.len() as u64 / 4));
        let opened_dead = session.standing() == Standing::OpenedDead;
        assert_eq!(opened_dead, ran.opened == Verdict::Dead, "{book:?}");
    }
}

/// The sessions, the first without an idle type and then one with each type idle, differ in struck figures
/// alone. The figures of each.
fn assert_alike(book: &plain::Book, sessions: &[Session]) -> Vec<Vec<u32>> {
    let (figures, others): (Vec<_>, Vec<_>) = sessions.iter().map(|ran| apart(&ran.answers)).unzip();
    for (ran, others_of) in sessions.iter().zip(&others) {
        assert_eq!(ran.opened, sessions[0].opened, "{book:?}");
        assert_eq!(ran.masks, sessions[0].masks, "{book:?}");
        assert_eq!(*others_of, others[0], "{book:?}");
    }
    figures
}

/// What is struck of all types is in the first figure of a decision; each later one lacks what is struck of
/// one type.
fn assert_each_lacks_its_own(book: &plain::Book, figures: &[Vec<u32>]) {
    for (at, &all) in figures[0].iter().enumerate() {
        assert!(figures.iter().all(|of| of[at] <= all), "{book:?}");
        let lacking: u32 = figures[1..].iter().map(|of| all - of[at]).sum();
        assert_eq!(lacking, all, "decision {at} on {book:?}");
    }
}

/// How often each kind of case came up.
#[derive(Default)]
struct Met(BTreeMap<&'static str, usize>);

impl Met {
    fn count(&mut self, case: &'static str, times: usize) {
        *self.0.entry(case).or_default() += times;
    }

    /// A book, its session without an idle type, and the figures of all its sessions, that one's first.
    fn book(&mut self, book: &plain::Book, ran: &Session, figures: &[Vec<u32>]) {
        self.count("books opened dead", usize::from(ran.opened == Verdict::Dead));
        self.count("books of 1 type", usize::from(book.k == 1));
        self.count("books of 32 types", usize::from(book.k == 32));
        self.count("decisions dead", ran.answers.iter().filter(|&&answer| answer == Answer::Dead).count());
        let decisions = |is: &dyn Fn(usize) -> bool| (0..figures[0].len()).filter(|&at| is(at)).count();
        let differs = |at: usize| figures[1..].iter().any(|of| of[at] != figures[1][at]);
        let hidden = |at: usize| figures[0][at] > 0 && figures.iter().any(|of| of[at] == 0);
        let many = |at: usize| figures[0][at] >= 10;
        self.count("figures that differ between two idle types", decisions(&differs));
        self.count("figures of 0 for an idle type alone", decisions(&hidden));
        self.count("10 or more struck of all types", decisions(&many));
    }
}

#[test]
fn random_books_with_each_idle_type() {
    let mut random = Random::new(0x428a_2f98_d728_ae22);
    let mut met = Met::default();
    for turn in 0..BOOKS {
        let book = random_book(&mut random);
        let length = random.between(0, 60);
        let calls = random_list(&mut random, &book, length, turn % HABITS.len());
        let cut = 4 * random.between(0, length);
        let books: Vec<_> = (0..=book.k).map(|byte_3| with_idle(book.clone(), byte_3)).collect();
        let sessions: Vec<Session> =
            books.iter().map(|book| session(&bytes(book), &calls).expect("an accepted list")).collect();
        let written = tables_and_masks(&bytes(&book));
        for (byte_3, (book, ran)) in books.iter().zip(&sessions).enumerate() {
            assert_eq!(usize::from(bytes(book)[3]), byte_3);
            assert!(tables_and_masks(&bytes(book)) == written, "{book:?}");
            assert_plain(book, &calls, ran);
            assert_kept(book, &calls, cut, ran);
        }
        let figures = assert_alike(&book, &sessions);
        assert_each_lacks_its_own(&book, &figures);
        met.book(&book, &sessions[0], &figures);
    }
    for (case, times) in &met.0 {
        println!("{times:7} {case}");
        assert!(*times >= LEAST, "{times} times: {case}");
    }
    assert_eq!(met.0.len(), 7);
}
