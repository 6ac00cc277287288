//! Random sessions kept over random pieces: words, masks and record are those of the plain kept session after every piece,
//! the words and the last masks those of the whole list in one `session`, and nothing else is touched.

mod makers;
mod memory;

use std::collections::BTreeMap;

use makers::{random_book, random_list, HABITS};
use memory::{Guarded, Memory};
use nested_gcc::{session, Answer, Decided, Live, Standing, Verdict, CALLS_BYTES};
use plain_filter::{self as plain, Book, Kept};
use random_books::{bytes, masks_around, near_plan, plan, with_idle, Random};

const SESSIONS: usize = 3_000;
/// How often each kind of case comes up at least.
const LEAST: usize = 100;

/// A kept session three times: as the library's memory, as the Rust type, and plainly.
struct Three {
    memory: Memory,
    live: Live,
    plain: Kept,
    k: usize,
}

impl Three {
    fn open(book: &Book, seed: usize) -> Three {
        let plain = Kept::open(book);
        let mut memory = Memory::new(seed);
        assert_eq!(memory.open(&bytes(book)), u32::from(plain.machine.dead), "{book:?}");
        let live = Live::open(&bytes(book)).expect("a good book");
        let three = Three { memory, live, plain, k: book.k };
        three.assert_alike(book);
        three
    }

    /// Masks and record of all three agree; guards and masks past the n-th are kept.
    fn assert_alike(&self, book: &Book) {
        let machine = &self.plain.machine;
        let n = machine.masks.len();
        let (standing, dead_call) = match self.plain.standing {
            plain::Standing::Live => (Standing::Live, 0),
            plain::Standing::Dead(call) => (Standing::Dead { call }, call),
            plain::Standing::OpenedDead => (Standing::OpenedDead, 0),
        };
        let number = match standing {
            Standing::Live => 0,
            Standing::Dead { .. } => 1,
            Standing::OpenedDead => 2,
        };
        let (made, marks) = (self.plain.made, machine.pile.len());
        assert_eq!(self.memory.masks.slice()[..n], machine.masks, "{book:?}");
        assert_eq!(
            self.memory.numbers(),
            [n, self.k, made as usize, number, dead_call as usize, marks],
            "{book:?}"
        );
        self.memory.assert_guards(n);
        assert_eq!(self.live.masks(), machine.masks, "{book:?}");
        assert_eq!((self.live.slots(), self.live.types()), (n, self.k));
        assert_eq!((self.live.calls_made(), self.live.open_marks()), (made, marks), "{book:?}");
        assert_eq!(self.live.standing(), standing, "{book:?}");
    }

    /// Makes the calls in one step; their words.
    fn step(&mut self, random: &mut Random, calls: &[u8], book: &Book) -> Vec<u32> {
        let words = self.plain.step(calls, calls.len() / 2).expect("an accepted list");
        let mut answers = Guarded::new(words.len() + random.below(9), random.below(1000));
        let answer = self.memory.step(calls, answers.slice_mut());
        assert_eq!(answer, u32::from(self.plain.machine.dead), "{book:?}");
        assert_eq!(answers.slice()[..words.len()], words, "{calls:?} on {book:?}");
        answers.assert_kept_from(words.len(), "answers");
        let ran = self.live.run(calls).expect("whole calls");
        assert_eq!(words_of(&ran), words, "{calls:?} on {book:?}");
        words
    }

    /// Makes the calls one by one.
    fn calls(&mut self, calls: &[u8], book: &Book) -> Vec<u32> {
        let one = |call: &[u8]| {
            let [kind, board_type, low, high] = [call[0], call[1], call[2], call[3]];
            let slot = u16::from_le_bytes([low, high]);
            let words = self.plain.call([kind, board_type, low, high]);
            let got = self.memory.call(kind.into(), board_type.into(), slot.into());
            assert_eq!(got, words, "{call:?} on {book:?}");
            assert_eq!(call_typed(&mut self.live, kind, board_type, slot), words, "{call:?} on {book:?}");
            words
        };
        calls.chunks_exact(4).flat_map(one).collect()
    }

    /// Lists and memory that are refused: nothing changes.
    fn refusals(&mut self, random: &mut Random, book: &Book) {
        let list = vec![3; random.one_of(&[1, 2, 3, 5, 7, 16385, 16388, 20000])];
        let calls = vec![3; 4 * random.between(1, 20)];
        let before = self.memory.clone();
        let mut answers = Guarded::new(random.below(20000), 1);
        assert_eq!(self.memory.step(&list, answers.slice_mut()), 266);
        answers.assert_kept_from(0, "answers");
        let mut answers = Guarded::new(random.below(calls.len() / 2), 1);
        assert_eq!(self.memory.step(&calls, answers.slice_mut()), 265);
        answers.assert_kept_from(0, "answers");
        let cut = random.below(bytes(book).len());
        assert!(self.memory.open(&bytes(book)[..cut]) > 256);
        assert!(self.memory == before, "{book:?}");
    }
}

fn words_of(answers: &[Answer]) -> Vec<u32> {
    answers.iter().flat_map(|answer| answer.words()).collect()
}

/// The call by the method of its kind; kinds that have none by a list.
fn call_typed(live: &mut Live, kind: u8, board_type: u8, slot: u16) -> [u32; 2] {
    let decided = |decided| match decided {
        Decided::Live { struck } => [0, struck],
        Decided::Dead => [1, 0],
    };
    let words = match kind {
        1 => live.assign(slot, board_type).map(decided),
        2 => live.remove(slot, board_type).map(decided),
        3 => live.mark().map(|()| [3, 0]),
        4 => live.back().map(|()| [3, 0]),
        5 => live.show(slot).map(|mask| [2, mask]),
        6 => live.upper_walls(board_type).map(|walls| [2, walls]),
        7 => live.lower_walls(board_type).map(|walls| [2, walls]),
        _ => {
            let [low, high] = slot.to_le_bytes();
            return live.run(&[kind, board_type, low, high]).expect("whole calls")[0].words();
        }
    };
    words.unwrap_or_else(|refusal| [256 + refusal.number(), 0])
}

/// Whether the idle type makes a struck figure of the list less than it would be without.
fn lessens(book: &Book, calls: &[u8], words: &[u32]) -> bool {
    let without = Book { idle: None, ..book.clone() };
    words_of(&session(&bytes(&without), calls).expect("an accepted list").answers) != words
}

fn assert_is_one_session(book: &Book, calls: &[u8], words: &[u32], three: &Three) {
    let whole = session(&bytes(book), calls).expect("an accepted list");
    assert_eq!(words_of(&whole.answers), words, "{book:?}");
    assert_eq!(whole.masks, three.live.masks(), "{book:?}");
    assert_eq!(whole.opened == Verdict::Dead, three.live.standing() == Standing::OpenedDead);
}

#[test]
fn random_pieces() {
    let mut random = Random::new(0x9b05_688c_2b3e_6c1f);
    let mut met: BTreeMap<&str, usize> = BTreeMap::new();
    for turn in 0..SESSIONS {
        // Lengths and habits go by the turn modulo 20: each of them meets each idle type.
        let book = with_idle(random_book(&mut random), turn / 20);
        let length = if turn % 20 == 2 { 450 } else { random.between(0, 120) };
        let calls = random_list(&mut random, &book, length, turn % HABITS.len());
        let mut three = Three::open(&book, turn);
        let (mut at, mut words) = (0, Vec::new());
        while at < calls.len() {
            let most = random.one_of(&[1, 3, 10, 100]);
            let to = usize::min(at + 4 * random.between(0, most), calls.len());
            let before = three.plain.standing;
            if random.below(3) == 0 {
                words.extend(three.calls(&calls[at..to], &book));
                *met.entry("calls one by one").or_default() += 1;
            } else {
                words.extend(three.step(&mut random, &calls[at..to], &book));
                *met.entry("a step").or_default() += 1;
            }
            three.assert_alike(&book);
            if random.below(8) == 0 {
                three.refusals(&mut random, &book);
                three.assert_alike(&book);
            }
            if random.below(8) == 0 {
                // Another place in memory: the copy goes on.
                three.memory = three.memory.clone();
                three.live = three.live.clone();
            }
            let case = match (before, three.plain.standing) {
                (plain::Standing::OpenedDead, _) => "opened dead",
                (plain::Standing::Dead(then), plain::Standing::Dead(call)) if then == call => "still dead",
                (plain::Standing::Dead(_), plain::Standing::Dead(_)) => "dead of another call",
                (plain::Standing::Dead(_), _) => "live again",
                (_, plain::Standing::Dead(_)) => "died",
                _ => "stayed live, or is so again",
            };
            *met.entry(case).or_default() += 1;
            if three.plain.machine.pile.len() == 256 {
                *met.entry("256 marks open after a piece").or_default() += 1;
            }
            at = to;
        }
        assert_is_one_session(&book, &calls, &words, &three);
        let idle = if book.idle.is_some() { "an idle type" } else { "no idle type" };
        *met.entry(idle).or_default() += 1;
        if lessens(&book, &calls, &words) {
            *met.entry("figures less for the idle type").or_default() += 1;
        }
    }
    for (case, times) in &met {
        println!("{times:7} {case}");
        assert!(*times >= LEAST, "{times} times: {case}");
    }
    assert_eq!(met.len(), 12);
}

/// Two sessions side by side, a third copied from the first on the way: each goes on as if it were alone.
#[test]
fn random_copies() {
    let mut random = Random::new(0x1f83_d9ab_5be0_cd19);
    for turn in 0..SESSIONS / 10 {
        let (first, second) = (random_book(&mut random), random_book(&mut random));
        let (first, second) = (with_idle(first, turn / 4), with_idle(second, turn / 4 + 1));
        let lists: Vec<Vec<u8>> = [&first, &second, &first]
            .into_iter()
            .map(|book| random_list(&mut random, book, 80, turn % HABITS.len()))
            .collect();
        // The third list begins as the first does.
        let begun = 4 * random.below(60);
        let third = [&lists[0][..begun], &lists[2][begun..]].concat();
        let mut a = Three::open(&first, 1);
        let mut b = Three::open(&second, 2);
        let (mut a_words, mut b_words) = (Vec::new(), Vec::new());
        let mut copy = None;
        for at in (0..lists[0].len()).step_by(4) {
            if at == begun {
                let three = Three {
                    memory: a.memory.clone(),
                    live: a.live.clone(),
                    plain: a.plain.clone(),
                    k: first.k,
                };
                copy = Some((three, a_words.clone()));
            }
            a_words.extend(a.calls(&lists[0][at..at + 4], &first));
            b_words.extend(b.step(&mut random, &lists[1][at..at + 4], &second));
            if let Some((copy, words)) = &mut copy {
                words.extend(copy.calls(&third[at..at + 4], &first));
            }
        }
        let (copy, copy_words) = copy.expect("a copy was made");
        for (three, book, calls, words) in [
            (&a, &first, &lists[0], &a_words),
            (&b, &second, &lists[1], &b_words),
            (&copy, &first, &third, &copy_words),
        ] {
            three.assert_alike(book);
            assert_is_one_session(book, calls, words, three);
        }
    }
}

/// Books with a few bits flipped, opened where another session was: a refusal leaves it all as it was, and it goes on; a
/// good book opens as the plain session does.
#[test]
fn damaged_books() {
    let mut random = Random::new(0x3c6e_f372_fe94_f82b);
    let (mut refused, mut good, mut idle) = (BTreeMap::new(), 0, 0);
    for turn in 0..2 * SESSIONS {
        let book = with_idle(random_book(&mut random), turn);
        let mut memory = Memory::new(turn);
        assert!(memory.open(&bytes(&book)) < 2);
        let before = memory.clone();
        let mut damaged = bytes(&book);
        for _ in 0..random.between(1, 4) {
            let at = if random.below(2) == 0 { random.below(12) } else { random.below(damaged.len()) };
            damaged[at] ^= 1 << random.below(8);
        }
        let answer = memory.open(&damaged);
        match Book::parse(&damaged) {
            Err(number) => {
                assert_eq!(answer, 256 + number, "{damaged:?}");
                assert!(memory == before, "{damaged:?}");
                assert_eq!(memory.call(5, 0, 0), [2, before.masks.slice()[0]]);
                assert_eq!(Live::open(&damaged).map_err(|refusal| refusal.number()).err(), Some(number));
                *refused.entry(number).or_insert(0) += 1;
            }
            Ok(other) => {
                let plain = Kept::open(&other);
                assert_eq!(answer, u32::from(plain.machine.dead), "{other:?}");
                assert_eq!(memory.masks.slice()[..other.n], plain.machine.masks, "{other:?}");
                memory.assert_guards(usize::max(book.n, other.n));
                good += 1;
                idle += usize::from(other.idle != book.idle);
            }
        }
    }
    println!("{good} good, of which {idle} have another idle type; refused {refused:?}");
    assert!(good >= LEAST && (2..=8).all(|number| refused[&number] >= LEAST));
    assert!(idle >= LEAST / 5);
}

/// 100,000 calls by steps of up to 4096, against the plain session; the first 4096 against `session` too.
#[test]
fn a_long_session() {
    let mut random = Random::new(0x6a09_e667_f3bc_c908);
    for (k, idle, rows, slack, habit) in [(3, Some(1), 60, 3, 0), (8, None, 100, 2, 1)] {
        let plan = plan(&mut random, 40, k, 3);
        let mut book = Book { idle, ..near_plan(&mut random, &plan, k, rows, slack) };
        book.masks = masks_around(&mut random, &plan, k, 4);
        let calls = random_list(&mut random, &book, 100_000, habit);
        let mut three = Three::open(&book, k);
        let (mut at, mut words) = (0, Vec::new());
        while at < calls.len() {
            let bits = random.between(0, 12);
            let to = usize::min(at + 4 * random.between(0, 1 << bits), calls.len());
            words.extend(three.step(&mut random, &calls[at..to], &book));
            three.assert_alike(&book);
            at = to;
        }
        assert_eq!(three.live.calls_made(), 100_000);
        let first = session(&bytes(&book), &calls[..CALLS_BYTES]).expect("an accepted list");
        assert!(words_of(&first.answers) == words[..CALLS_BYTES / 2]);
    }
}
