//! Random books: `settle` answers and writes as the plain second filter does, and touches nothing else.

mod lent;

use std::hint::black_box;

use lent::Lent;
use nested_gcc::{settle_into, Refusal, Verdict};
use plain_filter::{settle, Book, Death, Row, Settling};
use random_books::{bytes, every_type, masks_around, near_plan, plan, with_idle, Random};

const BOOKS: usize = 20_000;
/// How often each kind of case comes up at least.
const LEAST: usize = 100;

type Maker = fn(&mut Random) -> Book;

/// Makers of books, each with its share of every 200 books.
const MAKERS: [(usize, Maker); 12] = [
    (60, around_a_plan),
    (10, with_every_type),
    (60, damaged),
    (20, loose),
    (10, one_more_row),
    (6, one_type),
    (6, one_slot),
    (8, no_rows),
    (3, long),
    (4, wide),
    (2, largest),
    (11, many_passes),
];

/// Rows near a plan, and masks around it: a type more in each slot, or most of them.
fn around_a_plan(random: &mut Random) -> Book {
    let (n, k) = (random.between(2, 24), random.between(3, 6));
    let (rows, slack, eighths) = (random.between(n / 2, 2 * n), random.below(3), random.between(1, 6));
    let plan = plan(random, n, k, 2);
    let book = near_plan(random, &plan, k, rows, slack);
    Book { masks: masks_around(random, &plan, k, eighths), ..book }
}

fn with_every_type(random: &mut Random) -> Book {
    let book = around_a_plan(random);
    Book { masks: vec![every_type(book.k); book.n], ..book }
}

/// A mask of some of the types, at least of one.
fn any_mask(random: &mut Random, k: usize) -> u32 {
    random.between(1, every_type(k) as usize) as u32
}

/// Rows near a plan, and masks around it, of which one or two are at odds with it.
fn damaged(random: &mut Random) -> Book {
    let mut book = around_a_plan(random);
    for _ in 0..random.between(1, 2) {
        let slot = random.below(book.n);
        book.masks[slot] = match random.below(2) {
            0 => any_mask(random, book.k),
            _ => 1 << random.below(book.k),
        };
    }
    book
}

/// A few rows with any small bounds, and any masks.
fn loose(random: &mut Random) -> Book {
    let (n, k) = (random.between(1, 10), random.between(2, 5));
    let rows = (0..random.below(5))
        .map(|_| {
            let (board_type, end) = (random.below(k), random.between(1, n));
            let upper = random.one_of(&[None, None, Some(end / 2), Some(end)]);
            Row { board_type, end, lower: random.below(end / 3 + 1), upper }
        })
        .collect();
    Book { n, k, idle: None, masks: (0..n).map(|_| any_mask(random, k)).collect(), rows }
}

/// Rows near a plan, and one that takes no heed of it.
fn one_more_row(random: &mut Random) -> Book {
    let mut book = around_a_plan(random);
    let (board_type, end) = (random.below(book.k), random.between(1, book.n));
    let (lower, upper) = random.one_of(&[(end, None), (1, None), (end / 2, None), (0, Some(0))]);
    book.rows.push(Row { board_type, end, lower, upper });
    book
}

fn one_type(random: &mut Random) -> Book {
    let n = random.between(1, 20);
    near_plan(random, &vec![0; n], 1, n, 1)
}

fn one_slot(random: &mut Random) -> Book {
    let k = random.between(2, 32);
    let rows = (0..random.below(8))
        .map(|_| {
            let upper = random.one_of(&[None, Some(0), Some(0), Some(1)]);
            Row { board_type: random.below(k), end: 1, lower: random.one_of(&[0, 0, 0, 1]), upper }
        })
        .collect();
    Book { n: 1, k, idle: None, masks: vec![any_mask(random, k)], rows }
}

fn no_rows(random: &mut Random) -> Book {
    Book { rows: Vec::new(), ..damaged(random) }
}

fn long(random: &mut Random) -> Book {
    let (k, rows, eighths) = (random.between(2, 4), random.between(20, 200), random.between(1, 5));
    let plan = plan(random, 256, k, 8);
    let book = near_plan(random, &plan, k, rows, 2);
    Book { masks: masks_around(random, &plan, k, eighths), ..book }
}

fn wide(random: &mut Random) -> Book {
    let (n, eighths) = (random.between(1, 20), random.between(1, 4));
    let rows = random.between(0, 100);
    let plan = plan(random, n, 32, 1);
    let book = near_plan(random, &plan, 32, rows, 1);
    Book { masks: masks_around(random, &plan, 32, eighths), ..book }
}

fn largest(random: &mut Random) -> Book {
    let (rows, eighths) = (random.between(500, 1024), random.between(1, 4));
    let plan = plan(random, 256, 32, 4);
    let book = near_plan(random, &plan, 32, rows, 1);
    Book { masks: masks_around(random, &plan, 32, eighths), ..book }
}

/// A live or a dead book that takes the plain filter many passes: one row or mask after another is changed,
/// and a change stays unless it makes the passes fewer.
fn many_passes(random: &mut Random) -> Book {
    let (n, k, rows) = (12, 5, 10);
    let dead = random.below(2) == 0;
    let plan = plan(random, n, k, 2);
    let mut book = near_plan(random, &plan, k, rows, 1);
    book.masks = masks_around(random, &plan, k, 2);
    let worth = |book: &Book| {
        let settling = settle(book);
        (settling.masks.is_err() == dead, settling.passes)
    };
    let mut best = worth(&book);
    for _ in 0..400 {
        let mut other = book.clone();
        match random.below(4) {
            0 => other.masks[random.below(n)] = any_mask(random, k),
            1 => other.masks[random.below(n)] |= any_mask(random, k),
            _ => other.rows[random.below(rows)] = near_plan(random, &plan, k, 1, 1).rows[0],
        }
        let other_worth = worth(&other);
        if other_worth >= best {
            (book, best) = (other, other_worth);
        }
    }
    book
}

/// Each kind of case, and whether the book is one.
fn kinds(book: &Book, settling: &Settling) -> Vec<(&'static str, bool)> {
    let Settling { masks, fixes, strikes, passes } = settling;
    let live = masks.is_ok();
    let fixed = masks.iter().flatten().filter(|mask| mask.count_ones() == 1).count();
    vec![
        ("live", live),
        ("live, unchanged", masks.as_ref() == Ok(&book.masks)),
        ("live, by fixes alone", live && *fixes > 0 && *strikes == 0),
        ("live, by strikes alone", live && *fixes == 0 && *strikes > 0),
        ("live, by fixes and strikes", live && *fixes > 0 && *strikes > 0),
        ("live, not all slots fixed, after a cut", live && fixed < book.n && fixes + strikes > 0),
        ("live, all slots fixed, after a cut", live && fixed == book.n && fixes + strikes > 0),
        ("live in 3 passes", live && *passes == 3),
        ("live in 4 passes or more", live && *passes >= 4),
        ("dead in closing", *masks == Err(Death::Closing)),
        ("too few", *masks == Err(Death::TooFew)),
        ("too few, after a cut", *masks == Err(Death::TooFew) && fixes + strikes > 0),
        ("too many", *masks == Err(Death::TooMany)),
        ("too many, after a cut", *masks == Err(Death::TooMany) && fixes + strikes > 0),
        ("dead in 3 passes or more", !live && *passes >= 3),
        ("no rows", book.rows.is_empty()),
        ("k = 1", book.k == 1),
        ("k = 32", book.k == 32),
        ("k = 32, after a cut", live && book.k == 32 && fixes + strikes > 0),
        ("n = 1, live", book.n == 1 && live),
        ("n = 1, dead", book.n == 1 && !live),
        ("n = 256", book.n == 256),
        ("n = 256, after a cut", live && book.n == 256 && fixes + strikes > 0),
        ("n = 256, k = 32", book.n == 256 && book.k == 32),
        ("no idle type", book.idle.is_none()),
        ("an idle type, after a cut", book.idle.is_some() && live && fixes + strikes > 0),
        ("an idle type, dead", book.idle.is_some() && !live),
        ("the last type idle", book.idle == Some(book.k - 1)),
    ]
}

/// An output of a length that will do: `settle` answers and writes as the plain filter does.
fn assert_settles(random: &mut Random, book: &Book, settling: &Settling) {
    let mut masks = Lent::new(4 * book.n + random.below(12), random.below(256));
    let book_bytes = bytes(book);
    let answer = settle_into(&book_bytes, masks.output());
    let (verdict, written) = match &settling.masks {
        Ok(masks) => (Verdict::Live, masks.iter().flat_map(|mask| mask.to_le_bytes()).collect()),
        Err(_) => (Verdict::Dead, vec![0; 4 * book.n]),
    };
    assert_eq!(answer, Ok(verdict), "{book:?}");
    masks.assert_written(&written, book);
    // The bytes are read anew: a shared slice would let the compiler take them for unchanged.
    assert!(black_box(book_bytes) == bytes(book), "settle wrote to {book:?}");
}

/// An output too short: `settle` refuses and writes nothing.
fn assert_too_short(random: &mut Random, book: &Book) {
    let mut masks = Lent::new(random.below(4 * book.n), random.below(256));
    assert_eq!(settle_into(&bytes(book), masks.output()), Err(Refusal::OutputTooShort), "{book:?}");
    masks.assert_written(&[], book);
}

#[test]
fn random_books() {
    let mut random = Random::new(0x6a09_e667_f3bc_c909);
    let makers: Vec<_> = MAKERS.iter().flat_map(|&(share, maker)| vec![maker; share]).collect();
    assert_eq!(makers.len(), 200);
    let mut met: Vec<(&str, usize)> = Vec::new();
    for turn in 0..BOOKS {
        let book = with_idle(makers[turn % 200](&mut random), turn / 200);
        assert_eq!(Book::parse(&bytes(&book)).as_ref(), Ok(&book), "the maker's book is a good one");
        let settling = settle(&book);
        assert_settles(&mut random, &book, &settling);
        assert_too_short(&mut random, &book);
        let kinds = kinds(&book, &settling);
        if turn == 0 {
            met = kinds.iter().map(|&(kind, _)| (kind, 0)).collect();
        }
        for (met, (_, is)) in met.iter_mut().zip(kinds) {
            met.1 += usize::from(is);
        }
    }
    for (kind, books) in met {
        println!("{books:6} {kind}");
        assert!(books >= LEAST, "{books} books: {kind}");
    }
}
