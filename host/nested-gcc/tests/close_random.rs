//! Random books: `close` answers and writes as the plain second filter does, and touches nothing else.

mod lent;

use std::hint::black_box;

use lent::Lent;
use nested_gcc::{close_into, Refusal, Verdict};
use plain_filter::{close, Book, Closing, Row};
use random_books::{bytes, count, every_type, near_plan, plan, row_near_plan, with_idle, Random};

const BOOKS: usize = 20_000;
/// How often each kind of case comes up at least.
const LEAST: usize = 100;

type Maker = fn(&mut Random) -> Book;

/// Makers of books, each with its share of every 200 books.
const MAKERS: [(usize, Maker); 14] = [
    (56, tight),
    (40, loose),
    (20, past_a_plan),
    (10, crossed),
    (20, crowded),
    (10, one_type),
    (10, one_slot),
    (3, long),
    (3, wide),
    (1, largest),
    (3, most_rows),
    (4, lower_256),
    (11, dead_in_round_2),
    (9, many_rounds),
];

/// Rows close to the counts of a plan, at many ends.
fn tight(random: &mut Random) -> Book {
    let (n, k) = (random.between(2, 24), random.between(2, 6));
    let (longest, rows) = (random.between(1, 3), random.between(n, 3 * n));
    let slack = random.below(2);
    let plan = plan(random, n, k, longest);
    near_plan(random, &plan, k, rows, slack)
}

/// A few rows with any small bounds.
fn loose(random: &mut Random) -> Book {
    let (n, k) = (random.between(2, 12), random.between(1, 6));
    let rows = (0..random.below(6))
        .map(|_| {
            let (board_type, end) = (random.below(k), random.between(1, n));
            let (some, more) = (random.below(end + 1), random.below(end + 1));
            let (lower, upper) = (random.one_of(&[0, some]), random.one_of(&[None, Some(more), Some(256)]));
            Row { board_type, end, lower, upper }
        })
        .collect();
    Book { n, k, idle: None, masks: vec![every_type(k); n], rows }
}

/// A row that the plan just breaks.
fn broken_row(random: &mut Random, plan: &[usize], k: usize) -> Row {
    let (board_type, end) = (random.below(k), random.between(1, plan.len()));
    let count = count(plan, board_type, end);
    match random.below(2) {
        0 => Row { board_type, end, lower: count + 1, upper: None },
        _ => Row { board_type, end, lower: 0, upper: Some(count.saturating_sub(1)) },
    }
}

/// Rows close to a plan, and one that the plan just breaks.
fn past_a_plan(random: &mut Random) -> Book {
    let (n, k) = (random.between(3, 16), random.between(2, 5));
    let plan = plan(random, n, k, 2);
    let mut book = near_plan(random, &plan, k, n, 2);
    book.rows.push(broken_row(random, &plan, k));
    book
}

/// Rows close to a plan, and one with its lower above its upper or its end.
fn crossed(random: &mut Random) -> Book {
    let mut book = tight(random);
    let (board_type, end) = (random.below(book.k), random.between(1, book.n));
    let row = match random.below(2) {
        0 => Row { board_type, end, lower: random.between(end + 1, 256), upper: None },
        _ => Row { board_type, end, lower: end, upper: Some(end - 1) },
    };
    book.rows.insert(random.below(book.rows.len() + 1), row);
    book
}

/// Many rows for each of a few types and ends.
fn crowded(random: &mut Random) -> Book {
    let (n, k) = (random.between(1, 8), random.between(1, 4));
    let plan = plan(random, n, k, 2);
    let mut book = near_plan(random, &plan, k, 0, 0);
    for _ in 0..random.between(1, 3) {
        let (board_type, end) = (random.below(k), random.between(1, n));
        for _ in 0..random.between(4, 12) {
            let mut row = row_near_plan(random, &plan, board_type, end, 3);
            if random.below(4) == 0 {
                row.upper = None;
            }
            book.rows.insert(random.below(book.rows.len() + 1), row);
        }
    }
    book
}

fn one_type(random: &mut Random) -> Book {
    let n = random.between(1, 20);
    let mut book = near_plan(random, &vec![0; n], 1, n / 2, 1);
    if random.below(2) == 0 {
        book.rows.push(Row {
            board_type: 0,
            end: random.between(1, n),
            lower: 0,
            upper: Some(random.below(n)),
        });
    }
    book
}

fn one_slot(random: &mut Random) -> Book {
    let k = random.between(1, 32);
    let rows = (0..random.below(8))
        .map(|_| {
            let upper = random.one_of(&[None, None, Some(0), Some(1)]);
            Row { board_type: random.below(k), end: 1, lower: random.one_of(&[0, 0, 0, 1]), upper }
        })
        .collect();
    Book { n: 1, k, idle: None, masks: vec![every_type(k)], rows }
}

fn long(random: &mut Random) -> Book {
    let k = random.between(1, 4);
    let rows = random.between(0, 200);
    let plan = plan(random, 256, k, 8);
    near_plan(random, &plan, k, rows, 2)
}

fn wide(random: &mut Random) -> Book {
    let n = random.between(1, 16);
    let rows = random.between(0, 100);
    let plan = plan(random, n, 32, 2);
    near_plan(random, &plan, 32, rows, 1)
}

fn largest(random: &mut Random) -> Book {
    let rows = random.between(500, 1024);
    let plan = plan(random, 256, 32, 4);
    let mut book = near_plan(random, &plan, 32, rows, 1);
    if random.below(2) == 0 {
        book.rows[rows - 1].lower += 1;
    }
    book
}

fn most_rows(random: &mut Random) -> Book {
    let (n, k) = (random.between(4, 40), random.between(2, 8));
    let plan = plan(random, n, k, 3);
    let mut book = near_plan(random, &plan, k, 1024, 3);
    // The last row counts too.
    let last = &mut book.rows[1023];
    last.lower = count(&plan, last.board_type, last.end);
    book
}

fn lower_256(random: &mut Random) -> Book {
    let (n, k) = (random.one_of(&[256, 256, 255, 3]), random.between(1, 3));
    let row =
        Row { board_type: random.below(k), end: random.one_of(&[n, n, n - 1]), lower: 256, upper: None };
    Book { n, k, idle: None, masks: vec![every_type(k); n], rows: vec![row] }
}

/// A book whose death shows in the second round or later: rows near a plan, and one more, just past an entry
/// of their closed table.
fn dead_in_round_2(random: &mut Random) -> Book {
    let (n, k) = (8, 4);
    loop {
        let plan = plan(random, n, k, 2);
        let mut book = near_plan(random, &plan, k, 12, 0);
        let table = close(&book).table.expect("the plan keeps every row");
        let (board_type, end) = (random.below(k), random.between(1, n));
        let upper = table.upper[board_type][end] as usize;
        book.rows.push(Row { board_type, end, lower: upper + 1, upper: None });
        if close(&book).rounds >= 2 {
            return book;
        }
    }
}

/// A book that takes many rounds to close or to show its death: one row after another is changed, and a
/// change stays unless it makes the rounds fewer.
fn many_rounds(random: &mut Random) -> Book {
    let (n, k) = (12, 5);
    let plan = plan(random, n, k, 2);
    let mut book = near_plan(random, &plan, k, 14, 0);
    let mut rounds = close(&book).rounds;
    for _ in 0..300 {
        let mut other = book.clone();
        let at = random.below(14);
        other.rows[at] = match random.below(3) {
            0 => broken_row(random, &plan, k),
            _ => near_plan(random, &plan, k, 1, 0).rows[0],
        };
        let other_rounds = close(&other).rounds;
        if other_rounds >= rounds {
            (book, rounds) = (other, other_rounds);
        }
    }
    book
}

/// Each kind of case, and whether the book is one.
fn kinds(book: &Book, closing: &Closing) -> Vec<(&'static str, bool)> {
    let live = closing.table.is_some();
    let rows_like = |row: &Row| {
        book.rows.iter().filter(|other| (other.board_type, other.end) == (row.board_type, row.end)).count()
    };
    let entries: Vec<(i64, i64)> = closing
        .table
        .as_ref()
        .map_or(Vec::new(), |table| table.lower.concat().into_iter().zip(table.upper.concat()).collect());
    let fixed = entries.iter().filter(|(lower, upper)| lower == upper).count();
    vec![
        ("live", live),
        ("live in round 0 or 1", live && closing.rounds <= 1),
        ("live in round 2", live && closing.rounds == 2),
        ("live in round 3 or later", live && closing.rounds >= 3),
        ("live in round 4 or later", live && closing.rounds >= 4),
        ("live, most entries with lower = upper", 2 * fixed > entries.len()),
        ("dead", !live),
        ("dead at the start", !live && closing.rounds == 0),
        ("dead in round 1", !live && closing.rounds == 1),
        ("dead in round 2", !live && closing.rounds == 2),
        ("dead in round 3 or later", !live && closing.rounds >= 3),
        ("dead in round 4 or later", !live && closing.rounds >= 4),
        ("no rows", book.rows.is_empty()),
        ("4 rows or more for one type and end", book.rows.iter().any(|row| rows_like(row) >= 4)),
        ("r = 1024", book.rows.len() == 1024),
        ("k = 1, live", book.k == 1 && live),
        ("k = 1, dead", book.k == 1 && !live),
        ("k = 32", book.k == 32),
        ("n = 1, live", book.n == 1 && live),
        ("n = 1, dead", book.n == 1 && !live),
        ("n = 256", book.n == 256),
        ("lower 256", book.rows.iter().any(|row| row.lower == 256)),
        ("an entry above 255", entries.iter().any(|&(_, upper)| upper > 255)),
        ("no idle type", book.idle.is_none()),
        ("an idle type, live", book.idle.is_some() && live),
        ("an idle type, dead", book.idle.is_some() && !live),
        ("the last type idle", book.idle == Some(book.k - 1)),
    ]
}

/// The elements of the bounds, or zeros in their place if the book is dead.
fn elements(book: &Book, bounds: Option<&Vec<Vec<i64>>>) -> Vec<u8> {
    match bounds {
        Some(bounds) => bounds.iter().flatten().flat_map(|&bound| (bound as u16).to_le_bytes()).collect(),
        None => vec![0; 2 * book.k * (book.n + 1)],
    }
}

/// Outputs of lengths that will do: `close` answers and writes as the plain filter does.
fn assert_closes(random: &mut Random, book: &Book, closing: &Closing) {
    let needed = 2 * book.k * (book.n + 1);
    let [mut lowers, mut uppers] = [0; 2].map(|_| Lent::new(needed + random.below(6), random.below(256)));
    let book_bytes = bytes(book);
    let answer = close_into(&book_bytes, lowers.output(), uppers.output());
    let table = closing.table.as_ref();
    assert_eq!(answer, Ok(if table.is_some() { Verdict::Live } else { Verdict::Dead }), "{book:?}");
    lowers.assert_written(&elements(book, table.map(|table| &table.lower)), &("lowers", book));
    uppers.assert_written(&elements(book, table.map(|table| &table.upper)), &("uppers", book));
    // The bytes are read anew: a shared slice would let the compiler take them for unchanged.
    assert!(black_box(book_bytes) == bytes(book), "close wrote to {book:?}");
}

/// One output too short, or both: `close` refuses and writes nothing.
fn assert_too_short(random: &mut Random, book: &Book) {
    let needed = 2 * book.k * (book.n + 1);
    let short = random.below(3);
    let [mut lowers, mut uppers] = [0, 1].map(|output| {
        let length = if short == output || short == 2 { random.below(needed) } else { needed };
        Lent::new(length, random.below(256))
    });
    let answer = close_into(&bytes(book), lowers.output(), uppers.output());
    assert_eq!(answer, Err(Refusal::OutputTooShort), "{book:?}");
    lowers.assert_written(&[], &("lowers", book));
    uppers.assert_written(&[], &("uppers", book));
}

#[test]
fn random_books() {
    let mut random = Random::new(0x3c6e_f372_fe94_f82b);
    let makers: Vec<_> = MAKERS.iter().flat_map(|&(share, maker)| vec![maker; share]).collect();
    assert_eq!(makers.len(), 200);
    let mut met: Vec<(&str, usize)> = Vec::new();
    for turn in 0..BOOKS {
        let book = with_idle(makers[turn % 200](&mut random), turn / 200);
        assert_eq!(Book::parse(&bytes(&book)).as_ref(), Ok(&book), "the maker's book is a good one");
        let closing = close(&book);
        assert_closes(&mut random, &book, &closing);
        assert_too_short(&mut random, &book);
        let kinds = kinds(&book, &closing);
        if turn == 0 {
            met = kinds.iter().map(|&(kind, _)| (kind, 0)).collect();
        }
        for (met, (_, is)) in met.iter_mut().zip(kinds) {
            met.1 += usize::from(is);
        }
    }
    for (kind, books) in met {
        println!("{books:6} {kind}");
        assert!(books >= LEAST, "{books} books: {kind}");
    }
}
