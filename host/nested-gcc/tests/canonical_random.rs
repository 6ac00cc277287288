//! Random books, good ones and damaged: `canonical_into` answers and writes as the plain second filter does, and
//! touches nothing else. Of pairs of books: the bytes are equal exactly where the closed tables are. The canonical book
//! closes, settles and runs sessions as the book does, and no row of it can be spared.

mod damaged;
mod lent;
mod makers;

use std::collections::BTreeMap;
use std::hint::black_box;

use lent::Lent;
use makers::{random_book, random_list};
use nested_gcc::{canonical, canonical_into, close, session, settle};
use plain_filter::{close as plain_close, fill, start, Book, Row, Table};
use random_books::{bytes, every_type, near_plan, plan, with_idle, Random};

const PAIRS: usize = 24_000;
/// How often each kind of case comes up at least.
const LEAST: usize = 100;
/// The most bytes of a book.
const ROOM: usize = 9228;
/// The most rows of a book.
const ROWS: usize = 1024;

/// How often each kind of case came up.
#[derive(Default)]
struct Met(BTreeMap<String, usize>);

impl Met {
    fn count(&mut self, case: &str) {
        *self.0.entry(case.to_string()).or_default() += 1;
    }

    fn count_if(&mut self, is: bool, case: &str) {
        if is {
            self.count(case);
        }
    }

    /// Each of the cases has come up as often as it has to.
    fn assert_each(&self, cases: &[&str]) {
        for (case, times) in &self.0 {
            println!("{times:7} {case}");
        }
        for &case in cases {
            let times = self.0.get(case).copied().unwrap_or(0);
            assert!(times >= LEAST, "{times} times: {case}");
        }
    }
}

/// `canonical_into` answers and writes as the plain filter does, into an output of so many bytes; what that gave.
fn compare(random: &mut Random, met: &mut Met, book: &[u8], room: usize) -> Result<Option<Vec<u8>>, u32> {
    let lent = book.to_vec();
    let mut output = Lent::new(room, random.below(256));
    let answer = canonical_into(&lent, output.output());
    let expected = plain_filter::canonical(book, room);
    let case = (room, book);
    match &expected {
        Ok(Some(shortest)) => {
            assert_eq!(answer, Ok(Some(shortest.len())), "{case:?}");
            output.assert_written(shortest, &case);
            met.count("answered 0");
            met.count_if(room > shortest.len(), "an output longer than the book");
            met.count_if(room == shortest.len(), "an output as long as the book");
        }
        Ok(None) => {
            assert_eq!(answer, Ok(None), "{case:?}");
            output.assert_written(&[], &case);
            met.count("answered 1");
            met.count_if(room < 12, "answered 1, an output too short for any book");
        }
        Err(number) => {
            assert_eq!(answer.map_err(|refusal| refusal.number()), Err(*number), "{case:?}");
            output.assert_written(&[], &case);
            met.count(&format!("refused {number}"));
        }
    }
    // The bytes are read anew: a shared slice would let the compiler take them for unchanged.
    assert!(black_box(lent) == book, "canonical wrote to the book of {case:?}");
    expected
}

/// The canonical book, compared with the plain filter's in outputs that are long enough and too short.
fn compared(random: &mut Random, met: &mut Met, book: &Book) -> Option<Vec<u8>> {
    let lent = bytes(book);
    let shortest = compare(random, met, &lent, ROOM).expect("a good book of few corners");
    let needed = shortest.as_ref().map_or(0, Vec::len);
    let long = needed + random.one_of(&[0, 0, 1, 2, 40]);
    assert_eq!(compare(random, met, &lent, long).as_ref(), Ok(&shortest));
    let any = random.below(needed + 1);
    let short = random.one_of(&[0, 11, needed.saturating_sub(1), any]);
    let of_short = compare(random, met, &lent, short);
    assert_eq!(of_short, if short < needed { Err(9) } else { Ok(shortest.clone()) });
    assert_eq!(canonical(&lent), Ok(shortest.clone()), "{book:?}");
    shortest
}

/// The rows in any order.
fn shuffled(random: &mut Random, mut rows: Vec<Row>) -> Vec<Row> {
    for at in 1..rows.len() {
        rows.swap(at, random.below(at + 1));
    }
    rows
}

/// Each row as one with its lower, one with its upper, or both.
fn split(rows: &[Row]) -> Vec<Row> {
    rows.iter().flat_map(|row| [Row { upper: None, ..*row }, Row { lower: 0, ..*row }]).collect()
}

/// A row that the table keeps: one of its bounds, or both, or looser ones.
fn implied(random: &mut Random, book: &Book, table: &Table) -> Row {
    let (board_type, end) = (random.below(book.k), random.between(1, book.n));
    let (lower, upper) = (table.lower[board_type][end] as usize, table.upper[board_type][end] as usize);
    match random.below(4) {
        0 => Row { board_type, end, lower, upper: None },
        1 => Row { board_type, end, lower: 0, upper: Some(upper) },
        2 => Row { board_type, end, lower, upper: Some(upper) },
        _ => Row { board_type, end, lower: lower.saturating_sub(random.below(2)), upper: Some(upper + 1) },
    }
}

/// Every bound of the table as a row, with one side or both.
fn every_bound(random: &mut Random, table: &Table) -> Vec<Row> {
    let mut rows = Vec::new();
    for (board_type, (lowers, uppers)) in table.lower.iter().zip(&table.upper).enumerate() {
        for end in 1..lowers.len() {
            let (lower, upper) = (lowers[end] as usize, Some(uppers[end] as usize));
            let both = Row { board_type, end, lower, upper };
            rows.extend(if random.below(2) == 0 { vec![both] } else { split(&[both]) });
        }
    }
    rows
}

/// One of the bounds one higher or lower.
fn changed(random: &mut Random, rows: &[Row]) -> Vec<Row> {
    let mut rows = rows.to_vec();
    if !rows.is_empty() {
        let at = random.below(rows.len());
        let row = &mut rows[at];
        match (random.below(4), row.upper) {
            (0, _) => row.lower += 1,
            (1, _) => row.lower = row.lower.saturating_sub(1),
            (2, Some(upper)) => row.upper = Some(upper.saturating_sub(1)),
            (_, Some(upper)) => row.upper = Some(upper + 1),
            (_, None) => row.upper = Some(row.end.saturating_sub(1)),
        }
    }
    rows
}

/// Another book of the same n, k, idle type and masks, and how it came about.
fn other(random: &mut Random, book: &Book, table: Option<&Table>) -> (Book, &'static str) {
    let rows = &book.rows;
    let (other, how) = match (random.below(10), table) {
        (0, _) => (shuffled(random, rows.clone()), "shuffled"),
        (1, _) => (shuffled(random, rows.repeat(2)), "doubled"),
        (2, _) => (split(rows), "split"),
        (3, Some(table)) => {
            let more: Vec<Row> = (0..random.between(1, 8)).map(|_| implied(random, book, table)).collect();
            (shuffled(random, [&rows[..], &more].concat()), "implied rows added")
        }
        (4, Some(table)) => (every_bound(random, table), "every bound a row"),
        (5, Some(table)) => {
            let more = (0..random.between(1, 8)).map(|_| implied(random, book, table));
            (more.collect(), "implied rows alone")
        }
        (6, _) => {
            let left_out = random.below(rows.len() + 1);
            let left = rows.iter().enumerate().filter(|&(at, _)| at != left_out);
            (left.map(|(_, &row)| row).collect(), "a row left out")
        }
        _ => (changed(random, rows), "a bound changed"),
    };
    (Book { rows: other, ..book.clone() }, how)
}

/// The canonical book of a live one: it closes to the table, settles and runs a list of calls as the book does, and is
/// its own canonical book.
fn assert_same_orders(random: &mut Random, book: &Book, shortest: &[u8], turn: usize) {
    let lent = bytes(book);
    assert_eq!(close(shortest), close(&lent), "{book:?}");
    assert_eq!(settle(shortest), settle(&lent), "{book:?}");
    assert_eq!(canonical(shortest).as_ref().map(|again| again.as_deref()), Ok(Some(shortest)), "{book:?}");
    let calls = random_list(random, book, 12, turn % 4);
    assert_eq!(session(shortest, &calls), session(&lent, &calls), "{calls:?} on {book:?}");
}

/// The rows say the table by filling alone. Then there is one at each type and end where the canonical book has one.
fn assert_places(met: &mut Met, book: &Book, table: &Table, shortest: &Book) {
    if fill(&start(book)) == *table {
        met.count("rows that fill to the table");
        met.count_if(book.rows.len() > shortest.rows.len(), "rows that fill to the table, more than needed");
        for row in &shortest.rows {
            let there = |other: &Row| (other.board_type, other.end) == (row.board_type, row.end);
            assert!(book.rows.iter().any(there), "{row:?} of {book:?}");
        }
    } else {
        met.count("rows that need sums");
    }
}

#[test]
fn random_pairs() {
    let mut random = Random::new(0xa54f_f53a_5f1d_36f1);
    let mut met = Met::default();
    for turn in 0..PAIRS {
        let first = with_idle(random_book(&mut random), turn / 16);
        let table = plain_close(&first).table;
        let (second, how) = other(&mut random, &first, table.as_ref());
        for book in [&first, &second] {
            assert_eq!(Book::parse(&bytes(book)).as_ref(), Ok(book), "the maker's book is a good one");
        }
        met.count(how);
        let shortest = [&first, &second].map(|book| compared(&mut random, &mut met, book));
        for (book, shortest) in [&first, &second].into_iter().zip(&shortest) {
            met.count(if shortest.is_some() { "live" } else { "dead" });
            let Some(shortest) = shortest else { continue };
            assert_same_orders(&mut random, book, shortest, turn);
            let parsed = Book::parse(shortest).expect("a good book");
            let table = plain_close(book).table.expect("a live book");
            assert_places(&mut met, book, &table, &parsed);
            met.count_if(settle(shortest) == Ok(None), "closes and does not settle");
            met.count_if(book.idle.is_some(), "an idle type");
            met.count_if(book.n == 1, "n = 1");
            met.count_if(book.k == 1, "k = 1");
            met.count_if(book.k == 32, "k = 32");
            met.count_if(parsed.rows.is_empty(), "no row is needed");
            met.count_if(
                parsed.rows.iter().any(|row| row.lower > 0 && row.upper.is_some()),
                "a row of both sides",
            );
            met.count(match parsed.rows.len().cmp(&book.rows.len()) {
                std::cmp::Ordering::Less => "fewer rows than the book's",
                std::cmp::Ordering::Equal => "as many rows as the book's",
                std::cmp::Ordering::Greater => "more rows than the book's",
            });
        }
        let [first_shortest, second_shortest] = &shortest;
        if let (Some(first_shortest), Some(second_shortest)) = (first_shortest, second_shortest) {
            let tables = [&first, &second].map(|book| close(&bytes(book)).expect("a good book"));
            let equal = tables[0] == tables[1];
            assert_eq!(first_shortest == second_shortest, equal, "{first:?} and {second:?}");
            let other_rows = first.rows != second.rows;
            met.count(match (equal, other_rows) {
                (true, true) => "equal tables of other rows",
                (true, false) => "equal tables of equal rows",
                (false, _) => "different tables",
            });
            met.count_if(equal && how == "a bound changed", "equal tables, a bound changed");
            met.count_if(!equal && how == "a bound changed", "different tables, a bound changed");
            // Another mask: other bytes, and the same rows.
            let mut masked = first.clone();
            masked.masks[turn % first.n] ^= every_type(first.k);
            if masked.masks[turn % first.n] != 0 {
                let other = canonical(&bytes(&masked)).expect("a good book").expect("a live book");
                let rows_at = 12 + 4 * first.n;
                assert_ne!(&other, first_shortest);
                assert_eq!(other[rows_at..], first_shortest[rows_at..]);
                met.count("other masks");
            }
        }
    }
    met.assert_each(&[
        "live",
        "dead",
        "shuffled",
        "doubled",
        "split",
        "implied rows added",
        "every bound a row",
        "implied rows alone",
        "a row left out",
        "a bound changed",
        "equal tables of other rows",
        "equal tables, a bound changed",
        "different tables, a bound changed",
        "different tables",
        "rows that fill to the table",
        "rows that fill to the table, more than needed",
        "rows that need sums",
        "closes and does not settle",
        "an idle type",
        "n = 1",
        "k = 1",
        "k = 32",
        "no row is needed",
        "a row of both sides",
        "fewer rows than the book's",
        "as many rows as the book's",
        "more rows than the book's",
        "other masks",
        "answered 0",
        "answered 1",
        "answered 1, an output too short for any book",
        "an output longer than the book",
        "an output as long as the book",
        "refused 9",
    ]);
    for case in ["equal tables of other rows", "different tables"] {
        assert!(met.0[case] >= 4000, "{case}");
    }
}

/// Small books: what the archive writes fills to the closed table, and without any one of its rows it does not.
#[test]
fn no_row_can_be_spared() {
    let mut random = Random::new(0x1f83_d9ab_fb41_bd6b);
    let (mut live, mut dead, mut rows) = (0, 0, 0);
    for turn in 0..6_000 {
        let book = if turn % 2 == 0 {
            random_book(&mut random)
        } else {
            let (n, k) = (random.between(1, 10), random.between(1, 4));
            let plan = plan(&mut random, n, k, 3);
            let (rows, slack) = (random.below(3 * n), random.below(3));
            near_plan(&mut random, &plan, k, rows, slack)
        };
        let Some(shortest) = canonical(&bytes(&book)).expect("a good book of few corners") else {
            dead += 1;
            continue;
        };
        let table = plain_close(&book).table.expect("a live book");
        let shortest = Book::parse(&shortest).expect("a good book");
        assert_eq!(fill(&start(&shortest)), table, "{book:?}");
        for at in 0..shortest.rows.len() {
            let mut without = shortest.clone();
            without.rows.remove(at);
            assert_ne!(fill(&start(&without)), table, "row {at} of {shortest:?}");
        }
        live += 1;
        rows += shortest.rows.len();
    }
    println!("{live} books live, {dead} dead; each of {rows} rows is needed");
    assert!(live >= 4000 && dead >= 50 && rows >= 20_000);
}

/// The makers of bad books for `check`, with an output of any length.
#[test]
fn random_and_damaged_books() {
    let mut random = Random::new(0x5be0_cd19_137e_2179);
    let mut met = Met::default();
    for turn in 0..20_000 {
        let book = damaged::book(&mut random, turn);
        let any = random.below(200);
        let room = random.one_of(&[ROOM, ROOM, any]);
        let _ = compare(&mut random, &mut met, &book, room);
    }
    let refused: Vec<String> = (1..=9).map(|number| format!("refused {number}")).collect();
    let cases: Vec<&str> = refused.iter().map(String::as_str).chain(["answered 0", "answered 1"]).collect();
    met.assert_each(&cases);
}

/// 256 slots with about as many corners as a book may have rows: of one type one within 2 slots, two within 4, and so
/// on, which is a corner of each type at each of these ends; and a few more.
#[test]
fn about_1024_rows() {
    let mut random = Random::new(0x9b05_688c_2b3e_6c1f);
    let mut met = Met::default();
    for turn in 0..600 {
        let k = random.between(26, 32);
        let steps = ROWS / k + random.below(3) - 1;
        let first = random.below(k);
        let mut rows: Vec<Row> = (1..=steps)
            .map(|step| Row { board_type: first, end: 2 * step, lower: step, upper: None })
            .collect();
        for _ in 0..random.below(12) {
            let upper = 256 - steps - random.between(1, 3);
            rows.push(Row { board_type: random.below(k), end: 256, lower: 0, upper: Some(upper) });
        }
        if random.below(4) == 0 {
            // One more than the others leave within these slots.
            let end = 2 * random.between(1, steps);
            rows.push(Row { board_type: (first + 1) % k, end, lower: end / 2 + 1, upper: None });
        }
        let rows = shuffled(&mut random, rows);
        let book = with_idle(Book { n: 256, k, idle: None, masks: vec![every_type(k); 256], rows }, turn);
        let room = random.one_of(&[0, 1000, 9000, ROOM - 1, ROOM, ROOM, ROOM, 65536]);
        let answer = compare(&mut random, &mut met, &bytes(&book), room);
        met.count_if(answer == Err(19) && room < ROOM, "refused 19, an output too short");
        met.count_if(answer == Ok(None) && room < ROOM, "answered 1, an output too short");
        if let Some(table) = plain_close(&book).table {
            let needed = plain_filter::canonical_rows(&table).len();
            met.count_if((1020..=1024).contains(&needed), "1,020 to 1,024 rows");
            met.count_if((1025..=1030).contains(&needed), "1,025 to 1,030 rows");
            met.count_if(needed == 1024, "just 1,024 rows");
            met.count_if(needed == 1025, "just 1,025 rows");
        }
    }
    for (case, least) in [
        ("answered 0", 60),
        ("answered 1", 60),
        ("refused 9", 60),
        ("refused 19", 60),
        ("refused 19, an output too short", 30),
        ("answered 1, an output too short", 30),
        ("1,020 to 1,024 rows", 30),
        ("1,025 to 1,030 rows", 30),
        ("just 1,024 rows", 3),
        ("just 1,025 rows", 3),
    ] {
        let times = met.0.get(case).copied().unwrap_or(0);
        println!("{times:7} {case}");
        assert!(times >= least, "{times} times: {case}");
    }
}
