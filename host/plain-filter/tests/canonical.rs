//! The plain canonical book: on the worked books with every row and byte typed by hand; filling by its definition, on
//! every small line; and that no other rows fill to the table, on every small set of rows and on random books.

mod small_books;

use plain_filter::{canonical, canonical_rows, close, fill, start, Book, Row, Table};
use random_books::{bytes, every_type, near_plan, plan, Random};
use small_books::random_book;

fn row(board_type: usize, end: usize, lower: usize, upper: Option<usize>) -> Row {
    Row { board_type, end, lower, upper }
}

fn book(n: usize, k: usize, rows: &[Row]) -> Book {
    Book { n, k, idle: None, masks: vec![every_type(k); n], rows: rows.to_vec() }
}

/// M2: type 0 end 4 lower 2.
fn m2() -> Book {
    book(5, 2, &[row(0, 4, 2, None)])
}

/// M6: lower 1 at end 1 for types 0 and 1. Dead.
fn m6() -> Book {
    book(2, 2, &[row(0, 1, 1, None), row(1, 1, 1, None)])
}

#[test]
fn worked_books() {
    let m4 = book(5, 3, &[row(1, 5, 2, None), row(2, 5, 1, None)]);
    let m7 = Book { masks: vec![3, 3, 3, 12], ..book(4, 4, &[row(0, 4, 0, Some(1)), row(1, 4, 0, Some(1))]) };
    let books = [
        // M1: the one slot has the one type.
        (book(1, 1, &[]), vec![row(0, 1, 1, None)]),
        (book(1, 2, &[]), vec![]),
        (m2(), vec![row(0, 4, 2, None), row(1, 4, 0, Some(2))]),
        // M3.
        (book(5, 2, &[row(0, 4, 0, Some(2))]), vec![row(0, 4, 0, Some(2)), row(1, 4, 2, None)]),
        (m4, vec![row(0, 5, 0, Some(2)), row(1, 5, 2, Some(4)), row(2, 5, 1, Some(3))]),
        (m7, vec![row(0, 4, 0, Some(1)), row(1, 4, 0, Some(1))]),
        // M8.
        (book(3, 2, &[row(0, 2, 1, None)]), vec![row(0, 2, 1, None), row(1, 2, 0, Some(1))]),
        // None of type 0 in slot 0, one in slot 1: lower and upper 0 0 1 1 and 0 0 1 2; type 1 has 0 1 1 1 and 0 1 1 2.
        (
            book(3, 2, &[row(0, 1, 0, Some(0)), row(0, 2, 1, None)]),
            vec![row(0, 1, 0, Some(0)), row(0, 2, 1, None), row(1, 1, 1, None), row(1, 2, 0, Some(1))],
        ),
        // Nothing but type 1: of type 0 the upper is flat to the end.
        (book(4, 2, &[row(0, 4, 0, Some(0))]), vec![row(0, 4, 0, Some(0)), row(1, 4, 4, None)]),
    ];
    for (book, rows) in books {
        let table = close(&book).table.expect("a live book");
        assert_eq!(canonical_rows(&table), rows, "{book:?}");
        let shortest = Book { rows, ..book };
        assert_eq!(fill(&start(&shortest)), table, "{shortest:?}");
        assert_eq!(canonical(&bytes(&shortest), 9228), Ok(Some(bytes(&shortest))));
    }
}

#[test]
fn bytes_of_m2() {
    let m2 = Book { idle: Some(1), masks: vec![1, 2, 3, 2, 1], ..m2() };
    let written = [
        5, 0, 2, 2, 2, 0, 12, 0, 32, 0, 48, 0, // n, k, type 1 idle, r, masks at, rows at, length
        1, 0, 0, 0, 2, 0, 0, 0, 3, 0, 0, 0, 2, 0, 0, 0, 1, 0, 0, 0, // masks
        0, 0, 4, 0, 2, 0, 255, 255, // type, 0, end, lower, no upper
        1, 0, 4, 0, 0, 0, 2, 0,
    ];
    for room in [48, 49, 9228, 65536] {
        assert_eq!(canonical(&bytes(&m2), room), Ok(Some(written.to_vec())), "{room}");
    }
    for room in [0, 1, 28, 40, 47] {
        assert_eq!(canonical(&bytes(&m2), room), Err(9), "{room}");
    }
}

/// 256 slots and 32 types; of type 0 at least one within the first 2, two within 4, and so on, up to `steps`. Each of
/// the other types has as many corners, since it may then have one less within 2, two less within 4, and so on.
fn staircase(steps: usize) -> Book {
    book(256, 32, &(1..=steps).map(|step| row(0, 2 * step, step, None)).collect::<Vec<_>>())
}

/// The staircase with one row more.
fn with(steps: usize, row: Row) -> Book {
    let mut book = staircase(steps);
    book.rows.push(row);
    book
}

/// The book's own numbers; dead; 19; 9.
#[test]
fn order_of_answers() {
    assert_eq!(canonical(&bytes(&m2())[..11], 0), Err(1));
    let mut bad_row = bytes(&m6());
    bad_row[28] = 2;
    assert_eq!(canonical(&bad_row, 0), Err(6));
    for room in [0, 1, 27, 9228] {
        assert_eq!(canonical(&bytes(&m6()), room), Ok(None), "{room}");
        assert_eq!(canonical(&bytes(&staircase(33)), room), Err(19), "{room}");
        // Two of type 0 in slot 0: it is dead, however many corners the rest has.
        assert_eq!(canonical(&bytes(&with(33, row(0, 1, 2, None))), room), Ok(None), "{room}");
        // At most 255 of type 0 in all: one row more.
        assert_eq!(canonical(&bytes(&with(32, row(0, 256, 0, Some(255)))), room), Err(19), "{room}");
    }
    let most = canonical(&bytes(&staircase(32)), 9228).expect("1,024 rows").expect("a live book");
    assert_eq!((most.len(), most[4], most[5]), (9228, 0, 4));
    assert_eq!(canonical(&bytes(&staircase(32)), 9227), Err(9));
}

/// Every line of so many numbers from 0 to `most`.
fn every_line(numbers: usize, most: i64) -> Vec<Vec<i64>> {
    (0..numbers).fold(vec![Vec::new()], |lines, _| {
        lines.iter().flat_map(|line| (0..=most).map(move |next| [&line[..], &[next]].concat())).collect()
    })
}

/// By the definition: of all lines within the start that keep the rule, the filled lowers are the smallest and the
/// filled uppers the largest.
#[test]
fn filling_is_the_loosest() {
    let n = 3;
    let lines = every_line(n + 1, 3);
    let steps = |line: &&Vec<i64>| (0..n).all(|t| line[t] <= line[t + 1] && line[t + 1] <= line[t] + 1);
    let kept: Vec<&Vec<i64>> = lines.iter().filter(steps).collect();
    let mut changed = 0;
    for first in &lines {
        let filled = fill(&Table { lower: vec![first.clone()], upper: vec![first.clone()] });
        let (lower, upper) = (&filled.lower[0], &filled.upper[0]);
        let above: Vec<_> = kept.iter().filter(|line| (0..=n).all(|t| line[t] >= first[t])).collect();
        let below: Vec<_> = kept.iter().filter(|line| (0..=n).all(|t| line[t] <= first[t])).collect();
        for t in 0..=n {
            assert_eq!(Some(lower[t]), above.iter().map(|line| line[t]).min(), "{first:?} at {t}");
            assert_eq!(Some(upper[t]), below.iter().map(|line| line[t]).max(), "{first:?} at {t}");
        }
        assert!(kept.contains(&lower) && kept.contains(&upper), "{first:?}");
        changed += usize::from(lower != first && upper != first);
    }
    assert!(lines.len() == 256 && changed == lines.len() - kept.len() && changed > 200);
}

/// Every set of rows of one type that has no row, or one, at each end up to `n`: with no lower or one up to `n`, and
/// with no upper or one up to `n`. Several rows at one end do what the greatest lower and the least upper do.
fn every_set(n: usize) -> Vec<Vec<Row>> {
    let sides = |end: usize| {
        let uppers = move |lower| {
            let one = move |upper| row(0, end, lower, (upper <= n).then_some(upper));
            (0..=n + 1).map(one)
        };
        (0..=n).flat_map(uppers).collect::<Vec<Row>>()
    };
    (1..=n).fold(vec![Vec::new()], |sets, end| {
        let with = |set: &Vec<Row>| {
            let set = set.clone();
            sides(end).into_iter().map(move |row| [&set[..], &[row]].concat())
        };
        sets.iter().cloned().chain(sets.iter().flat_map(with)).collect()
    })
}

/// Type by type: whatever rows fill to a line that is not crossed, its canonical rows fill to it too, and at each of
/// their ends there is a row, with the bounds that the corners have. Two lines of n steps of 0 or 1 that do not cross
/// can be had in 3, 10 and 35 ways, and each pair has just one set of rows that is canonical.
#[test]
fn every_small_set_of_rows() {
    for (n, sets, lines) in [(1, 7, 3), (2, 169, 10), (3, 9261, 35)] {
        let every_set = every_set(n);
        assert_eq!(every_set.len(), sets);
        let (mut uncrossed, mut just_these) = (0, 0);
        for rows in every_set {
            let table = fill(&start(&book(n, 1, &rows)));
            if (0..=n).any(|t| table.lower[0][t] > table.upper[0][t]) {
                continue;
            }
            uncrossed += 1;
            let shortest = canonical_rows(&table);
            assert_eq!(fill(&start(&book(n, 1, &shortest))), table, "{rows:?}");
            for corner in &shortest {
                let there = rows.iter().find(|row| row.end == corner.end);
                let there = there.unwrap_or_else(|| panic!("{rows:?} have none at {}", corner.end));
                assert!(corner.lower == 0 || corner.lower == there.lower, "{rows:?} at {}", corner.end);
                assert!(corner.upper.is_none() || corner.upper == there.upper, "{rows:?} at {}", corner.end);
            }
            just_these += usize::from(shortest == rows);
        }
        println!("n = {n}: of {sets} sets {uncrossed} fill uncrossed, {just_these} are canonical");
        assert!(just_these == lines && uncrossed > lines);
    }
}

/// On random books: the canonical rows fill to the closed table, and without any one of them they do not.
#[test]
fn no_row_can_be_spared() {
    let mut random = Random::new(0x510e_527f_ade6_82d1);
    let (mut live, mut dead, mut rows, mut both_sides, mut fewer, mut more) = (0, 0, 0, 0, 0, 0);
    for turn in 0..6000 {
        let (n, k) = [(1, 3), (2, 5), (3, 4), (4, 3), (8, 3), (12, 4)][turn % 6];
        let book = if turn % 2 == 0 {
            random_book(&mut random, n, k)
        } else {
            let plan = plan(&mut random, n, k, 3);
            let (rows, slack) = (random.below(3 * n), random.below(3));
            near_plan(&mut random, &plan, k, rows, slack)
        };
        let Some(table) = close(&book).table else {
            assert_eq!(canonical(&bytes(&book), 9228), Ok(None), "{book:?}");
            dead += 1;
            continue;
        };
        live += 1;
        let shortest = Book { rows: canonical_rows(&table), ..book.clone() };
        assert_eq!(fill(&start(&shortest)), table, "{book:?}");
        assert_eq!(close(&shortest).table.as_ref(), Some(&table), "{book:?}");
        assert_eq!(canonical(&bytes(&book), 9228), Ok(Some(bytes(&shortest))), "{book:?}");
        for at in 0..shortest.rows.len() {
            let mut without = shortest.clone();
            without.rows.remove(at);
            assert_ne!(fill(&start(&without)), table, "row {at} of {shortest:?}");
        }
        rows += shortest.rows.len();
        both_sides += shortest.rows.iter().filter(|row| row.lower > 0 && row.upper.is_some()).count();
        fewer += usize::from(shortest.rows.len() < book.rows.len());
        more += usize::from(shortest.rows.len() > book.rows.len());
    }
    println!(
        "{live} books live, {dead} dead; {rows} canonical rows, {both_sides} with both sides; fewer rows than the \
         book's in {fewer}, more in {more}"
    );
    assert!(live >= 4000 && rows >= 10_000);
    assert!([dead, both_sides, fewer, more].iter().all(|&count| count >= 200));
}
