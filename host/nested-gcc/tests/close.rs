//! `close` on the worked examples of `docs/SPECIFICATION.md` and on the edges of its limits, with every expected
//! entry typed by hand; what it writes, and what it leaves, for lengths about the least that will do.

mod lent;

use lent::Lent;
use nested_gcc::{check, close, close_into, Book, Refusal, Verdict, TABLE_BYTES};

fn m2() -> Book {
    Book::new(5, 2).row(0, 4, 2, None)
}

fn m5() -> Book {
    Book::new(2, 2).row(0, 1, 2, None)
}

fn m6() -> Book {
    Book::new(2, 2).row(0, 1, 1, None).row(1, 1, 1, None)
}

/// The book is live and its table has these lowers and uppers, a line for each type.
fn assert_table(book: &Book, lines: &[(&[u16], &[u16])]) {
    let table = close(&book.to_bytes()).expect("a good book").expect("a live book");
    assert_eq!(table.types(), lines.len());
    for (v, (lowers, uppers)) in lines.iter().enumerate() {
        assert_eq!(table.slots() + 1, lowers.len());
        assert_eq!(table.lowers(v), *lowers, "lowers of type {v}");
        assert_eq!(table.uppers(v), *uppers, "uppers of type {v}");
        for t in 0..lowers.len() {
            assert_eq!((table.lower(v, t), table.upper(v, t)), (lowers[t], uppers[t]), "type {v}, end {t}");
        }
    }
}

fn assert_dead(book: &Book) {
    assert_eq!(check(&book.to_bytes()), Ok(()), "{book:?}");
    assert_eq!(close(&book.to_bytes()), Ok(None), "{book:?}");
}

#[test]
fn m1() {
    assert_table(&Book::new(1, 1), &[(&[0, 1], &[0, 1])]);
}

#[test]
fn m2_lower_of_one_type_bounds_the_other() {
    let lines: [(&[u16], &[u16]); 2] =
        [(&[0, 0, 0, 1, 2, 2], &[0, 1, 2, 3, 4, 5]), (&[0, 0, 0, 0, 0, 0], &[0, 1, 2, 2, 2, 3])];
    assert_table(&m2(), &lines);
}

#[test]
fn m3_upper_of_one_type_bounds_the_other() {
    let lines: [(&[u16], &[u16]); 2] =
        [(&[0, 0, 0, 0, 0, 0], &[0, 1, 2, 2, 2, 3]), (&[0, 0, 0, 1, 2, 2], &[0, 1, 2, 3, 4, 5])];
    assert_table(&Book::new(5, 2).row(0, 4, 0, Some(2)), &lines);
}

/// One round leaves type 0's upper at end 4 as 3.
#[test]
fn m4_takes_two_rounds() {
    let lines: [(&[u16], &[u16]); 3] = [
        (&[0, 0, 0, 0, 0, 0], &[0, 1, 2, 2, 2, 2]),
        (&[0, 0, 0, 0, 1, 2], &[0, 1, 2, 3, 4, 4]),
        (&[0, 0, 0, 0, 0, 1], &[0, 1, 2, 3, 3, 3]),
    ];
    assert_table(&Book::new(5, 3).row(1, 5, 2, None).row(2, 5, 1, None), &lines);
}

#[test]
fn m5_and_m6_are_dead() {
    assert_dead(&m5());
    assert_dead(&m6());
}

#[test]
fn masks_have_no_part() {
    // Type 0 may go nowhere, and yet the table is M2's.
    let mut book = m2();
    for slot in 0..5 {
        book = book.mask(slot, 2);
    }
    assert_eq!(close(&book.to_bytes()), close(&m2().to_bytes()));
}

#[test]
fn of_several_rows_the_greatest_lower_and_least_upper_count() {
    let expected: [(&[u16], &[u16]); 2] = [(&[0, 0, 1], &[0, 1, 1]), (&[0, 0, 1], &[0, 1, 1])];
    let rows = [(0, None), (1, Some(2)), (0, Some(1)), (0, Some(256))];
    for first in 0..4 {
        let mut book = Book::new(2, 2);
        for turn in 0..4 {
            let (lower, upper) = rows[(first + turn) % 4];
            book = book.row(0, 2, lower, upper);
        }
        assert_table(&book, &expected);
    }
}

#[test]
fn a_crossed_row_is_dead() {
    assert_dead(&Book::new(2, 2).row(0, 2, 2, Some(1)));
    assert_dead(&Book::new(2, 2).row(0, 2, 2, None).row(0, 2, 0, Some(1)));
    assert_dead(&Book::new(2, 2).row(1, 1, 256, Some(256)));
}

#[test]
fn one_type_fills_every_slot() {
    assert_table(&Book::new(3, 1).row(0, 2, 1, Some(2)), &[(&[0, 1, 2, 3], &[0, 1, 2, 3])]);
    assert_dead(&Book::new(3, 1).row(0, 2, 0, Some(1)));
}

/// Types 0 and 1 have an upper of 1 and type 2 has one of 2, so that 4 of 5 slots can be filled.
#[test]
fn uppers_that_leave_a_slot_empty_are_dead() {
    let book = Book::new(5, 3).row(0, 5, 0, Some(1)).row(1, 5, 0, Some(1));
    assert_dead(&book.clone().row(2, 5, 0, Some(2)));
    let lines: [(&[u16], &[u16]); 3] = [
        (&[0, 0, 0, 0, 0, 1], &[0, 1, 1, 1, 1, 1]),
        (&[0, 0, 0, 0, 0, 1], &[0, 1, 1, 1, 1, 1]),
        (&[0, 0, 0, 1, 2, 3], &[0, 1, 2, 3, 3, 3]),
    ];
    assert_table(&book.row(2, 5, 0, Some(3)), &lines);
}

/// Lower 256 at end 256 is the greatest that can be kept: every slot has the type.
#[test]
fn lower_256() {
    let table = close(&Book::new(256, 2).row(1, 256, 256, None).to_bytes()).unwrap().expect("a live book");
    for t in 0..=256 {
        assert_eq!((table.lower(0, t), table.upper(0, t)), (0, 0), "type 0, end {t}");
        assert_eq!((table.lower(1, t), table.upper(1, t)), (t as u16, t as u16), "type 1, end {t}");
    }
    assert_dead(&Book::new(256, 2).row(1, 255, 256, None));
    assert_dead(&Book::new(256, 2).row(1, 256, 256, None).row(0, 1, 1, None));
}

/// 256 slots, 32 types and 1024 rows: at each of 8 ends each type has its share, by 4 rows.
#[test]
fn largest_table() {
    let mut book = Book::new(256, 32);
    for share in 1..=8 {
        for board_type in 0..32 {
            for _ in 0..4 {
                book = book.row(board_type, 32 * share, share, None);
            }
        }
    }
    let table = close(&book.to_bytes()).unwrap().expect("a live book");
    assert_eq!((table.slots(), table.types()), (256, 32));
    for v in 0..32 {
        // Within each 32 slots a type stands once: its lower rises at the last slot, its upper at the first.
        for t in 0..=256 {
            assert_eq!(usize::from(table.lower(v, t)), t / 32, "lower of type {v}, end {t}");
            assert_eq!(usize::from(table.upper(v, t)), t.div_ceil(32), "upper of type {v}, end {t}");
        }
    }
}

/// Closes into outputs of these lengths. The answer is the expected one; live and dead write these bytes and
/// nothing else, and a refusal writes nothing.
fn assert_closes(
    book: &[u8],
    lengths: (usize, usize),
    expected: Result<Verdict, Refusal>,
    written: (&[u8], &[u8]),
) {
    let written = if expected.is_ok() { written } else { (&[][..], &[][..]) };
    for seed in 0..4 {
        let case = (lengths, seed);
        let (mut lowers, mut uppers) = (Lent::new(lengths.0, seed), Lent::new(lengths.1, 255 - seed / 2));
        assert_eq!(close_into(book, lowers.output(), uppers.output()), expected, "{case:?}");
        lowers.assert_written(written.0, &case);
        uppers.assert_written(written.1, &case);
    }
}

/// Each pair of lengths about the `needed` bytes, and far past them: too short if either is.
fn assert_lengths(book: &[u8], needed: usize, verdict: Verdict, written: (&[u8], &[u8])) {
    assert_eq!((written.0.len(), written.1.len()), (needed, needed));
    let lengths = [
        0,
        1,
        2,
        3,
        needed - 2,
        needed - 1,
        needed,
        needed + 1,
        needed + 2,
        needed + 3,
        65536,
        65537,
        131072,
    ];
    for lowers in lengths {
        for uppers in lengths {
            let short = lowers < needed || uppers < needed;
            let expected = if short { Err(Refusal::OutputTooShort) } else { Ok(verdict) };
            assert_closes(book, (lowers, uppers), expected, written);
        }
    }
}

/// M2 has k = 2 and n = 5: 12 elements of 2 bytes.
#[test]
fn lengths_for_a_live_book() {
    let lowers = [0, 0, 0, 0, 0, 0, 1, 0, 2, 0, 2, 0, 0, 0, 0, 0, 0, 0, 0, 0, 0, 0, 0, 0];
    let uppers = [0, 0, 1, 0, 2, 0, 3, 0, 4, 0, 5, 0, 0, 0, 1, 0, 2, 0, 2, 0, 2, 0, 3, 0];
    assert_lengths(&m2().to_bytes(), 24, Verdict::Live, (&lowers, &uppers));
}

/// M5 and M6 have k = 2 and n = 2: 6 elements of 2 bytes. Too short wins over dead.
#[test]
fn lengths_for_a_dead_book() {
    for book in [m5(), m6()] {
        assert_lengths(&book.to_bytes(), 12, Verdict::Dead, (&[0; 12], &[0; 12]));
    }
}

#[test]
fn lengths_for_the_smallest_book() {
    assert_lengths(&Book::new(1, 1).to_bytes(), 4, Verdict::Live, (&[0, 0, 1, 0], &[0, 0, 1, 0]));
}

/// 32 types of 257 elements: 16448 bytes. Type 31 fills every slot.
#[test]
fn lengths_for_the_largest_book() {
    let book = Book::new(256, 32).row(31, 256, 256, None);
    let mut lowers = vec![0; 2 * 31 * 257];
    for t in 0..=256u16 {
        lowers.extend(t.to_le_bytes());
    }
    assert_eq!((lowers.len(), TABLE_BYTES), (16448, 16448));
    assert_lengths(&book.to_bytes(), 16448, Verdict::Live, (&lowers, &lowers));
    let dead = book.row(0, 256, 1, None);
    assert_lengths(&dead.to_bytes(), 16448, Verdict::Dead, (&[0; 16448], &[0; 16448]));
}

/// A refused book has the number of `check`, whatever the outputs' lengths, and nothing is written.
#[test]
fn refused_books() {
    let with = |at: usize, byte: u8| {
        let mut bytes = m2().to_bytes();
        bytes[at] = byte;
        bytes
    };
    // M2 has its masks at 12, its row at 32 and 40 bytes.
    let books = [
        (m2().to_bytes()[..11].to_vec(), Refusal::TooShort),
        (with(1, 1), Refusal::OutOfRange),
        (with(3, 3), Refusal::IdleType),
        (with(8, 33), Refusal::Layout),
        (with(12, 4), Refusal::Mask),
        (with(28, 0), Refusal::Mask),
        (with(32, 2), Refusal::RowType),
        (with(34, 6), Refusal::RowEnd),
        (with(37, 1), Refusal::RowBound),
    ];
    for (book, refusal) in books {
        assert_eq!(check(&book), Err(refusal));
        assert_eq!(close(&book), Err(refusal));
        for lowers in [0, 1, 23, 24, 25, 20000] {
            for uppers in [0, 1, 23, 24, 25, 20000] {
                assert_closes(&book, (lowers, uppers), Err(refusal), (&[], &[]));
            }
        }
    }
}

/// A row fault behind rows that alone would be dead.
#[test]
fn a_refusal_wins_over_dead() {
    let book = m5().row(2, 1, 0, None);
    assert_closes(&book.to_bytes(), (12, 12), Err(Refusal::RowType), (&[], &[]));
}

#[test]
#[should_panic(expected = "type 2 of 2")]
fn a_table_has_no_type_k() {
    close(&m2().to_bytes()).unwrap().unwrap().lower(2, 0);
}

/// Past the end of type 0's line lies that of type 1, which must not be read in its place.
#[test]
#[should_panic(expected = "index out of bounds")]
fn a_table_has_no_end_past_n() {
    close(&m2().to_bytes()).unwrap().unwrap().upper(0, 6);
}
