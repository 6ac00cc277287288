//! `canonical` and `canonical_into` on books with every expected row, byte and number typed by hand; what is written,
//! and what is left, for lengths about the least that will do.

mod lent;

use lent::Lent;
use nested_gcc::{canonical, canonical_into, check, close, settle, Book, Refusal, BOOK_BYTES};

/// n = 5, k = 2; of type 0 at least two within 4 slots.
fn m2() -> Book {
    Book::new(5, 2).row(0, 4, 2, None)
}

/// n = 5, k = 3; two of type 1 and one of type 2.
fn m4() -> Book {
    Book::new(5, 3).row(1, 5, 2, None).row(2, 5, 1, None)
}

/// n = 2, k = 2; two of type 0 in one slot: dead.
fn m5() -> Book {
    Book::new(2, 2).row(0, 1, 2, None)
}

/// n = 2, k = 2, lower 1 at end 1 for types 0 and 1: dead, which a sum tells.
fn m6() -> Book {
    Book::new(2, 2).row(0, 1, 1, None).row(1, 1, 1, None)
}

/// n = 4, k = 4, masks 3 3 3 12; types 0 and 1 at most once each. It settles, and has no plan.
fn m7() -> Book {
    Book::new(4, 4).mask(0, 3).mask(1, 3).mask(2, 3).mask(3, 12).row(0, 4, 0, Some(1)).row(1, 4, 0, Some(1))
}

/// n = 2, k = 2; the slots have only type 0, of which one is allowed: it closes, and does not settle.
fn unsettled() -> Book {
    Book::new(2, 2).mask(0, 1).mask(1, 1).row(0, 2, 0, Some(1))
}

/// n = 256, and of type 0 at least one within 2 slots, two within 4, and so on. That is a lower corner of type 0 at
/// each of these ends, and an upper corner of each other type: `types` * `steps` rows.
fn staircase(types: u8, steps: u16) -> Book {
    (1..=steps).fold(Book::new(256, types), |book, step| book.row(0, 2 * step, step, None))
}

/// Of the first 66 slots 33 have type 0, and 34 are to have type 31: a sum says that it is dead.
fn dead_staircase() -> Book {
    staircase(32, 33).row(31, 66, 34, None)
}

/// A row as its 8 bytes.
type Row = [u8; 8];

/// No upper, as the last two bytes of a row.
const NONE: u8 = 255;

/// The n, k, byte 3 and masks of the book, with these rows in place of its own.
fn with_rows(book: &[u8], rows: &[Row]) -> Vec<u8> {
    let front = 12 + 4 * (usize::from(book[0]) + 256 * usize::from(book[1]));
    let mut bytes = [&book[..front], &rows.concat()].concat();
    let length = bytes.len() as u16;
    bytes[4..6].copy_from_slice(&(rows.len() as u16).to_le_bytes());
    bytes[10..12].copy_from_slice(&length.to_le_bytes());
    bytes
}

/// The canonical book has these rows. It is its own canonical book, and closes and settles as the book does.
fn assert_canonical(book: &Book, rows: &[Row]) {
    let bytes = book.to_bytes();
    let expected = with_rows(&bytes, rows);
    assert_eq!(canonical(&bytes), Ok(Some(expected.clone())), "{book:?}");
    assert_eq!(check(&expected), Ok(()), "{book:?}");
    assert_eq!(canonical(&expected), Ok(Some(expected.clone())), "again: {book:?}");
    assert!(close(&bytes).is_ok_and(|table| table.is_some()), "{book:?}");
    assert_eq!(close(&expected), close(&bytes), "{book:?}");
    assert_eq!(settle(&expected), settle(&bytes), "{book:?}");
}

/// Of type 1 at most two within 4 slots is written out: a sum gives it.
#[test]
fn m2_byte_by_byte() {
    let book = [
        5, 0, 2, 0, 1, 0, 12, 0, 32, 0, 40, 0, // n, k, no idle type, r, masks at, rows at, length
        3, 0, 0, 0, 3, 0, 0, 0, 3, 0, 0, 0, 3, 0, 0, 0, 3, 0, 0, 0, // masks
        0, 0, 4, 0, 2, 0, 255, 255, // type, 0, end, lower, no upper
    ];
    let shortest = [
        5, 0, 2, 0, 2, 0, 12, 0, 32, 0, 48, 0, // two rows, 48 bytes
        3, 0, 0, 0, 3, 0, 0, 0, 3, 0, 0, 0, 3, 0, 0, 0, 3, 0, 0, 0, // masks
        0, 0, 4, 0, 2, 0, 255, 255, // type 0, end 4, lower 2, no upper
        1, 0, 4, 0, 0, 0, 2, 0, // type 1, end 4, lower 0, upper 2
    ];
    assert_eq!(m2().to_bytes(), book);
    assert_eq!(canonical(&book), Ok(Some(shortest.to_vec())));
    let mut out = [7; 50];
    assert_eq!(canonical_into(&book, &mut out), Ok(Some(48)));
    assert_eq!((&out[..48], &out[48..]), (&shortest[..], &[7, 7][..]));
}

/// A row holds both sides of an end. The last type is idle, and each slot has a mask of its own.
#[test]
fn m4_byte_by_byte() {
    let book = [
        5, 0, 3, 3, 2, 0, 12, 0, 32, 0, 48, 0, // n, k, type 2 idle, r, masks at, rows at, length
        1, 0, 0, 0, 3, 0, 0, 0, 7, 0, 0, 0, 6, 0, 0, 0, 4, 0, 0, 0, // masks
        1, 0, 5, 0, 2, 0, 255, 255, // type, 0, end, lower, no upper
        2, 0, 5, 0, 1, 0, 255, 255,
    ];
    let shortest = [
        5, 0, 3, 3, 3, 0, 12, 0, 32, 0, 56, 0, // three rows, 56 bytes
        1, 0, 0, 0, 3, 0, 0, 0, 7, 0, 0, 0, 6, 0, 0, 0, 4, 0, 0, 0, // masks
        0, 0, 5, 0, 0, 0, 2, 0, // type 0, end 5, lower 0, upper 2
        1, 0, 5, 0, 2, 0, 4, 0, // type 1, end 5, lower 2, upper 4
        2, 0, 5, 0, 1, 0, 3, 0, // type 2, end 5, lower 1, upper 3
    ];
    assert_eq!(canonical(&book), Ok(Some(shortest.to_vec())));
}

#[test]
fn worked_books() {
    assert_canonical(&m2(), &[[0, 0, 4, 0, 2, 0, NONE, NONE], [1, 0, 4, 0, 0, 0, 2, 0]]);
    let m3 = Book::new(5, 2).row(0, 4, 0, Some(2));
    assert_canonical(&m3, &[[0, 0, 4, 0, 0, 0, 2, 0], [1, 0, 4, 0, 2, 0, NONE, NONE]]);
    let rows_of_m4 = [[0, 0, 5, 0, 0, 0, 2, 0], [1, 0, 5, 0, 2, 0, 4, 0], [2, 0, 5, 0, 1, 0, 3, 0]];
    assert_canonical(&m4(), &rows_of_m4);
    assert_canonical(&m4().mask(0, 1).mask(1, 1), &rows_of_m4);
    assert_canonical(&m7(), &[[0, 0, 4, 0, 0, 0, 1, 0], [1, 0, 4, 0, 0, 0, 1, 0]]);
    let m8 = Book::new(3, 2).row(0, 2, 1, None);
    assert_canonical(&m8, &[[0, 0, 2, 0, 1, 0, NONE, NONE], [1, 0, 2, 0, 0, 0, 1, 0]]);
    // None of type 0 in slot 0, and one in slot 1. Type 0 has the lowers 0 0 1 1 and the uppers 0 0 1 2, type 1 has
    // 0 1 1 1 and 0 1 1 2.
    assert_canonical(
        &Book::new(3, 2).row(0, 2, 1, None).row(0, 1, 0, Some(0)),
        &[
            [0, 0, 1, 0, 0, 0, 0, 0],
            [0, 0, 2, 0, 1, 0, NONE, NONE],
            [1, 0, 1, 0, 1, 0, NONE, NONE],
            [1, 0, 2, 0, 0, 0, 1, 0],
        ],
    );
    // Nothing but type 1: the upper of type 0 is flat from 0 to the end, and the lower of type 1 rises all the way.
    assert_canonical(
        &Book::new(4, 2).row(0, 4, 0, Some(0)),
        &[[0, 0, 4, 0, 0, 0, 0, 0], [1, 0, 4, 0, 4, 0, NONE, NONE]],
    );
}

/// The orders of data/orders.csv: 12 slots, 4 types, nine rows. The canonical book has twelve.
#[test]
fn orders() {
    let orders =
        Book::new(12, 4).row(0, 6, 3, None).row(0, 12, 4, Some(6)).row(1, 8, 2, None).row(1, 12, 3, None);
    let orders = orders.row(2, 2, 0, Some(0)).row(2, 12, 2, Some(4));
    let orders = orders.row(3, 6, 0, Some(0)).row(3, 8, 2, None).row(3, 12, 2, Some(2));
    assert_canonical(
        &orders,
        &[
            // Lowers 0 0 0 0 1 2 3 3 3 3 3 3 4, uppers 0 1 2 3 4 4 4 4 4 5 5 5 5.
            [0, 0, 6, 0, 3, 0, NONE, NONE],
            [0, 0, 8, 0, 0, 0, 4, 0],
            [0, 0, 12, 0, 4, 0, 5, 0],
            // Lowers 0 0 0 0 0 0 1 1 2 2 2 2 3, uppers 0 1 2 3 3 3 3 3 3 4 4 4 4.
            [1, 0, 6, 0, 1, 0, NONE, NONE],
            [1, 0, 8, 0, 2, 0, 3, 0],
            [1, 0, 12, 0, 3, 0, 4, 0],
            // Lowers 0 0 0 0 0 0 0 0 0 0 0 1 2, uppers 0 0 0 1 1 1 1 1 1 2 3 3 3.
            [2, 0, 2, 0, 0, 0, 0, 0],
            [2, 0, 8, 0, 0, 0, 1, 0],
            [2, 0, 12, 0, 2, 0, 3, 0],
            // Lowers and uppers 0 0 0 0 0 0 0 1 2 2 2 2 2.
            [3, 0, 6, 0, 0, 0, 0, 0],
            [3, 0, 8, 0, 2, 0, NONE, NONE],
            [3, 0, 12, 0, 0, 0, 2, 0],
        ],
    );
}

#[test]
fn smallest_and_largest_sizes() {
    // M1: the one slot has the one type.
    assert_canonical(&Book::new(1, 1), &[[0, 0, 1, 0, 1, 0, NONE, NONE]]);
    assert_canonical(&Book::new(1, 2), &[]);
    assert_canonical(&Book::new(1, 32).mask(0, 0x8000_0001), &[]);
    // All of 256 slots have type 0: end and lower 256.
    assert_canonical(&Book::new(256, 1), &[[0, 0, 0, 1, 0, 1, NONE, NONE]]);
    assert_canonical(&Book::new(255, 1), &[[0, 0, 255, 0, 255, 0, NONE, NONE]]);
    assert_canonical(&Book::new(256, 32), &[]);
    // At most 255 of type 31 in 256 slots, which bounds no other of 32 types; then 255 of 256 within 256, which does.
    assert_canonical(&Book::new(256, 32).row(31, 256, 0, Some(255)), &[[31, 0, 0, 1, 0, 0, 255, 0]]);
    assert_canonical(
        &Book::new(256, 2).row(1, 256, 255, Some(255)),
        &[[0, 0, 0, 1, 1, 0, 1, 0], [1, 0, 0, 1, 255, 0, 255, 0]],
    );
    // An upper of 256 says nothing.
    assert_canonical(&Book::new(256, 2).row(1, 256, 0, Some(256)).row(0, 3, 0, Some(256)), &[]);
}

/// Rows that come again, in another order, in two halves or that follow from others: the same bytes.
#[test]
fn one_book_for_all_that_close_alike() {
    let expected = canonical(&m4().to_bytes()).expect("a good book").expect("a live book");
    let alike = [
        m4().row(1, 5, 2, None).row(2, 5, 1, None),
        Book::new(5, 3).row(2, 5, 1, None).row(1, 5, 2, None),
        m4().row(1, 5, 0, Some(4)).row(2, 5, 0, Some(3)).row(0, 5, 0, Some(2)),
        m4().row(1, 5, 1, Some(256)).row(1, 4, 1, Some(4)),
        m4().row(0, 1, 0, None).row(0, 4, 0, Some(2)).row(2, 3, 0, Some(3)),
        // At most two of type 0 within 2, 3, 4 and 5 slots.
        (2..=5).fold(m4(), |book, end| book.row(0, end, 0, Some(2))),
    ];
    for book in alike {
        assert_eq!(canonical(&book.to_bytes()), Ok(Some(expected.clone())), "{book:?}");
    }
    // One bound that the rows do not give: other rows. The lower of type 0 cuts the uppers of types 1 and 2 by one, to
    // 0 1 2 3 3 3 and 0 1 2 2 2 2.
    let other = m4().row(0, 4, 1, None);
    assert_canonical(
        &other,
        &[
            [0, 0, 4, 0, 1, 0, NONE, NONE],
            [0, 0, 5, 0, 0, 0, 2, 0],
            [1, 0, 5, 0, 2, 0, 3, 0],
            [2, 0, 5, 0, 1, 0, 2, 0],
        ],
    );
}

/// Byte 3 and the masks are kept, and nothing else depends on them.
#[test]
fn idle_type_and_masks_are_kept() {
    let rows = [[0, 0, 5, 0, 0, 0, 2, 0], [1, 0, 5, 0, 2, 0, 4, 0], [2, 0, 5, 0, 1, 0, 3, 0]];
    for idle in 0..3 {
        assert_canonical(&m4().idle(idle), &rows);
        let shortest = canonical(&m4().idle(idle).to_bytes()).expect("a good book").expect("a live book");
        assert_eq!(shortest[3], idle + 1);
        for mask in 1..8 {
            let shortest = canonical(&m4().idle(idle).mask(3, mask).to_bytes()).expect("a good book");
            assert_eq!(shortest.expect("a live book")[24..28], [mask as u8, 0, 0, 0]);
        }
    }
    let largest = Book::new(256, 32).idle(31).mask(255, 0x8765_4321);
    let shortest = canonical(&largest.to_bytes()).expect("a good book").expect("a live book");
    assert_eq!((shortest.len(), shortest[3]), (12 + 1024, 32));
    assert_eq!(shortest[1032..], [0x21, 0x43, 0x65, 0x87]);
}

/// Live is that of closing alone.
#[test]
fn a_book_that_closes_and_does_not_settle() {
    assert_eq!(settle(&unsettled().to_bytes()), Ok(None));
    assert_canonical(&unsettled(), &[[0, 0, 2, 0, 0, 0, 1, 0], [1, 0, 2, 0, 1, 0, NONE, NONE]]);
    // M4, where the masks leave type 0 alone.
    let masked = (0..5).fold(m4(), |book, slot| book.mask(slot, 1));
    assert_eq!(settle(&masked.to_bytes()), Ok(None));
    assert_canonical(
        &masked,
        &[[0, 0, 5, 0, 0, 0, 2, 0], [1, 0, 5, 0, 2, 0, 4, 0], [2, 0, 5, 0, 1, 0, 3, 0]],
    );
}

/// Into an output of this length: the answer is the expected one, a live book writes these bytes and nothing else, and
/// anything else writes nothing.
fn assert_canonical_into(
    book: &[u8],
    length: usize,
    expected: Result<Option<usize>, Refusal>,
    written: &[u8],
) {
    for seed in [0, 1, 2, 3, 252, 253, 254, 255] {
        let case = (length, seed);
        let mut output = Lent::new(length, seed);
        assert_eq!(canonical_into(book, output.output()), expected, "{case:?}");
        output.assert_written(if matches!(expected, Ok(Some(_))) { written } else { &[] }, &case);
    }
}

/// The answer is this whatever the length of the output, and nothing is written.
fn assert_nothing_written(book: &[u8], expected: Result<Option<usize>, Refusal>) {
    for length in [0, 1, 11, 12, 16, 27, 28, 29, 48, 9227, BOOK_BYTES, BOOK_BYTES + 1, 70000] {
        assert_canonical_into(book, length, expected, &[]);
    }
}

#[test]
fn dead_books() {
    let books = [
        m5(),
        m6(),
        Book::new(1, 1).row(0, 1, 0, Some(0)),
        Book::new(3, 2).row(0, 2, 2, Some(1)),
        // Of three types in 256 slots at most 85 each.
        (0..3).fold(Book::new(256, 3), |book, v| book.row(v, 256, 0, Some(85))),
    ];
    for book in books {
        assert_eq!(canonical(&book.to_bytes()), Ok(None), "{book:?}");
        assert_nothing_written(&book.to_bytes(), Ok(None));
    }
}

/// Each length of the output about the canonical book's own, and far past it: one byte short is 9, and what is longer
/// keeps the rest.
#[test]
fn lengths_of_outputs() {
    let books = [
        (m2(), 48),
        (m4(), 56),
        (m7(), 44),
        (unsettled(), 36),
        (Book::new(1, 2), 16),
        (Book::new(256, 32), 1036),
        (staircase(32, 32), 9228),
    ];
    for (book, needed) in books {
        let bytes = book.to_bytes();
        let shortest = canonical(&bytes).expect("a good book").expect("a live book");
        assert_eq!(shortest.len(), needed, "{book:?}");
        let lengths = (0..=12).chain(needed - 9..=needed + 9).chain([9227, 9228, 9229, 65536, 65539]);
        for length in lengths {
            let expected = if length >= needed { Ok(Some(needed)) } else { Err(Refusal::OutputTooShort) };
            assert_canonical_into(&bytes, length, expected, &shortest);
        }
    }
}

/// The bytes that `canonical` gives are just those of the book, and it has no more memory than they need.
#[test]
fn a_book_has_the_memory_that_it_needs() {
    let shortest = canonical(&Book::new(1, 2).to_bytes()).expect("a good book").expect("a live book");
    assert_eq!((shortest.len(), shortest.capacity()), (16, 16));
}

/// 1,024 rows, the most that a book has.
#[test]
fn the_most_rows() {
    let mut rows: Vec<Row> = (1..=32).map(|step| [0, 0, 2 * step, 0, step, 0, NONE, NONE]).collect();
    for board_type in 1..32 {
        rows.extend((1..=32).map(|step| [board_type, 0, 2 * step, 0, 0, 0, step, 0]));
    }
    assert_eq!(rows.len(), 1024);
    assert_canonical(&staircase(32, 32), &rows);
    // At most 63 of type 0 within 64 slots: a row that is there has an upper too.
    rows[31] = [0, 0, 64, 0, 32, 0, 63, 0];
    assert_canonical(&staircase(32, 32).row(0, 64, 0, Some(63)), &rows);
    // 1,023 rows, of 31 types.
    let shortest = canonical(&staircase(31, 33).to_bytes()).expect("a good book").expect("a live book");
    assert_eq!((shortest.len(), &shortest[4..6]), (12 + 1024 + 8184, &[255, 3][..]));
}

#[test]
fn more_rows_than_a_book_has() {
    // At most 255 of type 0 in all: one row more, 1,025.
    let one_more = staircase(32, 32).row(0, 256, 0, Some(255));
    // 33 steps of 31 types are 1,023 rows; at most 222 of type 30 in all is one more, and of type 29 a second.
    let of_31 = staircase(31, 33).row(30, 256, 0, Some(222));
    let shortest = canonical(&of_31.to_bytes()).expect("a good book").expect("a live book");
    assert_eq!((shortest.len(), &shortest[4..6]), (9228, &[0, 4][..]));
    for book in [one_more, of_31.row(29, 256, 0, Some(222)), staircase(32, 33), staircase(32, 128)] {
        assert_eq!(canonical(&book.to_bytes()), Err(Refusal::TooManyRows), "{book:?}");
        assert_nothing_written(&book.to_bytes(), Err(Refusal::TooManyRows));
    }
}

/// First the book's numbers; then whether it is dead; then 19; then 9.
#[test]
fn order_of_answers() {
    let with = |book: Book, at: usize, byte: u8| {
        let mut bytes = book.to_bytes();
        bytes[at] = byte;
        bytes
    };
    let m8 = || Book::new(3, 2).row(0, 2, 1, None);
    // M8: the masks are at 12, the row at 24; 32 bytes. M6: the rows are at 20 and 28; 36 bytes.
    let bad_books = [
        (with(m8(), 0, 3)[..11].to_vec(), Refusal::TooShort),
        (with(m8(), 1, 2), Refusal::OutOfRange),
        (with(m8(), 3, 3), Refusal::IdleType),
        (with(m8(), 8, 25), Refusal::Layout),
        (with(m8(), 20, 0), Refusal::Mask),
        (with(m8(), 24, 2), Refusal::RowType),
        (with(m8(), 26, 4), Refusal::RowEnd),
        (with(m8(), 29, 1), Refusal::RowBound),
        (with(m6(), 1, 2), Refusal::OutOfRange),
        (with(m6(), 3, 3), Refusal::IdleType),
        (with(m6(), 10, 35), Refusal::Layout),
        (with(m6(), 16, 4), Refusal::Mask),
        (with(m6(), 29, 1), Refusal::RowType),
        (with(m6(), 30, 0), Refusal::RowEnd),
        (with(m6(), 35, 1), Refusal::RowBound),
        (m5().row(0, 2, 257, None).to_bytes(), Refusal::RowBound),
        (staircase(32, 33).row(32, 1, 0, None).to_bytes(), Refusal::RowType),
        (staircase(32, 33).mask(255, 0).to_bytes(), Refusal::Mask),
        (dead_staircase().row(0, 257, 0, None).to_bytes(), Refusal::RowEnd),
        (Vec::new(), Refusal::TooShort),
    ];
    for (book, refusal) in bad_books {
        assert_eq!(check(&book), Err(refusal));
        assert_eq!(canonical(&book), Err(refusal));
        assert_nothing_written(&book, Err(refusal));
    }
    // Dead comes before 19 and 9.
    for book in
        [dead_staircase(), staircase(32, 33).row(0, 1, 2, None), staircase(32, 128).row(0, 256, 0, Some(127))]
    {
        assert_eq!(canonical(&book.to_bytes()), Ok(None));
        assert_nothing_written(&book.to_bytes(), Ok(None));
    }
    // 19 comes before 9: see also `more_rows_than_a_book_has`.
    assert_eq!(canonical_into(&staircase(32, 33).to_bytes(), &mut []), Err(Refusal::TooManyRows));
    assert_eq!(canonical_into(&staircase(32, 32).to_bytes(), &mut []), Err(Refusal::OutputTooShort));
}

/// What was lent whole is no good book: its length is not the one in the book.
#[test]
fn a_buffer_lent_whole_is_refused() {
    let mut out = vec![0; BOOK_BYTES];
    assert_eq!(canonical_into(&m2().to_bytes(), &mut out), Ok(Some(48)));
    assert_eq!(check(&out), Err(Refusal::Layout));
    assert_eq!(canonical(&out), Err(Refusal::Layout));
    assert_eq!(check(&out[..48]), Ok(()));
}

#[test]
fn words_and_number() {
    assert_eq!(Refusal::TooManyRows.number(), 19);
    assert_eq!(Refusal::TooManyRows.to_string(), "the canonical book needs more than 1,024 rows");
}
