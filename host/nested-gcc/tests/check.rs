//! `check` on books written byte by byte: each refusal of `docs/SPECIFICATION.md`, section 8, with an example, each
//! limit with its neighbours, and the order of the refusals. Every expected number is typed by hand.

use nested_gcc::{check, Book, Refusal};

/// A row's fields: type, second byte, end, lower, upper.
type Row = (u8, u8, u16, u16, u16);

/// A book's fields, each free to be wrong.
#[derive(Clone)]
struct Fields {
    n: u16,
    k: u8,
    byte_3: u8,
    r: u16,
    masks_at: u16,
    rows_at: u16,
    length: u16,
    masks: Vec<u32>,
    rows: Vec<Row>,
}

/// The fields of a book with these masks and rows: counts, offsets and length are theirs.
fn fields(k: u8, masks: &[u32], rows: &[Row]) -> Fields {
    let rows_at = 12 + 4 * masks.len();
    Fields {
        n: masks.len() as u16,
        k,
        byte_3: 0,
        r: rows.len() as u16,
        masks_at: 12,
        rows_at: rows_at as u16,
        length: (rows_at + 8 * rows.len()) as u16,
        masks: masks.to_vec(),
        rows: rows.to_vec(),
    }
}

impl Fields {
    fn bytes(&self) -> Vec<u8> {
        let mut bytes = Vec::new();
        bytes.extend(self.n.to_le_bytes());
        bytes.extend([self.k, self.byte_3]);
        for field in [self.r, self.masks_at, self.rows_at, self.length] {
            bytes.extend(field.to_le_bytes());
        }
        for mask in &self.masks {
            bytes.extend(mask.to_le_bytes());
        }
        for &(board_type, second, end, lower, upper) in &self.rows {
            bytes.extend([board_type, second]);
            for field in [end, lower, upper] {
                bytes.extend(field.to_le_bytes());
            }
        }
        bytes
    }
}

/// n = 3, k = 2, masks 3 3 3, one row: type 0, end 2, lower 1, no upper.
fn m8() -> Fields {
    fields(2, &[3, 3, 3], &[(0, 0, 2, 1, 65535)])
}

/// M8 with one field changed.
fn m8_but(change: impl FnOnce(&mut Fields)) -> Vec<u8> {
    let mut book = m8();
    change(&mut book);
    book.bytes()
}

/// 0 for a good book, else the number of the refusal.
fn number(book: &[u8]) -> u32 {
    check(book).map_or_else(|refusal| refusal.number(), |()| 0)
}

#[test]
fn m8_typed_by_hand_is_good() {
    let book = [
        3, 0, 2, 0, 1, 0, 12, 0, 24, 0, 32, 0, // n, k, no idle type, r, masks at, rows at, length
        3, 0, 0, 0, 3, 0, 0, 0, 3, 0, 0, 0, // masks
        0, 0, 2, 0, 1, 0, 255, 255, // type, 0, end, lower, upper
    ];
    assert_eq!(m8().bytes(), book);
    assert_eq!(check(&book), Ok(()));
}

/// A book for each of the refusals 1 to 8.
#[test]
fn examples_of_the_table() {
    let of_257_slots = fields(2, &[3; 257], &[]).bytes();
    assert_eq!(check(&m8().bytes()[..11]), Err(Refusal::TooShort));
    assert_eq!(check(&of_257_slots), Err(Refusal::OutOfRange));
    assert_eq!(check(&m8_but(|b| b.byte_3 = 3)), Err(Refusal::IdleType));
    assert_eq!(check(&m8_but(|b| b.rows_at = 13)), Err(Refusal::Layout));
    assert_eq!(check(&m8_but(|b| b.masks[0] = 4)), Err(Refusal::Mask));
    assert_eq!(check(&m8_but(|b| b.rows[0].0 = 2)), Err(Refusal::RowType));
    assert_eq!(check(&m8_but(|b| b.rows[0].2 = 4)), Err(Refusal::RowEnd));
    assert_eq!(check(&m8_but(|b| b.rows[0].3 = 257)), Err(Refusal::RowBound));
}

/// The words and the numbers of section 8.
#[test]
fn words_and_numbers_of_the_table() {
    let table = [
        (Refusal::TooShort, 1, "book under 12 bytes"),
        (Refusal::OutOfRange, 2, "n, k or r out of range"),
        (Refusal::IdleType, 3, "byte 3 above k"),
        (Refusal::Layout, 4, "an offset or length differs, or the lent length does"),
        (Refusal::Mask, 5, "mask 0, or a bit from k up"),
        (Refusal::RowType, 6, "row type k or more, or its second byte not 0"),
        (Refusal::RowEnd, 7, "end 0 or above n"),
        (Refusal::RowBound, 8, "lower above 256; upper above 256, not 65535"),
        (Refusal::OutputTooShort, 9, "a lent output too short"),
    ];
    for (refusal, number, words) in table {
        assert_eq!(refusal.number(), number);
        assert_eq!(refusal.to_string(), words);
    }
}

/// The older name of number 3 stands for the refusal, also in a pattern.
#[test]
#[allow(deprecated)]
fn the_older_name_of_number_3() {
    assert_eq!(Refusal::ReservedByte, Refusal::IdleType);
    assert_eq!(Refusal::ReservedByte.number(), 3);
    let named = |refusal| match refusal {
        Refusal::OutOfRange => "before",
        Refusal::ReservedByte => "number 3",
        _ => "another",
    };
    assert_eq!(named(Refusal::IdleType), "number 3");
    assert_eq!(named(Refusal::Layout), "another");
    assert!(matches!(check(&m8_but(|b| b.byte_3 = 3)), Err(Refusal::ReservedByte)));
}

#[test]
fn length_0_to_16() {
    // n = 1, k = 1, no rows: 16 bytes.
    let book = fields(1, &[1], &[]).bytes();
    let expected = [1, 1, 1, 1, 1, 1, 1, 1, 1, 1, 1, 1, 4, 4, 4, 4, 0];
    for (length, expected) in expected.into_iter().enumerate() {
        assert_eq!(number(&book[..length]), expected, "{length} bytes");
    }
    assert_eq!(number(&[]), 1);
    assert_eq!(number(&[0; 11]), 1);
    assert_eq!(number(&[255; 11]), 1);
    assert_eq!(number(&[0; 12]), 2);
    assert_eq!(number(&[255; 12]), 2);
}

#[test]
fn slots() {
    for (slots, expected) in [(0, 2), (1, 0), (2, 0), (255, 0), (256, 0), (257, 2), (512, 2)] {
        let masks = vec![1; slots];
        assert_eq!(number(&fields(1, &masks, &[]).bytes()), expected, "n = {slots}");
    }
    // Only n is wrong, at its greatest.
    assert_eq!(number(&m8_but(|b| b.n = 65535)), 2);
    // Within the limits, and not the count that offsets and length have.
    assert_eq!(number(&m8_but(|b| b.n = 2)), 4);
    assert_eq!(number(&m8_but(|b| b.n = 4)), 4);
}

#[test]
fn types() {
    let cases = [(0, 2), (1, 0), (2, 0), (31, 0), (32, 0), (33, 2), (64, 2), (255, 2)];
    for (types, expected) in cases {
        assert_eq!(number(&fields(types, &[1], &[]).bytes()), expected, "k = {types}");
    }
}

#[test]
fn row_counts() {
    for (count, expected) in [(0, 0), (1, 0), (1023, 0), (1024, 0), (1025, 2), (2048, 2)] {
        let rows = vec![(0, 0, 1, 0, 65535); count];
        assert_eq!(number(&fields(1, &[1], &rows).bytes()), expected, "r = {count}");
    }
    assert_eq!(number(&m8_but(|b| b.r = 65535)), 2);
    assert_eq!(number(&m8_but(|b| b.r = 0)), 4);
    assert_eq!(number(&m8_but(|b| b.r = 2)), 4);
}

/// 256 slots, 32 types and 1024 rows: the longest good book, 9228 bytes.
#[test]
fn longest_book() {
    let book = fields(32, &[u32::MAX; 256], &[(31, 0, 256, 256, 256); 1024]);
    assert_eq!(book.bytes().len(), 9228);
    assert_eq!(number(&book.bytes()), 0);
    assert_eq!(number(&book.bytes()[..9227]), 4);
    let mut last_row = book.clone();
    last_row.rows[1023].4 = 257;
    assert_eq!(number(&last_row.bytes()), 8);
    let mut last_mask = book;
    last_mask.masks[255] = 0;
    assert_eq!(number(&last_mask.bytes()), 5);
}

/// 0 for no idle type, else that type plus 1, up to k.
#[test]
fn byte_3() {
    for (types, byte, expected) in [
        (1, 0, 0),
        (1, 1, 0),
        (1, 2, 3),
        (1, 255, 3),
        (2, 0, 0),
        (2, 1, 0),
        (2, 2, 0),
        (2, 3, 3),
        (2, 128, 3),
        (2, 255, 3),
        (32, 0, 0),
        (32, 1, 0),
        (32, 31, 0),
        (32, 32, 0),
        (32, 33, 3),
        (32, 255, 3),
    ] {
        let book = Fields { byte_3: byte, ..fields(types, &[1], &[]) };
        assert_eq!(number(&book.bytes()), expected, "k = {types}, byte 3 = {byte}");
        let masks = vec![1; 256];
        let book = Fields { byte_3: byte, ..fields(types, &masks, &[(0, 0, 1, 0, 65535)]) };
        assert_eq!(number(&book.bytes()), expected, "n = 256, k = {types}, byte 3 = {byte}");
    }
}

/// `Book` writes the type plus 1, and 255 for both of the greatest, which no book has.
#[test]
fn idle_types_as_written() {
    let cases = [
        (1, 0, 1, 0),
        (1, 1, 2, 3),
        (2, 1, 2, 0),
        (2, 2, 3, 3),
        (32, 31, 32, 0),
        (32, 32, 33, 3),
        (32, 254, 255, 3),
        (32, 255, 255, 3),
    ];
    for (types, board_type, byte, expected) in cases {
        let book = Book::new(1, types).idle(board_type).to_bytes();
        assert_eq!(book[3], byte, "k = {types}, type {board_type}");
        assert_eq!(number(&book), expected, "k = {types}, type {board_type}");
    }
    assert_eq!(Book::new(1, 2).to_bytes()[3], 0);
    // The last that is set counts.
    assert_eq!(Book::new(1, 2).idle(7).idle(0).to_bytes()[3], 1);
}

/// M8 has its masks at 12, its rows at 24 and 32 bytes.
#[test]
fn offsets_and_lengths() {
    for (at, expected) in [(0, 4), (11, 4), (12, 0), (13, 4), (268, 4)] {
        assert_eq!(number(&m8_but(|b| b.masks_at = at)), expected, "masks at {at}");
    }
    for (at, expected) in [(0, 4), (13, 4), (23, 4), (24, 0), (25, 4), (280, 4)] {
        assert_eq!(number(&m8_but(|b| b.rows_at = at)), expected, "rows at {at}");
    }
    for (length, expected) in [(0, 4), (31, 4), (32, 0), (33, 4), (288, 4), (65535, 4)] {
        assert_eq!(number(&m8_but(|b| b.length = length)), expected, "length {length}");
    }
}

#[test]
fn lent_lengths() {
    let book = m8().bytes();
    assert_eq!(number(&book[..12]), 4);
    assert_eq!(number(&book[..24]), 4);
    assert_eq!(number(&book[..31]), 4);
    assert_eq!(number(&[&book[..], &[0]].concat()), 4);
    assert_eq!(number(&[&book[..], &[0; 8]].concat()), 4);
    // The lent length less 65536 is the one written.
    assert_eq!(number(&[&book[..], &[0; 65536]].concat()), 4);
    // The written length is the lent one, and is not that of the counts.
    let long = [&m8_but(|b| b.length = 33)[..], &[0]].concat();
    assert_eq!(number(&long), 4);
    assert_eq!(number(&m8_but(|b| b.length = 31)[..31]), 4);
}

#[test]
fn masks() {
    let cases = [
        (1, 0, 5),
        (1, 1, 0),
        (1, 2, 5),
        (1, 3, 5),
        (2, 0, 5),
        (2, 2, 0),
        (2, 3, 0),
        (2, 4, 5),
        (2, 7, 5),
        (2, 0x8000_0000, 5),
        (2, 0x8000_0001, 5),
        (8, 0xff, 0),
        (8, 0x100, 5),
        (31, 0x7fff_ffff, 0),
        (31, 0x8000_0000, 5),
        (31, 0xffff_ffff, 5),
        (32, 0, 5),
        (32, 0x8000_0000, 0),
        (32, 0xffff_ffff, 0),
    ];
    for (types, mask, expected) in cases {
        for slot in 0..3 {
            let mut book = fields(types, &[1, 1, 1], &[]);
            book.masks[slot] = mask;
            assert_eq!(number(&book.bytes()), expected, "k = {types}, mask {mask} in slot {slot}");
        }
    }
}

#[test]
fn row_types() {
    for (types, board_type, expected) in [
        (1, 0, 0),
        (1, 1, 6),
        (2, 1, 0),
        (2, 2, 6),
        (2, 3, 6),
        (2, 255, 6),
        (31, 30, 0),
        (31, 31, 6),
        (32, 31, 0),
        (32, 32, 6),
    ] {
        let book = fields(types, &[1], &[(board_type, 0, 1, 0, 0)]);
        assert_eq!(number(&book.bytes()), expected, "k = {types}, type {board_type}");
    }
    for (second, expected) in [(0, 0), (1, 6), (128, 6), (255, 6)] {
        assert_eq!(number(&m8_but(|b| b.rows[0].1 = second)), expected, "second byte {second}");
    }
}

#[test]
fn row_ends() {
    for (end, expected) in [(0, 7), (1, 0), (2, 0), (3, 0), (4, 7), (256, 7), (257, 7), (65535, 7)] {
        assert_eq!(number(&m8_but(|b| b.rows[0].2 = end)), expected, "n = 3, end {end}");
    }
    for (end, expected) in [(0, 7), (1, 0), (255, 0), (256, 0), (257, 7), (512, 7), (65535, 7)] {
        let book = fields(1, &[1; 256], &[(0, 0, end, 0, 65535)]);
        assert_eq!(number(&book.bytes()), expected, "n = 256, end {end}");
    }
}

#[test]
fn row_bounds() {
    for (lower, expected) in [(0, 0), (255, 0), (256, 0), (257, 8), (512, 8), (65534, 8), (65535, 8)] {
        assert_eq!(number(&m8_but(|b| b.rows[0].3 = lower)), expected, "lower {lower}");
    }
    for (upper, expected) in
        [(0, 0), (255, 0), (256, 0), (257, 8), (511, 8), (512, 8), (65279, 8), (65534, 8), (65535, 0)]
    {
        assert_eq!(number(&m8_but(|b| b.rows[0].4 = upper)), expected, "upper {upper}");
    }
}

/// Books that are dead are good books.
#[test]
fn dead_books_are_good() {
    // M5: lower 2 at end 1. M6: lower 1 at end 1 for types 0 and 1.
    let m5 = fields(2, &[3, 3], &[(0, 0, 1, 2, 65535)]);
    let m6 = fields(2, &[3, 3], &[(0, 0, 1, 1, 65535), (1, 0, 1, 1, 65535)]);
    assert_eq!(number(&m5.bytes()), 0);
    assert_eq!(number(&m6.bytes()), 0);
    // A lower above its upper.
    assert_eq!(number(&fields(2, &[3, 3], &[(0, 0, 2, 2, 1)]).bytes()), 0);
    // Several rows for one type and end, at odds with each other.
    assert_eq!(number(&fields(2, &[3, 3], &[(0, 0, 2, 2, 2), (0, 0, 2, 0, 0)]).bytes()), 0);
}

/// Puts the fault of one number, 2 to 8, into a book with at least one row. No two of them touch the same
/// field, so each stays when another is added.
fn spoil(book: &mut Fields, number: u32) {
    match number {
        2 => book.k = 33,
        3 => book.byte_3 = 255,
        4 => book.masks_at = 13,
        5 => book.masks[2] = 0,
        6 => book.rows[0].1 = 1,
        7 => book.rows[0].2 = 0,
        8 => book.rows[0].3 = 257,
        _ => unreachable!(),
    }
}

#[test]
fn of_two_faults_the_earlier_number_wins() {
    for first in 2..=8 {
        for second in first..=8 {
            let mut book = m8();
            spoil(&mut book, first);
            spoil(&mut book, second);
            assert_eq!(number(&book.bytes()), first, "faults {first} and {second}");
        }
    }
}

#[test]
fn short_wins_over_all() {
    for second in 2..=8 {
        let mut book = m8();
        spoil(&mut book, second);
        assert_eq!(number(&book.bytes()[..11]), 1, "11 bytes of a book with fault {second}");
    }
}

/// Each fault that number 2, 3 or 4 has, with each later one.
#[test]
fn every_form_of_a_header_fault_wins() {
    type Change = fn(&mut Fields);
    let changes: [(u32, Change); 12] = [
        (2, |b| b.n = 0),
        (2, |b| b.n = 257),
        (2, |b| b.k = 0),
        (2, |b| b.k = 33),
        (2, |b| b.r = 1025),
        (3, |b| b.byte_3 = 3),
        (3, |b| b.byte_3 = 33),
        (3, |b| b.byte_3 = 255),
        (4, |b| b.masks_at = 11),
        (4, |b| b.rows_at = 25),
        (4, |b| b.length = 31),
        (4, |b| b.rows.push((0, 0, 1, 0, 0))),
    ];
    for (expected, change) in changes {
        for second in expected + 1..=8 {
            let mut book = m8();
            spoil(&mut book, second);
            change(&mut book);
            assert_eq!(number(&book.bytes()), expected, "{expected} with fault {second}");
        }
    }
}

/// A k out of range is refused by 2, be byte 3 above it or not; a byte 3 above k comes before each form of 4,
/// and one that is not leaves the 4.
#[test]
fn two_then_three_then_four() {
    for (types, byte) in [(0, 0), (0, 1), (0, 255), (33, 0), (33, 33), (33, 34), (255, 255)] {
        let book = Fields { k: types, byte_3: byte, ..m8() };
        assert_eq!(number(&book.bytes()), 2, "k = {types}, byte 3 = {byte}");
    }
    for (byte, expected) in [(0, 4), (1, 4), (2, 4), (3, 3), (255, 3)] {
        for (masks_at, rows_at, length) in [(13, 24, 32), (12, 25, 32), (12, 24, 33)] {
            let book = Fields { byte_3: byte, masks_at, rows_at, length, ..m8() };
            assert_eq!(number(&book.bytes()), expected, "byte 3 = {byte}");
        }
        let book = m8_but(|b| b.byte_3 = byte);
        for lent in [&book[..12], &book[..31], &[&book[..], &[0]].concat()] {
            assert_eq!(number(lent), expected, "byte 3 = {byte}, {} bytes", lent.len());
        }
    }
}

#[test]
fn masks_come_before_rows() {
    // A bad mask in the last slot and a bad first row, of each number.
    for row in [(2, 0, 1, 0, 0), (0, 1, 1, 0, 0), (0, 0, 4, 0, 0), (0, 0, 1, 257, 0)] {
        assert_eq!(number(&fields(2, &[3, 3, 4], &[row]).bytes()), 5);
        assert_eq!(number(&fields(2, &[3, 3, 0], &[row]).bytes()), 5);
    }
}

#[test]
fn rows_come_in_order() {
    let good = (1, 0, 3, 0, 65535);
    let six = (2, 0, 1, 0, 0);
    let seven = (0, 0, 4, 0, 0);
    let eight = (0, 0, 1, 0, 257);
    let cases: [(&[Row], u32); 11] = [
        (&[eight, six], 8),
        (&[eight, seven], 8),
        (&[seven, six], 7),
        (&[six, eight], 6),
        (&[six, seven], 6),
        (&[seven, eight], 7),
        (&[good, eight, six], 8),
        (&[good, good, seven, six], 7),
        (&[good, six, good], 6),
        (&[good, good, eight], 8),
        (&[good, good, good], 0),
    ];
    for (rows, expected) in cases {
        assert_eq!(number(&fields(2, &[3, 3, 3], rows).bytes()), expected, "{rows:?}");
    }
}

#[test]
fn within_a_row_6_then_7_then_8() {
    let cases: [(Row, u32); 8] = [
        ((2, 0, 0, 257, 257), 6),
        ((0, 1, 4, 257, 65534), 6),
        ((2, 0, 4, 0, 0), 6),
        ((0, 1, 1, 257, 0), 6),
        ((0, 0, 0, 257, 0), 7),
        ((0, 0, 4, 0, 257), 7),
        ((0, 0, 3, 257, 65535), 8),
        ((0, 0, 3, 256, 257), 8),
    ];
    for (row, expected) in cases {
        assert_eq!(number(&fields(2, &[3, 3, 3], &[row]).bytes()), expected, "{row:?}");
    }
}
