//! The bundled books: those of the worked examples of `docs/SPECIFICATION.md`, section 9, M1 to M8; M4 with only
//! type 0 in its first two slots; and one bad book for each of the refusals 1 to 8 of section 8. Where an example
//! names no masks, each slot may have each type. And M8's run: its book and its calls.

use nested_gcc::{Book, Calls};

/// A bundled file.
pub struct Sample {
    /// Its name, without `.bin`.
    pub name: &'static str,
    pub bytes: Vec<u8>,
}

// Where M8's book has its parts: n = 3 puts the rows at 24.
const BYTE_3: usize = 3;
const ROWS_OFFSET: usize = 8;
const MASK_OF_SLOT_0: usize = 12;
const ROW_TYPE: usize = 24;
const ROW_END: usize = 26;
const ROW_LOWER: usize = 28;

fn m4() -> Book {
    Book::new(5, 3).row(1, 5, 2, None).row(2, 5, 1, None)
}

fn m8() -> Book {
    Book::new(3, 2).row(0, 2, 1, None)
}

/// M8's book with the 2 bytes at `at` set to `value`.
fn m8_with(at: usize, value: u16) -> Vec<u8> {
    let mut bytes = m8().to_bytes();
    bytes[at..at + 2].copy_from_slice(&value.to_le_bytes());
    bytes
}

/// M8's book with the byte at `at` set to `value`.
fn m8_with_byte(at: usize, value: u8) -> Vec<u8> {
    let mut bytes = m8().to_bytes();
    bytes[at] = value;
    bytes
}

/// Every bundled book, for data/books.
pub fn samples() -> Vec<Sample> {
    let m7 = Book::new(4, 4).mask(0, 3).mask(1, 3).mask(2, 3).mask(3, 12);
    let m7 = m7.row(0, 4, 0, Some(1)).row(1, 4, 0, Some(1));
    let books = [
        ("M1", Book::new(1, 1).to_bytes()),
        ("M2", Book::new(5, 2).row(0, 4, 2, None).to_bytes()),
        ("M3", Book::new(5, 2).row(0, 4, 0, Some(2)).to_bytes()),
        ("M4", m4().to_bytes()),
        ("M4_two_slots_fixed", m4().mask(0, 1).mask(1, 1).to_bytes()),
        ("M5", Book::new(2, 2).row(0, 1, 2, None).to_bytes()),
        ("M6", Book::new(2, 2).row(0, 1, 1, None).row(1, 1, 1, None).to_bytes()),
        ("M7", m7.to_bytes()),
        ("M8", m8().to_bytes()),
        ("bad_1_eleven_bytes", m8().to_bytes()[..11].to_vec()),
        ("bad_2_n_257", Book::new(257, 2).to_bytes()),
        ("bad_3_byte_3_is_3", m8_with_byte(BYTE_3, 3)),
        ("bad_4_rows_at_13", m8_with(ROWS_OFFSET, 13)),
        ("bad_5_mask_4", m8_with_byte(MASK_OF_SLOT_0, 4)),
        ("bad_6_type_2", m8_with_byte(ROW_TYPE, 2)),
        ("bad_7_end_4", m8_with(ROW_END, 4)),
        ("bad_8_lower_257", m8_with(ROW_LOWER, 257)),
    ];
    books.map(|(name, bytes)| Sample { name, bytes }).into()
}

/// M8's book and calls, for data/M8.
pub fn m8_run() -> Vec<Sample> {
    let mut calls = Calls::new();
    calls.mark().assign(0, 1).upper_walls(1).back().upper_walls(1);
    calls.remove(1, 0).show(0).assign(0, 1).assign(2, 0);
    let (book, calls) = (m8().to_bytes(), calls.as_bytes().to_vec());
    vec![Sample { name: "book", bytes: book }, Sample { name: "calls", bytes: calls }]
}
