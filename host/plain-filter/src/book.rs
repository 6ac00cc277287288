//! The plain reader of books.

/// A good book.
#[derive(Clone, Debug, PartialEq, Eq)]
pub struct Book {
    /// Slots.
    pub n: usize,
    /// Types.
    pub k: usize,
    /// The type that means: the line stands. Struck figures leave it out, and nothing else looks at it.
    pub idle: Option<usize>,
    /// For each slot, the types that may go there: bit v for type v.
    pub masks: Vec<u32>,
    /// In the book's order.
    pub rows: Vec<Row>,
}

/// Of type `board_type`, the first `end` slots have at least `lower` and at most `upper`.
#[derive(Clone, Copy, Debug, PartialEq, Eq)]
pub struct Row {
    pub board_type: usize,
    pub end: usize,
    pub lower: usize,
    /// `None`: no upper bound.
    pub upper: Option<usize>,
}

/// The number of 2 bytes at `at`.
fn two(book: &[u8], at: usize) -> usize {
    book[at] as usize + 256 * book[at + 1] as usize
}

/// The number of 4 bytes at `at`.
fn four(book: &[u8], at: usize) -> u64 {
    two(book, at) as u64 + 65536 * two(book, at + 2) as u64
}

/// 0 for a good book, else the number, 1 to 8, of the first condition that it breaks.
pub fn refusal(book: &[u8]) -> u32 {
    if book.len() < 12 {
        return 1;
    }
    let n = two(book, 0);
    let k = book[2] as usize;
    let r = two(book, 4);
    if !(1..=256).contains(&n) || !(1..=32).contains(&k) || r > 1024 {
        return 2;
    }
    if book[3] as usize > k {
        return 3;
    }
    let rows_at = 12 + 4 * n;
    let length = 12 + 4 * n + 8 * r;
    if two(book, 6) != 12 || two(book, 8) != rows_at || two(book, 10) != length || book.len() != length {
        return 4;
    }
    for slot in 0..n {
        let mask = four(book, 12 + 4 * slot);
        if mask == 0 || mask >= 1 << k {
            return 5;
        }
    }
    for row in 0..r {
        let at = rows_at + 8 * row;
        let (board_type, second, end, lower, upper) =
            (book[at] as usize, book[at + 1], two(book, at + 2), two(book, at + 4), two(book, at + 6));
        if board_type >= k || second != 0 {
            return 6;
        }
        if end == 0 || end > n {
            return 7;
        }
        if lower > 256 || (upper > 256 && upper != 65535) {
            return 8;
        }
    }
    0
}

impl Book {
    /// The book taken apart, or the number of its refusal.
    pub fn parse(book: &[u8]) -> Result<Book, u32> {
        let number = refusal(book);
        if number != 0 {
            return Err(number);
        }
        let n = two(book, 0);
        let r = two(book, 4);
        let masks = (0..n).map(|slot| four(book, 12 + 4 * slot) as u32).collect();
        let rows = (0..r).map(|row| parse_row(book, 12 + 4 * n + 8 * row)).collect();
        Ok(Book { n, k: book[2] as usize, idle: parse_idle(book[3]), masks, rows })
    }
}

/// Byte 3 is 0 for no idle type, else that type plus 1.
fn parse_idle(byte: u8) -> Option<usize> {
    match byte {
        0 => None,
        _ => Some(byte as usize - 1),
    }
}

fn parse_row(book: &[u8], at: usize) -> Row {
    let upper = two(book, at + 6);
    Row {
        board_type: book[at] as usize,
        end: two(book, at + 2),
        lower: two(book, at + 4),
        upper: if upper == 65535 { None } else { Some(upper) },
    }
}

#[cfg(test)]
mod tests {
    use super::*;

    /// M8: n = 3, k = 2, masks 3 3 3, one row: type 0, end 2, lower 1, no upper.
    const M8: [u8; 32] = [
        3, 0, 2, 0, 1, 0, 12, 0, 24, 0, 32, 0, 3, 0, 0, 0, 3, 0, 0, 0, 3, 0, 0, 0, 0, 0, 2, 0, 1, 0, 255, 255,
    ];

    #[test]
    fn m8_is_taken_apart() {
        let row = Row { board_type: 0, end: 2, lower: 1, upper: None };
        let book = Book { n: 3, k: 2, idle: None, masks: vec![3, 3, 3], rows: vec![row] };
        assert_eq!(Book::parse(&M8), Ok(book));
    }

    /// A book of one slot and k types, without rows, with this byte 3.
    fn with_byte_3(k: u8, byte: u8) -> [u8; 16] {
        [1, 0, k, byte, 0, 0, 12, 0, 16, 0, 16, 0, 1, 0, 0, 0]
    }

    #[test]
    fn byte_3_is_the_idle_type_plus_1() {
        let cases = [
            (1, 0, Ok(None)),
            (1, 1, Ok(Some(0))),
            (1, 2, Err(3)),
            (1, 255, Err(3)),
            (2, 0, Ok(None)),
            (2, 1, Ok(Some(0))),
            (2, 2, Ok(Some(1))),
            (2, 3, Err(3)),
            (2, 255, Err(3)),
            (32, 0, Ok(None)),
            (32, 1, Ok(Some(0))),
            (32, 32, Ok(Some(31))),
            (32, 33, Err(3)),
            (32, 255, Err(3)),
        ];
        for (k, byte, idle) in cases {
            let parsed = Book::parse(&with_byte_3(k, byte)).map(|book| book.idle);
            assert_eq!(parsed, idle, "k = {k}, byte 3 = {byte}");
        }
    }

    /// A k out of range is refused by 2, whatever byte 3 is; then 3 comes before 4.
    #[test]
    fn order_of_2_3_and_4() {
        for (k, byte) in [(0, 0), (0, 1), (33, 33), (33, 34), (255, 255)] {
            assert_eq!(refusal(&with_byte_3(k, byte)), 2, "k = {k}, byte 3 = {byte}");
        }
        let mut book = with_byte_3(2, 3);
        book[6] = 13;
        assert_eq!(refusal(&book), 3);
        assert_eq!(refusal(&with_byte_3(2, 3)[..15]), 3);
        assert_eq!(refusal(&with_byte_3(2, 2)[..15]), 4);
    }

    #[test]
    fn high_bytes_count() {
        // n = 1, k = 32, the mask 0x80402010, one row: type 31, end 1, lower 256, upper 2.
        let book = [1, 0, 32, 0, 1, 0, 12, 0, 16, 0, 24, 0, 0x10, 0x20, 0x40, 0x80, 31, 0, 1, 0, 0, 1, 2, 0];
        let row = Row { board_type: 31, end: 1, lower: 256, upper: Some(2) };
        let parsed = Book { n: 1, k: 32, idle: None, masks: vec![0x80402010], rows: vec![row] };
        assert_eq!(Book::parse(&book), Ok(parsed));
    }

    #[test]
    fn a_refused_book_is_not_taken_apart() {
        assert_eq!(Book::parse(&M8[..11]), Err(1));
        assert_eq!(Book::parse(&M8[..31]), Err(4));
    }
}
