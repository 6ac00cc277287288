//! `import_csv` on texts written out: which quoting, line ends and fields are good, each number at its edges, the order
//! of the numbers, what is written and what is left. Every expected number and byte is typed by hand.

mod lent;

use lent::Lent;
use nested_gcc::{
    check, close, import_csv, import_csv_into, settle, Book, Live, Refusal, Standing, BOOK_BYTES, ROWS_MOST,
};

/// 0 for a text that is accepted, else the number of the refusal, where the output is long enough. With outputs of
/// other lengths the same, or 9 in place of 0; of each nothing changes but the book.
fn number(text: &[u8]) -> u32 {
    let imported = import_csv(text);
    let number = imported.as_ref().map_or_else(|refusal| refusal.number(), |_| 0);
    for (length, seed) in [(0, 0), (1, 1), (11, 2), (BOOK_BYTES, 3), (BOOK_BYTES + 7, 254)] {
        let mut output = Lent::new(length, seed);
        let written = import_csv_into(text, output.output());
        match &imported {
            Ok(book) if length >= book.len() => {
                assert_eq!(written, Ok(book.len()));
                output.assert_written(book, &length);
            }
            Ok(_) => {
                assert_eq!(written, Err(Refusal::OutputTooShort));
                output.assert_written(&[], &length);
            }
            Err(refusal) => {
                assert_eq!(written, Err(*refusal), "{:?}, {length} bytes", String::from_utf8_lossy(text));
                output.assert_written(&[], &length);
            }
        }
    }
    number
}

fn assert_numbers<T: AsRef<[u8]>>(cases: &[(T, u32)]) {
    for (text, expected) in cases {
        assert_eq!(number(text.as_ref()), *expected, "{:?}", String::from_utf8_lossy(text.as_ref()));
    }
}

/// The bytes of the book that the text says.
fn book(text: &[u8]) -> Vec<u8> {
    let book = import_csv(text);
    book.unwrap_or_else(|refusal| panic!("{:?}: {refusal}", String::from_utf8_lossy(text)))
}

/// `rows` times the same record behind the first.
fn with_rows(first: &str, row: &str, rows: usize) -> Vec<u8> {
    (first.to_string() + &format!("\r\n{row}").repeat(rows)).into_bytes()
}

/// n = 3, k = 2, masks 3 3 3; type 0 end 2 lower 1, no upper; type 1 end 3 lower 0 upper 2.
#[test]
fn a_small_book_byte_by_byte() {
    let expected = [
        3, 0, 2, 0, 2, 0, 12, 0, 24, 0, 40, 0, // n, k, no idle type, r, masks at, rows at, length
        3, 0, 0, 0, 3, 0, 0, 0, 3, 0, 0, 0, // masks
        0, 0, 2, 0, 1, 0, 255, 255, // type, 0, end, lower, upper
        1, 0, 3, 0, 0, 0, 2, 0,
    ];
    assert_eq!(book(b"3,2\r\n0,2,1,\r\n1,3,0,2\r\n"), expected);
    // Without the last line end, and with each field in quotes.
    assert_eq!(book(b"3,2\r\n0,2,1,\r\n1,3,0,2"), expected);
    assert_eq!(book(b"\"3\",\"2\"\r\n\"0\",\"2\",\"1\",\"\"\r\n\"1\",\"3\",\"0\",\"2\"\r\n"), expected);
    assert_eq!(book(b"00003,02\r\n00,00002,001,65535\r\n\"00001\",003,00000,\"002\""), expected);
}

#[test]
fn books_without_rows() {
    assert_eq!(book(b"1,1"), [1, 0, 1, 0, 0, 0, 12, 0, 16, 0, 16, 0, 1, 0, 0, 0]);
    assert_eq!(book(b"1,8\r\n"), [1, 0, 8, 0, 0, 0, 12, 0, 16, 0, 16, 0, 255, 0, 0, 0]);
    assert_eq!(book(b"1,9\r\n"), [1, 0, 9, 0, 0, 0, 12, 0, 16, 0, 16, 0, 255, 1, 0, 0]);
    let of_32_types = [2, 0, 32, 0, 0, 0, 12, 0, 20, 0, 20, 0, 255, 255, 255, 255, 255, 255, 255, 255];
    assert_eq!(book(b"2,32\r\n"), of_32_types);
}

/// A short book does not keep the memory of the longest.
#[test]
fn a_book_has_the_memory_that_it_needs() {
    assert!(book(b"1,1").capacity() < 100);
}

/// Every number of types has masks with just its bits.
#[test]
fn masks_are_full() {
    for types in 1..=32u8 {
        let expected = Book::new(2, types).row(types - 1, 2, 0, Some(1)).to_bytes();
        let bits = u64::from(u32::from_le_bytes(expected[12..16].try_into().unwrap()));
        assert_eq!(bits, (1u64 << types) - 1);
        let text = format!("2,{types}\r\n{},2,0,1", types - 1);
        assert_eq!(book(text.as_bytes()), expected, "{types} types");
    }
}

/// 256 slots, 32 types and 1024 rows: the longest book, 9228 bytes, with the rows in the order of their records.
#[test]
fn the_longest_book() {
    let mut text = "256,32\r\n".to_string();
    let mut expected = Book::new(256, 32);
    for row in 0..1024u16 {
        let (board_type, end, lower) = ((row % 32) as u8, row % 256 + 1, row % 257);
        let upper = (row % 3 > 0).then_some(256 - row % 257);
        let field = upper.map_or(String::new(), |upper| upper.to_string());
        text += &format!("{board_type},{end},{lower},{field}\r\n");
        expected = expected.row(board_type, end, lower, upper);
    }
    assert_eq!(number(text.as_bytes()), 0);
    let imported = book(text.as_bytes());
    assert_eq!(imported.len(), 9228);
    assert_eq!(imported[..12], [0, 1, 32, 0, 0, 4, 12, 0, 12, 4, 12, 36]);
    assert!(imported[12..1036].iter().all(|&byte| byte == 255));
    assert_eq!(imported, expected.to_bytes());
    assert_eq!(check(&imported), Ok(()));
}

/// Imported books are those that `Book` writes; check, close, settle and an opened session take them, the first four as
/// live and the others as dead.
#[test]
fn imported_books_live_and_dead() {
    let books = [
        (&b"5,2\r\n0,4,2,\r\n"[..], Book::new(5, 2).row(0, 4, 2, None)),
        (b"5,2\r\n0,4,0,2\r\n", Book::new(5, 2).row(0, 4, 0, Some(2))),
        (b"5,3\r\n1,5,2,\r\n2,5,1,\r\n", Book::new(5, 3).row(1, 5, 2, None).row(2, 5, 1, None)),
        (b"3,2\r\n1,1,1,\r\n", Book::new(3, 2).row(1, 1, 1, None)),
        // Dead: two of one type in one slot; a lower above its upper; a lower above its end.
        (b"2,2\r\n0,1,2,\r\n", Book::new(2, 2).row(0, 1, 2, None)),
        (b"2,2\r\n0,2,2,1\r\n", Book::new(2, 2).row(0, 2, 2, Some(1))),
        (b"2,2\r\n0,2,256,256\r\n", Book::new(2, 2).row(0, 2, 256, Some(256))),
    ];
    for (at, (text, written)) in books.into_iter().enumerate() {
        let imported = book(text);
        assert_eq!(imported, written.to_bytes(), "{at}");
        assert_eq!(check(&imported), Ok(()), "{at}");
        assert_eq!(close(&imported).map(|table| table.is_some()), Ok(at < 4), "{at}");
        assert_eq!(settle(&imported).map(|masks| masks.is_some()), Ok(at < 4), "{at}");
        let standing = if at < 4 { Standing::Live } else { Standing::OpenedDead };
        assert_eq!(Live::open(&imported).map(|session| session.standing()), Ok(standing), "{at}");
    }
    // M2's lower and upper, and the mask that slot 0 of the fourth book is left with, by the rules.
    let table = close(&book(b"5,2\r\n0,4,2,")).unwrap().unwrap();
    assert_eq!((table.lowers(0), table.uppers(1)), (&[0, 0, 0, 1, 2, 2][..], &[0, 1, 2, 2, 2, 3][..]));
    assert_eq!(settle(&book(b"3,2\r\n1,1,1,")), Ok(Some(vec![0b10, 0b11, 0b11])));
}

/// The examples of docs/SPECIFICATION.md, 13.11.
#[test]
fn examples_of_the_table() {
    let m8 = Book::new(3, 2).row(0, 2, 1, None).to_bytes();
    assert_eq!(book(b"3,2\r\n0,2,1,\r\n"), m8);
    assert_eq!(book(b"\"3\",\"02\"\r\n0,2,1,\"\""), m8);
    let cases = [
        (&b""[..], Refusal::Field),
        (b"3,2\r\n\r\n", Refusal::Field),
        (b"3,2\n", Refusal::Quoting),
        (b"3,\"2\"2", Refusal::Quoting),
        (b"3,\"2\"\"2\"", Refusal::Field),
        (b"x,y,\"", Refusal::Quoting),
        (b"x,2\r\n\"", Refusal::Field),
        (b"3,000002", Refusal::Field),
        (b"3,2,,", Refusal::Field),
        (b"3;2", Refusal::Field),
        (b"\xef\xbb\xbf3,2", Refusal::Field),
        (b"\xef\xbb\xbf\"3\",2", Refusal::Quoting),
        (b"65537,2", Refusal::OutOfRange),
        (b"3,2\r\n256,2,1,", Refusal::RowType),
        (b"3,2\r\n0,65537,1,", Refusal::RowEnd),
        (b"3,2\r\n0,2,1,65536", Refusal::RowBound),
    ];
    for (text, refusal) in cases {
        assert_eq!(import_csv(text), Err(refusal), "{:?}", String::from_utf8_lossy(text));
    }
}

/// 17 is for quoting and line ends alone: any other byte that is no digit is 18. 10 to 19 slots are good.
#[test]
fn bytes_that_are_no_digits() {
    for byte in 0..=255u8 {
        let bare = match byte {
            b'0'..=b'9' => 0,
            b'"' | b'\r' | b'\n' => 17,
            _ => 18, // a comma makes a third field
        };
        assert_eq!(number(&[b'1', byte, b',', b'2']), bare, "1 and byte {byte}");
        let quoted = match byte {
            b'0'..=b'9' => 0,
            b'"' => 17, // with the next one it is content, and none closes the field
            _ => 18,    // a line end or a comma is content too
        };
        assert_eq!(number(&[b'"', b'1', byte, b'"', b',', b'2']), quoted, "1 and byte {byte} in quotes");
    }
    assert_numbers(&[
        (&b"1\t,2"[..], 18),
        (b" 1,2", 18),
        (b"1, 2", 18),
        (b"1,2 ", 18),
        (b"1,2\0", 18),
        (b"\0", 18),
        (b"1,\x80", 18),
        (b"1,\xb2", 18), // 178: with its highest bit gone, the digit 2
        (b"\xb1,2", 18),
        (b"\xef\xbb\xbf1,2", 18), // a byte order mark
        (b"+1,2", 18),
        (b"-1,2", 18),
        (b"1.0,2", 18),
        (b"1e0,2", 18),
        (b"0x1,2", 18),
        (b"1;2", 18),
        (b"slots,types", 18),
    ]);
}

/// A line end is CRLF. A CR or LF alone is 17, also as the last byte.
#[test]
fn line_ends() {
    assert_numbers(&[
        ("1,2\r\n", 0),
        ("1,2\r", 17),
        ("1,2\n", 17),
        ("1,2\n\r", 17),
        ("1,2\r\r\n", 17),
        ("1,2\r\r", 17),
        ("\r", 17),
        ("\n", 17),
        ("\r1,2", 17),
        ("\n1,2", 17),
        ("1\r,2", 17),
        ("1,\n2", 17),
        ("1,2\r0,1,0,", 17),
        ("1,2\n0,1,0,", 17),
        ("1,2\r\n\r", 17),
        ("1,2\r\n\n", 17),
        ("1,2\r\n0,1,0,\r\n", 0),
        ("1,2\r\n0,1,0,\r", 17),
        ("1,2\r\n0,1,0,\n", 17),
        ("1,2\r\n0,1,0,1\r\n1,1,0,1\n", 17),
        ("\"1\",\"2\"\r\n", 0),
        ("\"1\",\"2\"\r", 17),
        ("\"1\",\"2\"\n", 17),
        ("\"1\"\r,2", 17),
    ]);
}

#[test]
fn quoting() {
    assert_numbers(&[
        ("\"1\",2", 0),
        ("1,\"2\"", 0),
        ("\"1\",\"2\"\r\n\"0\",\"1\",\"0\",\"1\"", 0),
        // Something behind the closing quote.
        ("\"1\"2,2", 17),
        ("\"1\" ,2", 17),
        ("\"1\"x,2", 17),
        ("\"1\";2", 17),
        ("\"\"1,2", 17),
        ("\"1\"\t\r\n", 17),
        ("1,\"2\"2", 17),
        ("1,\"2\"\0", 17),
        // A quote in a bare field.
        ("1\",2", 17),
        ("1\"\",2", 17),
        ("1\"2\",2", 17),
        (" \"1\",2", 17),
        ("1, \"2\"", 17),
        ("1;\"2\"", 17),
        ("1,2\"", 17),
        ("1,2\r\n0,1,0,1\"", 17),
        // A quote that is not closed.
        ("\"", 17),
        ("\"1,2", 17),
        ("1,\"2", 17),
        ("1,\"", 17),
        ("1,2\r\n\"", 17),
        ("\"\"\"", 17),
        ("\"1\"\"", 17),
        ("1,2\r\n0,1,0,\"", 17),
        ("1,2\r\n0,1,0,\"\r\n1,1,0,\r\n", 17),
        // A quote written twice, a line end, a CR or LF, or a comma in quotes: good quoting, and no digits.
        ("\"\"\"\",2", 18),
        ("\"1\"\"\",2", 18),
        ("\"\"\"1\",2", 18),
        ("1,\"\"\"\"\"\"", 18),
        ("1,\"\r\n\"", 18),
        ("\"1\r\n\",2", 18),
        ("\"1\r\",2", 18),
        ("\"\n1\",2", 18),
        ("\",\",2", 18),
        ("\"1,2\"", 18),
        ("1,2\r\n0,1,0,\"\"\"\"", 18),
        ("1,2\r\n0,1,0,\"\r\n\"", 18),
        ("1,2\r\n0,1,0,\" \"", 18),
    ]);
}

/// An empty upper, bare or in quotes, is none, and so is 65535. No other field may be empty.
#[test]
fn empty_fields() {
    let none = Book::new(1, 2).row(0, 1, 0, None).to_bytes();
    for upper in ["", "\"\"", "65535", "\"65535\"", "\r\n", "\"\"\r\n"] {
        assert_eq!(book(format!("1,2\r\n0,1,0,{upper}").as_bytes()), none, "{upper:?}");
    }
    let zero = Book::new(1, 2).row(0, 1, 0, Some(0)).to_bytes();
    assert_eq!(book(b"1,2\r\n0,1,0,0"), zero);
    assert_eq!(book(b"1,2\r\n0,1,0,\"00000\""), zero);
    assert_numbers(&[
        (",2", 18),
        ("1,", 18),
        (",", 18),
        ("\"\",2", 18),
        ("1,\"\"", 18),
        ("1,2\r\n,1,0,1", 18),
        ("1,2\r\n0,,0,1", 18),
        ("1,2\r\n0,1,,1", 18),
        ("1,2\r\n\"\",1,0,1", 18),
        ("1,2\r\n0,\"\",0,1", 18),
        ("1,2\r\n0,1,\"\",1", 18),
        ("1,2\r\n,,,", 18),
    ]);
}

#[test]
fn one_to_five_digits() {
    assert_numbers(&[
        ("00001,00002", 0),
        ("000001,2", 18),
        ("1,000002", 18),
        ("\"00001\",\"00002\"", 0),
        ("\"000001\",2", 18),
        ("1,2\r\n00000,00001,00000,00001", 0),
        ("1,2\r\n000000,1,0,1", 18),
        ("1,2\r\n0,000001,0,1", 18),
        ("1,2\r\n0,1,000000,1", 18),
        ("1,2\r\n0,1,0,000001", 18),
        ("1,2\r\n0,1,0,\"000001\"", 18),
        ("1,2\r\n0,1,0,065535", 18),
        ("100000,2", 18),
    ]);
    // Counts of digits that would be one in fewer bits.
    for digits in [6, 7, 255, 256, 257, 261, 65536, 65537, 1 << 20] {
        let text = format!("{}1,2", "0".repeat(digits - 1));
        assert_eq!(number(text.as_bytes()), 18, "{digits} digits");
        let text = format!("\"{}1\",2", "0".repeat(digits - 1));
        assert_eq!(number(text.as_bytes()), 18, "{digits} digits in quotes");
    }
}

#[test]
fn numbers_of_fields() {
    assert_numbers(&[
        ("1", 18),
        ("1,2,", 18),
        ("1,2,3", 18),
        ("1,2,3,4", 18),
        ("1\r\n", 18),
        ("1,2,\r\n", 18),
        ("1,2\r\n0", 18),
        ("1,2\r\n0,1", 18),
        ("1,2\r\n0,1,0", 18),
        ("1,2\r\n0,1,0,1,", 18),
        ("1,2\r\n0,1,0,,", 18),
        ("1,2\r\n0,1,0,1,1", 18),
        ("1,2\r\n0,1,0,1\r\n1,2", 18),
    ]);
    // Numbers of fields that would be 2 or 4 in fewer bits.
    for fields in [258, 260, 65538, 65540] {
        let record = vec!["1"; fields].join(",");
        assert_eq!(number(record.as_bytes()), 18, "{fields} fields");
        assert_eq!(number(format!("1,2\r\n{record}").as_bytes()), 18, "{fields} fields in a later record");
    }
}

/// One final CRLF begins no record, and a second one does. A text without a byte is a record of one empty field.
#[test]
fn ends_of_texts() {
    assert_numbers(&[
        ("", 18),
        ("\r\n", 18),
        ("\r\n\r\n", 18),
        ("\r\n1,2", 18),
        ("1,2", 0),
        ("1,2\r\n", 0),
        ("1,2\r\n\r\n", 18),
        ("1,2\r\n\r\n0,1,0,1", 18),
        ("1,2\r\n0,1,0,1", 0),
        ("1,2\r\n0,1,0,1\r\n", 0),
        ("1,2\r\n0,1,0,1\r\n\r\n", 18),
        ("1,2\r\n0,1,0,\r\n\r\n", 18),
    ]);
    assert_eq!(book(b"1,2\r\n"), book(b"1,2"));
    assert_eq!(book(b"1,2\r\n0,1,0,\r\n"), book(b"1,2\r\n0,1,0,"));
}

/// 2, by the numbers as they are written: 65537 is not 1.
#[test]
fn slots_and_types() {
    let slots = [
        ("0", 2),
        ("1", 0),
        ("2", 0),
        ("255", 0),
        ("256", 0),
        ("257", 2),
        ("512", 2),
        ("65535", 2),
        ("65536", 2),
        ("65537", 2),
        ("65792", 2),
        ("99999", 2),
        ("00000", 2),
        ("00256", 0),
    ];
    for (field, expected) in slots {
        assert_eq!(number(format!("{field},2\r\n0,1,0,1").as_bytes()), expected, "{field} slots");
    }
    let types = [
        ("0", 2),
        ("1", 0),
        ("31", 0),
        ("32", 0),
        ("33", 2),
        ("64", 2),
        ("255", 2),
        ("256", 2),
        ("257", 2),
        ("288", 2),
        ("65537", 2),
        ("99999", 2),
        ("00032", 0),
    ];
    for (field, expected) in types {
        assert_eq!(number(format!("1,{field}\r\n0,1,0,1").as_bytes()), expected, "{field} types");
    }
}

/// 2, for rows from 1025 on, also where their count would be small in 16 bits.
#[test]
fn numbers_of_rows() {
    for (rows, expected) in
        [(0, 0), (1, 0), (1023, 0), (1024, 0), (1025, 2), (2048, 2), (65536, 2), (66560, 2)]
    {
        let mut text = with_rows("1,2", "0,1,0,", rows);
        assert_eq!(number(&text), expected, "{rows} rows");
        text.extend(b"\r\n");
        assert_eq!(number(&text), expected, "{rows} rows and a final line end");
    }
    assert_eq!(ROWS_MOST, 1024);
}

#[test]
fn row_types() {
    let cases = [
        ("0", 1, 0),
        ("1", 1, 6),
        ("1", 2, 0),
        ("2", 2, 6),
        ("30", 31, 0),
        ("31", 31, 6),
        ("31", 32, 0),
        ("32", 32, 6),
        ("255", 32, 6),
        ("256", 32, 6),
        ("257", 32, 6),
        ("65535", 32, 6),
        ("65536", 32, 6),
        ("99999", 32, 6),
        ("00031", 32, 0),
    ];
    for (field, types, expected) in cases {
        assert_eq!(
            number(format!("1,{types}\r\n{field},1,0,1").as_bytes()),
            expected,
            "type {field} of {types}"
        );
    }
}

#[test]
fn row_ends() {
    let cases = [
        ("0", 3, 7),
        ("1", 3, 0),
        ("3", 3, 0),
        ("4", 3, 7),
        ("256", 3, 7),
        ("257", 3, 7),
        ("255", 256, 0),
        ("256", 256, 0),
        ("257", 256, 7),
        ("65535", 256, 7),
        ("65536", 256, 7),
        ("65537", 256, 7),
        ("65792", 256, 7),
        ("99999", 256, 7),
        ("00003", 3, 0),
    ];
    for (field, slots, expected) in cases {
        assert_eq!(
            number(format!("{slots},1\r\n0,{field},0,1").as_bytes()),
            expected,
            "end {field} of {slots}"
        );
    }
}

#[test]
fn row_bounds() {
    let lowers = [
        ("0", 0),
        ("255", 0),
        ("256", 0),
        ("257", 8),
        ("512", 8),
        ("65534", 8),
        ("65535", 8),
        ("65536", 8),
        ("65792", 8),
        ("99999", 8),
    ];
    for (field, expected) in lowers {
        assert_eq!(number(format!("1,1\r\n0,1,{field},1").as_bytes()), expected, "lower {field}");
        assert_eq!(number(format!("1,1\r\n0,1,{field},").as_bytes()), expected, "lower {field}, no upper");
    }
    let uppers = [
        ("", 0),
        ("0", 0),
        ("255", 0),
        ("256", 0),
        ("257", 8),
        ("512", 8),
        ("65534", 8),
        ("65535", 0),
        ("65536", 8),
        ("65537", 8),
        ("65792", 8),
        ("99999", 8),
    ];
    for (field, expected) in uppers {
        assert_eq!(number(format!("1,1\r\n0,1,0,{field}").as_bytes()), expected, "upper {field}");
        assert_eq!(number(format!("1,1\r\n0,1,0,\"{field}\"").as_bytes()), expected, "upper \"{field}\"");
    }
    // 256 takes two bytes, in lower and in upper.
    let row = &book(b"1,1\r\n0,1,256,256")[16..];
    assert_eq!(row, [0, 0, 1, 0, 0, 1, 0, 1]);
}

/// A record is read to its end, and tested for 17, then 18, before the next.
#[test]
fn records_are_tested_in_turn() {
    assert_numbers(&[
        // Both in one record: 17, wherever they stand.
        ("x,y,\"", 17),
        ("x,2\n", 17),
        ("x,2\r", 17),
        ("x,\"", 17),
        (",,,\"", 17),
        ("\"\"\"\",\"", 17),
        ("1,2,3\"", 17),
        ("123456,\"2\"x", 17),
        ("1,2\r\nx,1,0,1\n", 17),
        ("1,2\r\n0,1,0,1,1,1,\"", 17),
        // 18 of a record, and then 17 in the next.
        ("x,2\r\n\"", 18),
        ("1\r\n\"", 18),
        ("\r\n\n", 18),
        ("1,2\r\n0,1,0\r\n\"", 18),
        ("1,2\r\n0,1,0,x\r\n0,1,0,1\n", 18),
        ("1,2\r\n0,1,0,1,\r\n\n", 18),
        // 17 of a record, and then 18 in the next.
        ("1,2\"\r\nx", 17),
        ("1,2\r\n\"0\"0,1,0,1\r\nx,1,0,1", 17),
        // Good records, and then either.
        ("1,2\r\n0,1,0,1\r\n1,1,0,1\r\n\"", 17),
        ("1,2\r\n0,1,0,1\r\n1,1,0,1\r\nx", 18),
    ]);
}

/// 17 and 18 of any record come before 2, 6, 7 and 8.
#[test]
fn the_text_comes_before_the_book() {
    for first in ["0,2", "257,2", "65537,2", "1,0", "1,33", "99999,99999"] {
        assert_eq!(number(first.as_bytes()), 2, "{first}");
        assert_eq!(number(format!("{first}\r\n0,1,0,\"").as_bytes()), 17, "{first}");
        assert_eq!(number(format!("{first}\r\n0,1,0").as_bytes()), 18, "{first}");
        assert_eq!(number(format!("{first}\r\n0,1,0,1\r\n0,1,0,1\n").as_bytes()), 17, "{first}");
    }
    for (row, expected) in [("2,1,0,1", 6), ("0,2,0,1", 7), ("0,1,257,1", 8), ("0,1,0,257", 8)] {
        assert_eq!(number(format!("1,2\r\n{row}").as_bytes()), expected, "{row}");
        assert_eq!(number(format!("1,2\r\n{row}\r\n0,1,0,1\r").as_bytes()), 17, "{row}");
        assert_eq!(number(format!("1,2\r\n{row}\r\n\r\n").as_bytes()), 18, "{row}");
    }
    // The last of 1025 rows, and of 1026.
    for rows in [1024, 1025] {
        let mut text = with_rows("1,2", "0,1,0,1", rows);
        text.extend(b"\r\n0,1,0,1");
        assert_eq!(number(&text), 2);
        text.push(b'\n');
        assert_eq!(number(&text), 17);
        text.pop();
        text.extend(b",1");
        assert_eq!(number(&text), 18);
    }
}

/// 2 comes before 6, 7 and 8.
#[test]
fn sizes_come_before_rows() {
    for first in ["0,2", "257,2", "1,0", "1,33"] {
        for row in ["99,1,0,1", "0,0,0,1", "0,1,257,1", "0,1,0,257"] {
            assert_eq!(number(format!("{first}\r\n{row}").as_bytes()), 2, "{first} {row}");
        }
    }
    for row in ["2,1,0,1", "0,2,0,1", "0,1,257,1", "0,1,0,257"] {
        assert_eq!(number(&with_rows("1,2", row, 1025)), 2, "{row}");
    }
    assert_eq!(number(&with_rows("1,2", "2,1,0,1", 1024)), 6);
}

#[test]
fn within_a_row_6_then_7_then_8() {
    let cases = [
        ("2,0,257,257", 6),
        ("2,0,0,1", 6),
        ("2,1,257,1", 6),
        ("2,1,0,257", 6),
        ("0,0,257,257", 7),
        ("0,4,257,1", 7),
        ("0,4,0,65534", 7),
        ("0,3,257,", 8),
        ("0,3,256,257", 8),
        ("0,3,257,257", 8),
    ];
    for (row, expected) in cases {
        assert_eq!(number(format!("3,2\r\n{row}").as_bytes()), expected, "{row}");
    }
}

#[test]
fn rows_come_in_order() {
    let (good, six, seven, eight) = ("1,3,0,", "2,1,0,0", "0,4,0,0", "0,1,0,257");
    let cases: [(&[&str], u32); 11] = [
        (&[eight, six], 8),
        (&[eight, seven], 8),
        (&[seven, six], 7),
        (&[six, eight], 6),
        (&[six, seven], 6),
        (&[seven, eight], 7),
        (&[good, eight, six], 8),
        (&[good, good, seven, six], 7),
        (&[good, six, good], 6),
        (&[good, good, eight], 8),
        (&[good, good, good], 0),
    ];
    for (rows, expected) in cases {
        assert_eq!(number(format!("3,2\r\n{}", rows.join("\r\n")).as_bytes()), expected, "{rows:?}");
    }
    // The last of 1024 rows.
    for (row, expected) in [(good, 0), (six, 6), (seven, 7), (eight, 8)] {
        let mut text = with_rows("3,2", good, 1023);
        text.extend(format!("\r\n{row}").bytes());
        assert_eq!(number(&text), expected, "{row}");
    }
}

/// 9 comes last: with an output that has no byte each other number is answered, and 9 where there is none.
#[test]
fn a_short_output_comes_last() {
    let cases = [
        (&b"1,\"2"[..], Refusal::Quoting),
        (b"1,x", Refusal::Field),
        (b"1,33", Refusal::OutOfRange),
        (b"1,2\r\n2,1,0,1", Refusal::RowType),
        (b"1,2\r\n0,2,0,1", Refusal::RowEnd),
        (b"1,2\r\n0,1,257,1", Refusal::RowBound),
        (b"1,2\r\n0,1,0,1", Refusal::OutputTooShort),
        (b"1,2\r\n0,1,2,1", Refusal::OutputTooShort), // a dead book
        (b"1,2", Refusal::OutputTooShort),
    ];
    for (text, refusal) in cases {
        for length in [0, 1, 12, 15] {
            let mut output = Lent::new(length, 3);
            assert_eq!(import_csv_into(text, output.output()), Err(refusal), "{length} bytes");
            output.assert_written(&[], &length);
        }
    }
}

/// Each length about the book's own, and far past it: one byte short is 9, and what is longer keeps the rest.
fn assert_lengths(text: &[u8], needed: usize) {
    let imported = book(text);
    assert_eq!(imported.len(), needed);
    let lengths = (0..=24).chain(needed - 9..=needed + 9);
    for length in lengths.chain([9228, 9229, 65536, 65536 + needed - 1, 65536 + needed, 131072]) {
        for seed in [0, 1, 2, 3, 255] {
            let mut output = Lent::new(length, seed);
            let answer = import_csv_into(text, output.output());
            if length < needed {
                assert_eq!(answer, Err(Refusal::OutputTooShort), "{length} bytes");
                output.assert_written(&[], &(length, seed));
            } else {
                assert_eq!(answer, Ok(needed), "{length} bytes");
                output.assert_written(&imported, &(length, seed));
            }
        }
    }
}

/// A book has 12 bytes, 4 for each slot and 8 for each row.
#[test]
fn lengths() {
    assert_lengths(b"1,1", 16);
    assert_lengths(b"1,1\r\n0,1,0,", 24);
    assert_lengths(b"3,2\r\n0,2,1,\r\n1,3,0,2\r\n", 40);
    assert_lengths(b"256,32", 1036);
    assert_lengths(&with_rows("1,1", "0,1,1,1", 1024), 8208);
    assert_lengths(&with_rows("256,32", "31,256,256,256", 1024), 9228);
}

/// A longer buffer that is lent whole is no good book: its length is not the one in the book.
#[test]
fn a_buffer_lent_whole_is_refused() {
    let mut bytes = [0; 41];
    let length = import_csv_into(b"3,2\r\n0,2,1,\r\n1,3,0,2\r\n", &mut bytes).unwrap();
    assert_eq!(length, 40);
    assert_eq!(check(&bytes), Err(Refusal::Layout));
    assert_eq!(check(&bytes[..length]), Ok(()));
}

#[test]
fn words_and_numbers() {
    let table = [
        (Refusal::Quoting, 17, "quoting or a line end breaks RFC 4180"),
        (Refusal::Field, 18, "wrong number of fields, or a field not one to five digits"),
    ];
    for (refusal, number, words) in table {
        assert_eq!(refusal.number(), number);
        assert_eq!(refusal.to_string(), words);
    }
}
