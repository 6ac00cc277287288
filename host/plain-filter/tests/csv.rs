//! The plain import of CSV on texts with every answer found by hand: what a field is, where a record ends, each
//! number, and the bytes of the book.

use plain_filter::{import_csv, Book, Row};

/// No book is longer.
const ROOM: usize = 12 + 4 * 256 + 8 * 1024;

fn assert_refused(number: u32, texts: &[&str]) {
    for text in texts {
        assert_eq!(import_csv(text.as_bytes(), ROOM), Err(number), "{text:?}");
    }
}

/// The texts give the book of one slot and one type, with no rows.
fn assert_smallest(texts: &[&str]) {
    let book = [1, 0, 1, 0, 0, 0, 12, 0, 16, 0, 16, 0, 1, 0, 0, 0];
    for text in texts {
        assert_eq!(import_csv(text.as_bytes(), ROOM).as_deref(), Ok(&book[..]), "{text:?}");
    }
}

/// The one row of the book that `5,3` and this record give.
fn row(record: &str) -> Row {
    let text = format!("5,3\r\n{record}\r\n");
    let bytes = import_csv(text.as_bytes(), ROOM).unwrap_or_else(|number| panic!("{text:?}: {number}"));
    let book = Book::parse(&bytes).expect("a good book");
    assert_eq!((book.n, book.k, book.idle), (5, 3, None), "{text:?}");
    assert_eq!((&book.masks[..], book.rows.len()), (&[7; 5][..], 1), "{text:?}");
    book.rows[0]
}

/// The records after `5,3` are refused by the number.
fn assert_later_refused(number: u32, records: &[&str]) {
    for record in records {
        assert_refused(number, &[&format!("5,3\r\n{record}"), &format!("5,3\r\n1,1,0,\r\n{record}")]);
    }
}

#[test]
fn m8() {
    // n = 3, k = 2, masks 3 3 3, one row: type 0, end 2, lower 1, no upper.
    let m8 = [
        3, 0, 2, 0, 1, 0, 12, 0, 24, 0, 32, 0, 3, 0, 0, 0, 3, 0, 0, 0, 3, 0, 0, 0, 0, 0, 2, 0, 1, 0, 255, 255,
    ];
    assert_eq!(import_csv(b"3,2\r\n0,2,1,\r\n", ROOM).as_deref(), Ok(&m8[..]));
    assert_eq!(import_csv(b"3,2\r\n0,2,1,", 32).as_deref(), Ok(&m8[..]));
    assert_eq!(import_csv(b"3,2\r\n0,2,1,", 31), Err(9));
}

#[test]
fn rows_in_the_order_of_the_records() {
    // 1 slot, 2 types; type 1, end 1, lower 256, upper 256; then type 0, end 1, lower 0, upper 2.
    let book = [
        1, 0, 2, 0, 2, 0, 12, 0, 16, 0, 32, 0, 3, 0, 0, 0, //
        1, 0, 1, 0, 0, 1, 0, 1, 0, 0, 1, 0, 0, 0, 2, 0,
    ];
    assert_eq!(import_csv(b"1,2\r\n1,1,256,256\r\n0,1,0,2", ROOM).as_deref(), Ok(&book[..]));
}

#[test]
fn the_largest_book() {
    let mut text = "256,32\r\n".to_string();
    for row in 0..1024 {
        text += &format!("{},{},{},\r\n", row % 32, 1 + row % 256, row % 257);
    }
    let book = import_csv(text.as_bytes(), ROOM).expect("a good book");
    assert_eq!(book.len(), ROOM);
    // 1024 is 0, 4; 12 + 4 * 256 = 1036 is 12, 4; 9228 is 12, 36.
    assert_eq!(book[..12], [0, 1, 32, 0, 0, 4, 12, 0, 12, 4, 12, 36]);
    assert!(book[12..1036].iter().all(|&byte| byte == 255));
    // Row 300: type 12, end 45, lower 43. Row 1023: type 31, end 256, lower 252.
    assert_eq!(book[1036 + 8 * 300..][..8], [12, 0, 45, 0, 43, 0, 255, 255]);
    assert_eq!(book[1036 + 8 * 1023..], [31, 0, 0, 1, 252, 0, 255, 255]);
    assert_eq!(import_csv(text.as_bytes(), ROOM - 1), Err(9));
    assert_refused(2, &[&(text + "0,1,0,\r\n")]);
}

#[test]
fn line_ends() {
    assert_smallest(&["1,1", "1,1\r\n"]);
    // A second line end ends a record of one empty field; so does the only one, and empty text is such a record.
    assert_refused(18, &["", "\r\n", "\r\n\r\n", "1,1\r\n\r\n", "1,1\r\n\r\n0,1,0,\r\n", "\r\n1,1"]);
    // One byte of a line end alone, in the middle of a record, before a line end, after it, and at the very end.
    assert_refused(
        17,
        &["1,1\r", "1,1\n", "\r", "\n", "1\r,1", "1\n,1", "1,1\n\r", "1,1\r\r\n", "1,1\n\r\n"],
    );
    assert_refused(
        17,
        &["1,1\r\n\r", "1,1\r\n\n", "1,1\n0,1,0,", "1,1\r0,1,0,", "1,1\"\r", "\"1\"\r", "\"1\"\n"],
    );
}

#[test]
fn quotes() {
    assert_smallest(&["\"1\",1", "1,\"1\"", "\"1\",\"1\"\r\n", "\"00001\",\"1\""]);
    // Text or a quote after a closing quote; a quote in a bare field; no closing quote.
    assert_refused(
        17,
        &["\"1\"1,1", "\"1\" ,1", "1,\"1\"\"", "1\"\"1,1", "1\",1", "1,1\"", " \"1\",1", "\"", "\"1,1"],
    );
    assert_refused(
        17,
        &["\"1\",\"1", "1,\"", "\"\"\"", "1,1\"\r\n", "1,\"1\r\n", "\"\"1\"\",1", "\"1\"\"\",1\""],
    );
    // Good quoting of what is no digit: a quote, a comma, a line end or a part of one.
    assert_refused(
        18,
        &["\"1\"\"\",1", "\"\"\"\"", "\"\"\"1\"\"\",1", "\"1,1\"", "\"1\",\"1\r\n\"", "\"\r\n\"", "1,\"\r\""],
    );
    assert_refused(18, &["1,\"1\n\"", "\"\",1", "1,\"\"", "\"\"", "\"1 \",1"]);
    // Quotes of one record do not reach into the next.
    assert_refused(17, &["1,1\r\n0,1,0,\"\r\n0,1,0,1", "1,1\r\n0,1,0,\"1\"\"\r\n0,1,0,\"1"]);
    assert_refused(18, &["1,1\r\n0,1,0,\"1\r\n0,1,0,1\"", "1,1\r\n0,1,0,\"1\"\"\r\n0,1,0,1\""]);
}

#[test]
fn fields() {
    assert_smallest(&["01,1", "00001,00001"]);
    assert_refused(18, &["000001,1", "1,000001", "1", "1,1,1", "1,1,", ",1", "1,", ",", "1;1"]);
    assert_refused(
        18,
        &[
            "x,1", "1,x", " 1,1", "1 ,1", "1, 1", "+1,1", "-1,1", "1.0,1", "1\t,1", "0x1,1", "1,1\0",
            "1,\u{b2}",
        ],
    );
    for byte in (0..=255).filter(|byte| !b"\r\n\",0123456789".contains(byte)) {
        assert_eq!(import_csv(&[b'1', b',', b'1', byte], ROOM), Err(18), "{byte}");
        assert_eq!(import_csv(&[b'1', b',', b'"', byte, b'"'], ROOM), Err(18), "{byte}");
    }
    assert_later_refused(
        18,
        &["1,1,0", "1,1,0,0,0", "1,1,0,,", "1", ",,,", ",1,0,", "1,,0,", "1,1,,", "1,1,,1"],
    );
    assert_later_refused(
        18,
        &["000001,1,0,", "1,000001,0,", "1,1,000000,", "1,1,0,000000", "1,1,0,x", "1,1,0, "],
    );
}

#[test]
fn uppers() {
    let none = Row { board_type: 2, end: 5, lower: 3, upper: None };
    for record in
        ["2,5,3,", "2,5,3,\"\"", "2,5,3,65535", "2,5,3,\"65535\"", "\"2\",\"5\",\"3\",", "02,005,0003,"]
    {
        assert_eq!(row(record), none, "{record}");
    }
    for (record, upper) in [("2,5,3,0", 0), ("2,5,3,00000", 0), ("2,5,3,\"7\"", 7), ("2,5,3,00256", 256)] {
        assert_eq!(row(record), Row { upper: Some(upper), ..none }, "{record}");
    }
    // A lower above its upper, and one above its end.
    assert_eq!(row("0,1,256,0"), Row { board_type: 0, end: 1, lower: 256, upper: Some(0) });
}

#[test]
fn counts_out_of_range() {
    assert_refused(2, &["0,1", "257,1", "1,0", "1,33", "0,0", "99999,1", "1,99999"]);
    // 65537 is 1 in 16 bits, 257 in 8 bits.
    assert_refused(2, &["65537,1", "1,65537", "1,257", "65536,1", "00000,1"]);
    assert!(import_csv(b"256,32", ROOM).is_ok());
    // Before the rows: type, end and lower are out of range too.
    assert_refused(2, &["257,2\r\n2,300,257,", "2,33\r\n33,3,0,"]);
}

#[test]
fn rows_out_of_range() {
    assert_later_refused(6, &["3,1,0,", "4,0,257,257", "256,1,0,", "65536,1,0,", "99999,1,0,"]);
    assert_later_refused(7, &["2,0,0,", "2,6,0,", "2,0,257,257", "2,65537,0,", "0,65535,0,"]);
    assert_later_refused(
        8,
        &["2,5,257,", "2,5,0,257", "2,5,0,65534", "2,5,65536,", "2,5,0,65536", "2,5,65535,65535"],
    );
    assert_later_refused(8, &["2,5,99999,", "2,5,0,99999", "2,5,257,257"]);
    // Row by row: the first bad row says the number.
    assert_refused(8, &["5,3\r\n0,1,257,\r\n3,1,0,"]);
    assert_refused(7, &["5,3\r\n0,6,0,\r\n3,1,0,\r\n0,1,257,"]);
    assert_refused(6, &["5,3\r\n3,1,0,\r\n0,6,0,\r\n0,1,257,"]);
    // Rows before the output's length.
    assert_eq!(import_csv(b"1,1\r\n0,2,0,", 0), Err(7));
    assert_eq!(import_csv(b"1,1\r\n0,1,0,", 0), Err(9));
    assert_eq!(import_csv(b"1,1\r\n0,1,0,", 23), Err(9));
    assert_eq!(import_csv(b"1,1\r\n0,1,0,", 24).map(|book| book.len()), Ok(24));
}

#[test]
fn each_record_in_turn() {
    // In one record quoting comes first, wherever it breaks; an earlier record comes before a later one.
    assert_refused(17, &["x,y,\"", "x,2\n", "x,y\"", "\"x,2\r\n1,1,0,"]);
    assert_refused(18, &["x,2\r\n\"", "x,2\r\n1,1,0,\n", "1,1,1\r\n\"x", "1,1\r\n0,1,0\r\n\n"]);
    assert_refused(17, &["1,1\r\n0,1,0,\n\r\n0,1", "1,1\r\nx\"\r\ny"]);
    // All records before any count or row.
    assert_refused(17, &["0,0\r\n9,9,9,9\""]);
    assert_refused(18, &["0,0\r\n9,9,9,x", "0,1\r\n\r\n"]);
    assert_refused(18, &[&("1,1\r\n".to_string() + &"0,1,0,\r\n".repeat(1025) + "0,1,0")]);
    assert_refused(17, &[&("1,1\r\n".to_string() + &"0,1,0,\r\n".repeat(1025) + "0,1,0\n")]);
    assert_refused(2, &[&("1,1\r\n".to_string() + &"9,9,0,\r\n".repeat(1025))]);
}
