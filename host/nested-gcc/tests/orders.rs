//! The import examples: what `examples/import_csv.c` and `host/nested-gcc/examples/import_csv.rs` print is held to the
//! file examples/import_csv.expected, and that file here to the second filter, on the orders of data/orders.csv typed
//! by hand.

#[path = "../examples/import_csv.rs"]
mod import_csv;

use import_csv::{refused, report, ORDERS};
use nested_gcc::Refusal;
use plain_filter::{close, settle, Book, Row};

const EXPECTED: &str = include_str!("../../../examples/import_csv.expected");
const TEXT: &[u8] = include_bytes!("../../../data/orders.csv");

const SLOTS: usize = 12;
const TYPES: usize = 4;

/// Type, end, lower, upper.
const ROWS: [(usize, usize, usize, Option<usize>); 9] = [
    (0, 6, 3, None),
    (0, 12, 4, Some(6)),
    (1, 8, 2, None),
    (1, 12, 3, None),
    (2, 2, 0, Some(0)),
    (2, 12, 2, Some(4)),
    (3, 6, 0, Some(0)),
    (3, 8, 2, None),
    (3, 12, 2, Some(2)),
];

/// Line ends are CRLF, in every checkout; three rows have an empty upper, and one has it in quotes.
#[test]
fn the_file_has_these_bytes() {
    let records = [
        "12,4",
        "0,6,3,",
        "0,12,4,6",
        "1,8,2,",
        "1,12,3,",
        "2,2,0,0",
        "2,12,2,4",
        r#""3","6","0","0""#,
        r#""3","8","2","""#,
        r#""3","12","2","2""#,
    ];
    let text: String = records.map(|record| format!("{record}\r\n")).concat();
    assert_eq!(String::from_utf8_lossy(TEXT), text);
}

#[test]
fn the_example_prints_what_is_expected() {
    assert_eq!(report(ORDERS, TEXT).as_deref(), Ok(EXPECTED));
}

#[test]
fn what_is_expected_is_the_second_filters() {
    let rows = ROWS.map(|(board_type, end, lower, upper)| Row { board_type, end, lower, upper });
    let book = Book { n: SLOTS, k: TYPES, idle: None, masks: vec![0b1111; SLOTS], rows: rows.to_vec() };
    let table = close(&book).table.expect("the orders close");
    let masks = settle(&book).masks.expect("the orders settle");
    let struck: u32 = masks.iter().map(|mask| TYPES as u32 - mask.count_ones()).sum();
    assert!(struck > 0, "nothing is struck");
    let mut lines = vec![
        "data/orders.csv: 12 slots, 4 types, 9 rows".to_string(),
        // 12 bytes, 4 for each slot and 8 for each row.
        "check 0: a good book of 132 bytes".to_string(),
        "close 0: live".to_string(),
        format!("settle 0: live, {struck} of 48 types struck from the slots"),
        "For each slot the types that it may have, and how many of each are made up to it, at least-at most:"
            .to_string(),
        "slot              type  0  type  1  type  2  type  3".to_string(),
    ];
    for slot in 0..SLOTS {
        let types = (0..TYPES).map(|v| match masks[slot] >> v & 1 {
            1 => format!("  {v}"),
            _ => "  .".to_string(),
        });
        let made =
            (0..TYPES).map(|v| format!("      {}-{}", table.lower[v][slot + 1], table.upper[v][slot + 1]));
        lines.push(format!("{slot:>4}{}", types.chain(made).collect::<String>()));
    }
    assert_eq!(lines.join("\n") + "\n", EXPECTED);
}

/// A spreadsheet that saves with line feeds alone; a column too many; a type k; a dead book, which is no refusal.
#[test]
fn files_that_go_wrong() {
    let text: Vec<u8> = TEXT.iter().copied().filter(|&byte| byte != b'\r').collect();
    assert_eq!(report(ORDERS, &text), Err(Refusal::Quoting));
    assert_eq!(
        refused(ORDERS, Refusal::Quoting),
        "data/orders.csv: refused by 17: quoting or a line end breaks RFC 4180\n"
    );
    assert_eq!(report(ORDERS, b"2,2,boards\r\n"), Err(Refusal::Field));
    assert_eq!(
        refused(ORDERS, Refusal::Field),
        "data/orders.csv: refused by 18: wrong number of fields, or a field not one to five digits\n"
    );
    assert_eq!(report(ORDERS, b"2,2\r\n2,1,0,\r\n"), Err(Refusal::RowType));
    assert_eq!(refused(ORDERS, Refusal::RowType), "data/orders.csv: refused by 6: row type k or more\n");
    // M5: two of type 0 in one slot.
    let dead = "m5.csv: 2 slots, 2 types, 1 rows\ncheck 0: a good book of 28 bytes\n\
                close 1: dead, there is no plan\nsettle 1: dead, there is no plan\n";
    assert_eq!(report("m5.csv", b"2,2\r\n0,1,2,").as_deref(), Ok(dead));
}
