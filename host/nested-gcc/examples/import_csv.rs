//! Imports orders in CSV and prints what check, close and settle answer for their book, as `examples/import_csv.c`
//! does: `cargo run --release --example import_csv [FILE]`. Without a file it takes data/orders.csv of the repository.

use std::path::Path;
use std::{env, fs, process};

use nested_gcc::{check, close, import_csv, settle, Refusal, Table};

/// The file that is imported where none is named, from the root of the repository.
pub const ORDERS: &str = "data/orders.csv";

/// What the program prints of the file `name`, which holds `text`; or what refuses the text, or its book.
pub fn report(name: &str, text: &[u8]) -> Result<String, Refusal> {
    let book = import_csv(text)?;
    check(&book)?;
    // The sizes stand at the front of a book.
    let number = |at: usize| usize::from(u16::from_le_bytes([book[at], book[at + 1]]));
    let (slots, types, rows) = (number(0), usize::from(book[2]), number(4));
    let mut report = format!("{name}: {slots} slots, {types} types, {rows} rows\n");
    report += &format!("check 0: a good book of {} bytes\n", book.len());
    let table = close(&book)?;
    report += if table.is_some() { "close 0: live\n" } else { "close 1: dead, there is no plan\n" };
    let (Some(table), Some(masks)) = (table, settle(&book)?) else {
        return Ok(report + "settle 1: dead, there is no plan\n");
    };
    let kept: u32 = masks.iter().map(|mask| mask.count_ones()).sum();
    let (all, struck) = (slots * types, slots * types - kept as usize);
    report += &format!("settle 0: live, {struck} of {all} types struck from the slots\n");
    write_slots(&table, &masks, &mut report);
    Ok(report)
}

/// For each slot a line: its types, and the bounds of each type at the end that has the slot as its last.
fn write_slots(table: &Table, masks: &[u32], report: &mut String) {
    let types = table.types();
    *report +=
        "For each slot the types that it may have, and how many of each are made up to it, at least-at most:\n";
    *report += &format!("{:1$}", "slot", 4 + 3 * types);
    for v in 0..types {
        *report += &format!("  type{v:3}");
    }
    report.push('\n');
    for (slot, mask) in masks.iter().enumerate() {
        *report += &format!("{slot:4}");
        for v in 0..types {
            let may = mask >> v & 1 == 1;
            *report += &if may { format!("{v:3}") } else { format!("{:>3}", ".") };
        }
        for v in 0..types {
            let made = format!("{}-{}", table.lower(v, slot + 1), table.upper(v, slot + 1));
            *report += &format!("{made:>9}");
        }
        report.push('\n');
    }
}

/// What the program prints of a file that is refused. Number 6 has one cause in a CSV, which has no second byte of a
/// row.
pub fn refused(name: &str, refusal: Refusal) -> String {
    let cause = match refusal {
        Refusal::RowType => "row type k or more".to_string(),
        _ => refusal.to_string(),
    };
    format!("{name}: refused by {}: {cause}\n", refusal.number())
}

#[allow(dead_code)] // the test includes this file as a module
fn main() {
    let named = env::args().nth(1);
    let name = named.as_deref().unwrap_or(ORDERS);
    let file = match &named {
        Some(name) => name.into(),
        None => Path::new(env!("CARGO_MANIFEST_DIR")).join("../..").join(ORDERS),
    };
    let text = fs::read(file).unwrap_or_else(|error| {
        eprintln!("{name}: {error}");
        process::exit(1);
    });
    match report(name, &text) {
        Ok(report) => print!("{report}"),
        Err(refusal) => {
            print!("{}", refused(name, refusal));
            process::exit(1);
        }
    }
}
