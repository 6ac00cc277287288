//! The plain canonical book (`docs/SPECIFICATION.md`, section 15): a row at each corner of the closed table. And
//! filling, which says which other rows give that table.

use crate::machine::is_corner;
use crate::{close, Book, Row, Table, Walls};

/// The most rows of a book.
const ROWS: usize = 1024;

/// Fills a starting table: closing's first two rules, those along each type's line, until neither changes anything. A
/// lower may come to lie above its upper.
pub fn fill(start: &Table) -> Table {
    let mut table = start.clone();
    loop {
        let before = table.clone();
        for (lower, upper) in table.lower.iter_mut().zip(&mut table.upper) {
            let n = lower.len() - 1;
            for t in 0..=n {
                if t > 0 {
                    lower[t] = i64::max(lower[t], lower[t - 1]);
                    upper[t] = i64::min(upper[t], upper[t - 1] + 1);
                }
                if t < n {
                    lower[t] = i64::max(lower[t], lower[t + 1] - 1);
                    upper[t] = i64::min(upper[t], upper[t + 1]);
                }
            }
        }
        if table == before {
            return table;
        }
    }
}

/// By type, then end: one row where the table has a corner of either kind. A side without a corner is 0, or none.
pub fn canonical_rows(table: &Table) -> Vec<Row> {
    let mut rows = Vec::new();
    for v in 0..table.lower.len() {
        for t in 1..table.lower[v].len() {
            let low = is_corner(table, Walls::Lower, v, t);
            let high = is_corner(table, Walls::Upper, v, t);
            if low || high {
                let lower = if low { table.lower[v][t] as usize } else { 0 };
                let upper = if high { Some(table.upper[v][t] as usize) } else { None };
                rows.push(Row { board_type: v, end: t, lower, upper });
            }
        }
    }
    rows
}

/// The canonical book, for an output of `room` bytes, or `None` if the book is dead in closing; or the number of the
/// refusal: the book's, and of a live book 19, then 9.
pub fn canonical(book: &[u8], room: usize) -> Result<Option<Vec<u8>>, u32> {
    let parsed = Book::parse(book)?;
    let Some(table) = close(&parsed).table else { return Ok(None) };
    let rows = canonical_rows(&table);
    if rows.len() > ROWS {
        return Err(19);
    }
    let written = written(&book[..12 + 4 * parsed.n], &rows);
    if room < written.len() {
        return Err(9);
    }
    Ok(Some(written))
}

/// The front of a book, its first 12 bytes and its masks, with these rows in place of its own.
fn written(front: &[u8], rows: &[Row]) -> Vec<u8> {
    let length = front.len() + 8 * rows.len();
    let mut book = front.to_vec();
    (book[4], book[5]) = low_and_high(rows.len());
    (book[10], book[11]) = low_and_high(length);
    for row in rows {
        let (end, lower, upper) =
            (low_and_high(row.end), low_and_high(row.lower), low_and_high(row.upper.unwrap_or(65535)));
        book.extend([row.board_type as u8, 0, end.0, end.1, lower.0, lower.1, upper.0, upper.1]);
    }
    book
}

/// The two bytes of a number.
fn low_and_high(number: usize) -> (u8, u8) {
    ((number % 256) as u8, (number / 256) as u8)
}
