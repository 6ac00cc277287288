//! The plain import of orders as CSV: RFC 4180 text to the bytes of a book.
//!
//! The text is cut by the parity of quotes: a line end or a comma with an even number of quotes before it stands
//! outside of quotes. In good quoting every field has an even number of quotes, so these cuts are the text's own;
//! where quoting breaks, the records before are cut as they should be, and one of the pieces is no field.

/// The line end of RFC 4180.
const LINE_END: &[u8] = b"\r\n";
const COMMA: &[u8] = b",";
const QUOTE: u8 = b'"';

/// The number of an upper that is none.
const NO_UPPER: u64 = 65535;

/// A later record: type, end, lower, upper.
type Numbers = [u64; 4];

/// The book that the text orders, for an output of `book_len` bytes; or the number of the refusal: for each record in
/// turn 17, then 18; then 2; then 6 to 8 row by row; then 9.
pub fn import_csv(text: &[u8], book_len: usize) -> Result<Vec<u8>, u32> {
    let mut head = [0; 2];
    let mut rows: Vec<Numbers> = Vec::new();
    for (at, record) in records(text).into_iter().enumerate() {
        let contents = contents(record).ok_or(17_u32)?;
        if at == 0 {
            head = numbers(&contents).ok_or(18_u32)?;
        } else {
            rows.push(numbers(&contents).ok_or(18_u32)?);
        }
    }
    let [slots, types] = head;
    if !(1..=256).contains(&slots) || !(1..=32).contains(&types) || rows.len() > 1024 {
        return Err(2);
    }
    for &[board_type, end, lower, upper] in &rows {
        if board_type >= types {
            return Err(6);
        }
        if end == 0 || end > slots {
            return Err(7);
        }
        if lower > 256 || (upper > 256 && upper != NO_UPPER) {
            return Err(8);
        }
    }
    let book = book(slots, types, &rows);
    if book_len < book.len() {
        return Err(9);
    }
    Ok(book)
}

/// The text cut at its line ends outside of quotes. The last record may lack its line end: what follows the last
/// line end is a record unless it is empty. Empty text is one record.
fn records(text: &[u8]) -> Vec<&[u8]> {
    let mut records = cut_outside_quotes(text, LINE_END);
    if records.len() > 1 && records.last().is_some_and(|last| last.is_empty()) {
        records.pop();
    }
    records
}

/// The pieces between those places of `separator` that have an even number of quotes before them.
fn cut_outside_quotes<'a>(text: &'a [u8], separator: &[u8]) -> Vec<&'a [u8]> {
    let (mut pieces, mut begin, mut quotes) = (Vec::new(), 0, 0);
    for (at, &byte) in text.iter().enumerate() {
        if quotes % 2 == 0 && text[at..].starts_with(separator) {
            pieces.push(&text[begin..at]);
            begin = at + separator.len();
        }
        quotes += usize::from(byte == QUOTE);
    }
    pieces.push(&text[begin..]);
    pieces
}

/// What the fields of a record contain; `None` if one of them is no field.
fn contents(record: &[u8]) -> Option<Vec<Vec<u8>>> {
    cut_outside_quotes(record, COMMA).into_iter().map(content).collect()
}

/// A field is bare, with no quote, carriage return or line feed, and is its content; or it is between two quotes,
/// and each two quotes between them are one of the content, where no quote stands alone. Any other byte may stand in
/// either.
fn content(field: &[u8]) -> Option<Vec<u8>> {
    match field {
        [QUOTE, inner @ .., QUOTE] => undoubled(inner),
        bare if bare.iter().any(|byte| [QUOTE, b'\r', b'\n'].contains(byte)) => None,
        bare => Some(bare.to_vec()),
    }
}

/// The bytes with one quote for each two; `None` if a quote stands alone. Of the pieces between the quotes, each
/// second one lies between two quotes that go together, and is empty.
fn undoubled(inner: &[u8]) -> Option<Vec<u8>> {
    let pieces: Vec<&[u8]> = inner.split(|&byte| byte == QUOTE).collect();
    let even = pieces.len() % 2 == 1;
    let together = pieces.iter().skip(1).step_by(2).all(|between| between.is_empty());
    (even && together).then(|| pieces.into_iter().step_by(2).collect::<Vec<_>>().join(&QUOTE))
}

/// The numbers of a record of N fields: each content is one to five digits, leading zeros among them, or it is an
/// upper, the fourth, and is empty. `None` if there are more or fewer, or a content is no such thing.
fn numbers<const N: usize>(contents: &[Vec<u8>]) -> Option<[u64; N]> {
    let number = |(at, content): (usize, &Vec<u8>)| match content.len() {
        0 if at == 3 => Some(NO_UPPER),
        1..=5 if content.iter().all(u8::is_ascii_digit) => String::from_utf8_lossy(content).parse().ok(),
        _ => None,
    };
    contents.iter().enumerate().map(number).collect::<Option<Vec<u64>>>()?.try_into().ok()
}

/// The book with every type in every slot: its parts in turn, each number little-endian in so many bytes.
fn book(slots: u64, types: u64, rows: &[Numbers]) -> Vec<u8> {
    let rows_at = 12 + 4 * slots;
    let length = rows_at + 8 * rows.len() as u64;
    let mut parts =
        vec![(slots, 2), (types, 1), (0, 1), (rows.len() as u64, 2), (12, 2), (rows_at, 2), (length, 2)];
    parts.extend((0..slots).map(|_| ((1 << types) - 1, 4)));
    for &[board_type, end, lower, upper] in rows {
        parts.extend([(board_type, 1), (0, 1), (end, 2), (lower, 2), (upper, 2)]);
    }
    parts.iter().flat_map(|&(number, bytes)| number.to_le_bytes().into_iter().take(bytes)).collect()
}
