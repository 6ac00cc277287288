use crate::{refusal, sys, Refusal, BOOK_BYTES};

/// The bytes of the book that orders in CSV (RFC 4180) say. It is a good book, and has no other bytes.
///
/// The text is records, each ended by CRLF, which the last may lack; a record is fields, parted by commas; a field may
/// stand in quotes as a whole. The first record is slots, types. Each later one is a row: type, end, lower, upper; an
/// empty upper is no upper bound. Every other field is one to five digits. The book has the text's slots and types, no
/// idle type, each type in the mask of each slot, and the rows in the order of their records.
///
/// Any bytes may be given. For each record in turn the refusals are [`Refusal::Quoting`], then [`Refusal::Field`]; when
/// all records pass, [`Refusal::OutOfRange`] for slots, types or the number of rows; then for each row in turn
/// [`Refusal::RowType`], [`Refusal::RowEnd`], [`Refusal::RowBound`]. Whether the book is dead is not looked at.
///
/// # Panics
///
/// If the linked archive answers a number that is none of this crate's: it is then another archive.
///
/// ```
/// use nested_gcc::{check, close, import_csv, Book, Refusal};
///
/// // Five slots and two types; of type 0 at least two within the first four slots, of type 1 at most three in all.
/// let book = import_csv(b"5,2\r\n0,4,2,\r\n\"1\",\"5\",\"0\",\"3\"\r\n")?;
/// assert_eq!(book, Book::new(5, 2).row(0, 4, 2, None).row(1, 5, 0, Some(3)).to_bytes());
/// assert_eq!(check(&book), Ok(()));
/// let table = close(&book)?.expect("the book is live");
/// assert_eq!(table.lowers(0), [0, 0, 0, 1, 2, 2]);
///
/// // A line feed alone ends no record; a blank is no digit; there is no type 2.
/// assert_eq!(import_csv(b"5,2\n0,4,2,\n"), Err(Refusal::Quoting));
/// assert_eq!(import_csv(b"5, 2\r\n"), Err(Refusal::Field));
/// assert_eq!(import_csv(b"5,2\r\n2,4,2,\r\n"), Err(Refusal::RowType));
/// # Ok::<(), Refusal>(())
/// ```
pub fn import_csv(text: &[u8]) -> Result<Vec<u8>, Refusal> {
    let mut book = vec![0; BOOK_BYTES];
    let length = import_csv_into(text, &mut book)?;
    book.truncate(length);
    book.shrink_to_fit();
    Ok(book)
}

/// Imports orders in CSV into the front of the caller's bytes, and gives the length of the book there.
///
/// That length of the bytes is the book of [`import_csv`], and what lies past it stays as it is. Just so many bytes are
/// the book: [`check`](crate::check) and the others refuse a longer slice with [`Refusal::Layout`]. A refusal writes
/// nothing. [`Refusal::OutputTooShort`] comes after the refusals of [`import_csv`]. No text needs more than
/// [`BOOK_BYTES`].
///
/// # Panics
///
/// If the linked archive answers a number that is none of this crate's: it is then another archive.
///
/// ```
/// use nested_gcc::{check, import_csv_into, Refusal};
///
/// // One slot and two types, no rows: 16 bytes. The seventeenth stays.
/// let mut bytes = [7; 17];
/// let length = import_csv_into(b"1,2", &mut bytes)?;
/// assert_eq!(length, 16);
/// assert_eq!(bytes, [1, 0, 2, 0, 0, 0, 12, 0, 16, 0, 16, 0, 3, 0, 0, 0, 7]);
/// assert_eq!(check(&bytes[..length]), Ok(()));
///
/// assert_eq!(import_csv_into(b"1,2", &mut bytes[..15]), Err(Refusal::OutputTooShort));
/// # Ok::<(), Refusal>(())
/// ```
pub fn import_csv_into(text: &[u8], book: &mut [u8]) -> Result<usize, Refusal> {
    match sys::import_csv(text, book) {
        // A book has its length in its bytes 10 and 11.
        0 => Ok(usize::from(u16::from_le_bytes([book[10], book[11]]))),
        answer => Err(refusal("nested_gcc_import_csv", answer)),
    }
}
