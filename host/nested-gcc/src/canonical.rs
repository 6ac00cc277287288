use crate::{refusal, sys, Refusal, BOOK_BYTES};

/// The bytes of the canonical book of `book`, for an archive, or `None` if the book is dead: it does not close.
///
/// It has the n, k, idle type and masks of the book, and one row for each type and end where the table of
/// [`close`](crate::close) has a corner of either kind, by type, then end. A lower corner is an end t from 1 with
/// lower(t) = lower(t - 1) + 1 and, unless t = n, lower(t + 1) = lower(t); an upper corner is one with
/// upper(t) = upper(t - 1) and, unless t = n, upper(t + 1) = upper(t) + 1. A side of a row without a corner is lower 0,
/// or no upper bound.
///
/// - It is a good book and closes to the same table. So [`settle`](crate::settle), sessions and probes answer alike on
///   both.
/// - Two live books of equal n, k, idle type and masks, neither refused, get the same bytes exactly when they close to
///   the same table.
/// - No shorter book says the table without sums over the types: any rows that close to it without them have one at
///   each of these types and ends. `book` itself may have fewer rows, where sums give some of its bounds: those are
///   written out.
///
/// Live and dead are those of [`close`](crate::close): a book that closes and does not settle has a canonical book too.
/// Any bytes may be given. The refusals are those of [`check`](crate::check), then, of a live book,
/// [`Refusal::TooManyRows`] if more than 1,024 rows would be needed.
///
/// # Panics
///
/// If the linked archive answers a number that is none of this crate's: it is then another archive.
///
/// ```
/// use nested_gcc::{canonical, close, Book, Refusal};
///
/// // Five slots and two types; of type 0 at least two within the first four slots. The other rows follow from that.
/// let orders = Book::new(5, 2).row(0, 5, 1, None).row(0, 4, 2, None).row(0, 3, 1, Some(3)).row(1, 4, 0, Some(3));
/// let shortest = canonical(&orders.to_bytes())?.expect("the book is live");
/// // Of type 1 there are at most two within the first four slots: a sum gives that, and it is written out.
/// assert_eq!(shortest, Book::new(5, 2).row(0, 4, 2, None).row(1, 4, 0, Some(2)).to_bytes());
/// assert_eq!(close(&shortest)?, close(&orders.to_bytes())?);
///
/// // The one row alone closes to the same table, and so has the same canonical book.
/// let one = Book::new(5, 2).row(0, 4, 2, None);
/// assert_eq!(canonical(&one.to_bytes())?, Some(shortest));
///
/// // Two of one type cannot be made in one slot; there is no type 2.
/// assert_eq!(canonical(&Book::new(2, 2).row(0, 1, 2, None).to_bytes()), Ok(None));
/// assert_eq!(canonical(&Book::new(2, 2).row(2, 1, 0, None).to_bytes()), Err(Refusal::RowType));
/// # Ok::<(), Refusal>(())
/// ```
pub fn canonical(book: &[u8]) -> Result<Option<Vec<u8>>, Refusal> {
    let mut out = vec![0; BOOK_BYTES];
    let length = canonical_into(book, &mut out)?;
    Ok(length.map(|length| {
        out.truncate(length);
        out.shrink_to_fit();
        out
    }))
}

/// Writes the canonical book into the front of the caller's bytes, and gives its length; `None` if the book is dead,
/// and then nothing is written.
///
/// That length of the bytes is the book of [`canonical`], and what lies past it stays as it is. Just so many bytes are
/// the book: [`check`](crate::check) and the others refuse a longer slice with [`Refusal::Layout`]. A refusal writes
/// nothing. [`Refusal::OutputTooShort`] comes after the refusals of [`canonical`], and only where the book is live. No
/// book needs more than [`BOOK_BYTES`].
///
/// # Panics
///
/// If the linked archive answers a number that is none of this crate's: it is then another archive.
///
/// ```
/// use nested_gcc::{canonical_into, check, Book, Refusal};
///
/// // One slot and two types, none of type 0, so just one of type 1: two rows, 32 bytes. The last byte stays.
/// let book = Book::new(1, 2).row(0, 1, 0, Some(0)).to_bytes();
/// let mut out = [7; 33];
/// assert_eq!(canonical_into(&book, &mut out), Ok(Some(32)));
/// assert_eq!(out[16..], [0, 0, 1, 0, 0, 0, 0, 0, 1, 0, 1, 0, 1, 0, 255, 255, 7]);
/// assert_eq!(check(&out[..32]), Ok(()));
///
/// assert_eq!(canonical_into(&book, &mut out[..31]), Err(Refusal::OutputTooShort));
/// // A dead book needs no bytes.
/// assert_eq!(canonical_into(&Book::new(1, 2).row(0, 1, 2, None).to_bytes(), &mut []), Ok(None));
/// ```
pub fn canonical_into(book: &[u8], out: &mut [u8]) -> Result<Option<usize>, Refusal> {
    match sys::canonical(book, out) {
        // A book has its length in its bytes 10 and 11.
        0 => Ok(Some(usize::from(u16::from_le_bytes([out[10], out[11]])))),
        1 => Ok(None),
        answer => Err(refusal("nested_gcc_canonical", answer)),
    }
}
