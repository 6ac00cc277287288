//! The proved filter of order books, as a safe crate over `libnested_gcc.a`.
//!
//! - [`check`] says whether bytes are a good book, or else the first [`Refusal`].
//! - [`close`] gives the bounds that follow from the rows of a book, as a [`Table`], or says that it is dead.
//! - [`settle`] gives the types that each slot may still have, or says that the book is dead.
//! - [`Live`] is a session for a search: opened once on a book, it assigns and removes types, with marks to go back to,
//!   from where it stands.
//! - [`session`] makes a whole list of such calls from the book's opening, and gives an [`Answer`] to each call and the
//!   last masks.
//! - [`probe`] says which picks, each a type for a slot, would die on a book; [`menu`] gives the types that would live
//!   in a slot.
//! - [`canonical`] gives the one book for all that close to the same table, for an archive.
//! - [`import_csv`] gives the book that orders in CSV say.
//! - [`close_into`], [`settle_into`], [`session_into`], [`probe_into`], [`canonical_into`] and [`import_csv_into`]
//!   write the same into the caller's bytes.
//! - [`Book`] writes the bytes of a book, [`Calls`] those of a list of calls.
//! - [`version`] says which version of the archive is linked.
//!
//! What a good book, a live one and each answer are is in `docs/SPECIFICATION.md` of the repository; what is left to
//! whoever links the archive, the stack of a thread above all, in `docs/ASSUMPTIONS.md`.
//!
//! ```
//! use nested_gcc::{check, close, Book, Refusal};
//!
//! // Three slots and two types; of type 0 at least one within the first two slots.
//! let book = Book::new(3, 2).row(0, 2, 1, None).to_bytes();
//! assert_eq!(check(&book), Ok(()));
//! let table = close(&book)?.expect("the book is live");
//! assert_eq!(table.uppers(1), [0, 1, 1, 2]);
//!
//! // There is no type 2.
//! let book = Book::new(3, 2).row(2, 2, 1, None).to_bytes();
//! assert_eq!(check(&book), Err(Refusal::RowType));
//! # Ok::<(), Refusal>(())
//! ```

mod book;
mod calls;
mod canonical;
mod import;
mod live;
mod probe;
mod refusal;
mod session;
mod sys;
mod table;
mod version;

pub use book::Book;
pub use calls::Calls;
pub use canonical::{canonical, canonical_into};
pub use import::{import_csv, import_csv_into};
pub use live::{Decided, Live, Standing};
pub use probe::{menu, probe, probe_into};
pub use refusal::{CallRefusal, Refusal};
pub use session::{session, session_into, Answer, Session};
pub use table::Table;
pub use version::{version, Version};

use session::answer;

/// The most slots of a good book; the least is 1.
pub const SLOTS_MOST: usize = 256;

/// The most types of a good book; the least is 1.
pub const TYPES_MOST: usize = 32;

/// The most rows of a good book; it may have none.
pub const ROWS_MOST: usize = 1024;

/// The upper of a row that has no upper bound.
pub const NO_UPPER: u16 = 65535;

/// The most marks of a session that are open at a time.
pub const MARKS_MOST: usize = 256;

/// The most bytes of a good book: 12, 4 for each of 256 slots, and 8 for each of 1024 rows.
pub const BOOK_BYTES: usize = 12 + 4 * SLOTS_MOST + 8 * ROWS_MOST;

/// The most bytes that [`close_into`] writes into each output: 257 elements of 2 bytes for each of 32 types.
pub const TABLE_BYTES: usize = 2 * TYPES_MOST * (SLOTS_MOST + 1);

/// The most bytes of masks that [`settle_into`] and [`session_into`] write: 4 for each of 256 slots.
pub const MASKS_BYTES: usize = 4 * SLOTS_MOST;

/// The most bytes of calls that [`session`] and [`probe_into`] take: 4 for each of 4096 calls. [`Live::run`] takes
/// longer lists too.
pub const CALLS_BYTES: usize = 4 * 4096;

/// The most bytes of answers that [`session_into`] writes: two words of 4 bytes for each of 4096 calls.
pub const ANSWERS_BYTES: usize = 2 * 4 * 4096;

/// The most bytes that [`probe_into`] writes: one for each of 4096 calls.
pub const PROBES_BYTES: usize = 4096;

/// Live or dead: a good book, or a session after a list.
#[derive(Clone, Copy, Debug, PartialEq, Eq, Hash)]
pub enum Verdict {
    Live,
    Dead,
}

/// Whether `book` is a good book, or else the first refusal: 1 to 4, then the masks by slot, then the
/// rows in order, each 6, 7, 8.
///
/// Any bytes may be given. A lower above its upper or above its end is no refusal.
///
/// # Panics
///
/// If the linked archive answers a number that is none of this crate's: it is then another archive.
///
/// ```
/// use nested_gcc::{check, Refusal};
///
/// // One slot, one type, no rows: n, k, no idle type, r, masks at 12, rows at 16, length 16; then one mask.
/// let book = [1, 0, 1, 0, 0, 0, 12, 0, 16, 0, 16, 0, 1, 0, 0, 0];
/// assert_eq!(check(&book), Ok(()));
/// assert_eq!(check(&book[..11]), Err(Refusal::TooShort));
/// ```
pub fn check(book: &[u8]) -> Result<(), Refusal> {
    match sys::check(book) {
        0 => Ok(()),
        answer => Err(refusal("nested_gcc_check", answer)),
    }
}

/// The loosest closed table within the book's rows, or `None` if the book is dead: no closed table lies
/// within them.
///
/// Every plan that keeps the rows keeps these bounds. The table follows from n, k and the rows; the masks
/// and the idle type have no part in it. Any bytes may be given; the refusals are those of [`check`].
///
/// # Panics
///
/// If the linked archive answers a number that is none of this crate's: it is then another archive.
///
/// ```
/// use nested_gcc::{close, Book, Refusal};
///
/// // Five slots and three types; at least two of type 1 and one of type 2, so at most two of type 0, and
/// // these may both be made within the first two slots.
/// let book = Book::new(5, 3).row(1, 5, 2, None).row(2, 5, 1, None).to_bytes();
/// let table = close(&book)?.expect("the book is live");
/// assert_eq!(table.uppers(0), [0, 1, 2, 2, 2, 2]);
/// assert_eq!(table.lower(1, 4), 1);
/// assert_eq!((table.slots(), table.types()), (5, 3));
///
/// // Two of one type cannot be made in one slot.
/// let book = Book::new(2, 2).row(0, 1, 2, None).to_bytes();
/// assert_eq!(close(&book), Ok(None));
///
/// assert_eq!(close(&[]), Err(Refusal::TooShort));
/// # Ok::<(), Refusal>(())
/// ```
pub fn close(book: &[u8]) -> Result<Option<Table>, Refusal> {
    let mut lowers = vec![0; TABLE_BYTES];
    let mut uppers = vec![0; TABLE_BYTES];
    Ok(match close_into(book, &mut lowers, &mut uppers)? {
        Verdict::Dead => None,
        Verdict::Live => {
            // A live book is a good one, with k in its byte 2.
            let slots = slots(book);
            let written = 2 * usize::from(book[2]) * (slots + 1);
            Some(Table::from_bytes(slots, &lowers[..written], &uppers[..written]))
        }
    })
}

/// Closes the book into the caller's bytes: two outputs of k(n + 1) elements of 16 bits, little-endian, the
/// bound for type v and end t at element v(n + 1) + t.
///
/// Live writes the table of [`close`] and dead fills those elements of each output with 0; what lies past
/// them stays as it is, also a trailing odd byte. A refusal writes nothing. [`Refusal::OutputTooShort`] comes
/// after the refusals of [`check`], whether the book is live or dead. No good book needs more than
/// [`TABLE_BYTES`] in each output.
///
/// # Panics
///
/// If the linked archive answers a number that is none of this crate's: it is then another archive.
///
/// ```
/// use nested_gcc::{close_into, Book, Refusal, Verdict};
///
/// // One slot and one type: two elements. The fifth byte stays.
/// let book = Book::new(1, 1).to_bytes();
/// let (mut lowers, mut uppers) = ([7; 5], [7; 4]);
/// assert_eq!(close_into(&book, &mut lowers, &mut uppers), Ok(Verdict::Live));
/// assert_eq!(lowers, [0, 0, 1, 0, 7]);
/// assert_eq!(uppers, [0, 0, 1, 0]);
///
/// assert_eq!(close_into(&book, &mut lowers, &mut uppers[..3]), Err(Refusal::OutputTooShort));
/// ```
pub fn close_into(book: &[u8], lowers: &mut [u8], uppers: &mut [u8]) -> Result<Verdict, Refusal> {
    verdict("nested_gcc_close", sys::close(book, lowers, uppers))
}

/// For each slot the types that it may still have, bit v for type v: the largest stable list within the
/// book's masks. `None` if the book is dead: it does not close, or no stable list lies within its masks.
///
/// Every plan lies within these masks; there may be none all the same. A list is stable when no mask is empty
/// and for each type v and each end t from 1, with the bounds of [`close`]: the slots before t that have v
/// are at least lower(v, t), and if they are just so many, v is the only type of each; the slots before t
/// whose only type is v are at most upper(v, t), and if they are just so many, no other slot before t has v.
/// An idle type is a type as the others are. Any bytes may be given; the refusals are those of [`check`].
///
/// # Panics
///
/// If the linked archive answers a number that is none of this crate's: it is then another archive.
///
/// ```
/// use nested_gcc::{settle, Book, Refusal};
///
/// // Five slots and three types; at least two of type 1 and one of type 2, so at most two of type 0. Two slots
/// // can only have type 0, so that no other slot has it.
/// let book = Book::new(5, 3).mask(0, 0b001).mask(1, 0b001).row(1, 5, 2, None).row(2, 5, 1, None);
/// assert_eq!(settle(&book.to_bytes())?, Some(vec![0b001, 0b001, 0b110, 0b110, 0b110]));
///
/// // A third slot of type 0 is one too many.
/// let book = book.mask(2, 0b001);
/// assert_eq!(settle(&book.to_bytes())?, None);
///
/// assert_eq!(settle(&[]), Err(Refusal::TooShort));
/// # Ok::<(), Refusal>(())
/// ```
pub fn settle(book: &[u8]) -> Result<Option<Vec<u32>>, Refusal> {
    let mut masks = [0; MASKS_BYTES];
    Ok(match settle_into(book, &mut masks)? {
        Verdict::Dead => None,
        Verdict::Live => Some(words(&masks[..4 * slots(book)])),
    })
}

/// Settles the book into the caller's bytes: n elements of 32 bits, little-endian, the mask of slot s at
/// element s.
///
/// Live writes the masks of [`settle`] and dead fills those elements with 0; what lies past them stays as it
/// is, also a trailing part of an element. A refusal writes nothing. [`Refusal::OutputTooShort`] comes after
/// the refusals of [`check`], whether the book is live or dead. No good book needs more than [`MASKS_BYTES`].
///
/// # Panics
///
/// If the linked archive answers a number that is none of this crate's: it is then another archive.
///
/// ```
/// use nested_gcc::{settle_into, Book, Refusal, Verdict};
///
/// // One slot and two types, none of type 0. The fifth byte stays.
/// let book = Book::new(1, 2).row(0, 1, 0, Some(0)).to_bytes();
/// let mut masks = [7; 5];
/// assert_eq!(settle_into(&book, &mut masks), Ok(Verdict::Live));
/// assert_eq!(masks, [0b10, 0, 0, 0, 7]);
///
/// assert_eq!(settle_into(&book, &mut masks[..3]), Err(Refusal::OutputTooShort));
/// ```
pub fn settle_into(book: &[u8], masks: &mut [u8]) -> Result<Verdict, Refusal> {
    verdict("nested_gcc_settle", sys::settle(book, masks))
}

/// n of a good book: its bytes 0 and 1.
fn slots(book: &[u8]) -> usize {
    usize::from(u16::from_le_bytes([book[0], book[1]]))
}

/// The elements of 32 bits, little-endian.
fn words(bytes: &[u8]) -> Vec<u32> {
    bytes.chunks_exact(4).map(|word| u32::from_le_bytes(word.try_into().unwrap())).collect()
}

/// What `function` answered.
fn verdict(function: &str, answer: u32) -> Result<Verdict, Refusal> {
    match answer {
        0 => Ok(Verdict::Live),
        1 => Ok(Verdict::Dead),
        _ => Err(refusal(function, answer)),
    }
}

/// The refusal that `function` answered.
fn refusal(function: &str, answer: u32) -> Refusal {
    match Refusal::from_answer(answer) {
        Some(refusal) => refusal,
        None => panic!("{function} answered {answer}, which is no answer of this library"),
    }
}

/// The examples of the repository's README are run as documentation tests.
#[cfg(doctest)]
#[doc = include_str!("../../../README.md")]
struct Readme;
