//! `settle` on the worked examples of `docs/SPECIFICATION.md`, on each rule alone and on chains of them, with every
//! expected mask typed by hand; what it writes, and what it leaves, for lengths about the least that will do.

mod chains;
mod lent;

use lent::Lent;
use nested_gcc::{check, close, settle, settle_into, Book, Refusal, Verdict, MASKS_BYTES};

/// A book with these masks.
fn book(types: u8, masks: &[u32]) -> Book {
    let book = Book::new(masks.len() as u16, types);
    masks.iter().enumerate().fold(book, |book, (slot, &mask)| book.mask(slot, mask))
}

fn m6() -> Book {
    Book::new(2, 2).row(0, 1, 1, None).row(1, 1, 1, None)
}

/// M4's rows: type 1 lower 2 and type 2 lower 1 at end 5; so type 0 has an upper of 2 from end 2 on.
fn with_rows_of_m4(masks: &[u32; 5]) -> Book {
    book(3, masks).row(1, 5, 2, None).row(2, 5, 1, None)
}

fn assert_settles(book: &Book, masks: &[u32]) {
    assert_eq!(settle(&book.to_bytes()), Ok(Some(masks.to_vec())), "{book:?}");
}

/// The book closes, and does not settle.
fn assert_dead(book: &Book) {
    assert!(matches!(close(&book.to_bytes()), Ok(Some(_))), "{book:?}");
    assert_eq!(settle(&book.to_bytes()), Ok(None), "{book:?}");
}

#[test]
fn books_that_settle_unchanged() {
    // M1 to M4, and M8.
    assert_settles(&Book::new(1, 1), &[1]);
    assert_settles(&Book::new(5, 2).row(0, 4, 2, None), &[3; 5]);
    assert_settles(&Book::new(5, 2).row(0, 4, 0, Some(2)), &[3; 5]);
    assert_settles(&with_rows_of_m4(&[7; 5]), &[7; 5]);
    assert_settles(&Book::new(3, 2).row(0, 2, 1, None), &[3; 3]);
    // Without rows nothing is cut, whatever the masks.
    assert_settles(&book(3, &[1, 2, 4, 7, 5, 6, 3]), &[1, 2, 4, 7, 5, 6, 3]);
}

#[test]
fn m5_and_m6_are_dead() {
    assert_eq!(settle(&Book::new(2, 2).row(0, 1, 2, None).to_bytes()), Ok(None));
    assert_eq!(settle(&m6().to_bytes()), Ok(None));
}

#[test]
fn m7_settles_unchanged() {
    let book = book(4, &[3, 3, 3, 12]).row(0, 4, 0, Some(1)).row(1, 4, 0, Some(1));
    assert_settles(&book, &[3, 3, 3, 12]);
}

/// B = upper: the two slots fixed to type 0 keep it, and the others lose it.
#[test]
fn as_many_as_the_upper() {
    assert_settles(&with_rows_of_m4(&[1, 1, 7, 7, 7]), &[1, 1, 6, 6, 6]);
    assert_settles(&with_rows_of_m4(&[7, 7, 1, 7, 1]), &[6, 6, 1, 6, 1]);
    // One of them is not enough.
    assert_settles(&with_rows_of_m4(&[1, 7, 7, 7, 7]), &[1, 7, 7, 7, 7]);
    // An upper of 0 at end 2, and none behind it.
    assert_settles(&Book::new(3, 2).row(0, 2, 0, Some(0)), &[2, 2, 3]);
}

/// P = lower: the slots that have type 1 have no other.
#[test]
fn as_few_as_the_lower() {
    assert_settles(&with_rows_of_m4(&[5, 7, 5, 7, 5]), &[5, 2, 5, 2, 5]);
    assert_settles(&with_rows_of_m4(&[3, 3, 7, 3, 3]), &[3, 3, 4, 3, 3]);
    // With one slot more nothing is forced.
    assert_settles(&with_rows_of_m4(&[5, 7, 7, 7, 5]), &[5, 7, 7, 7, 5]);
    // A lower of 1 at end 1.
    assert_settles(&Book::new(3, 2).row(1, 1, 1, None), &[2, 3, 3]);
}

/// The last end counts, and the slot before it.
#[test]
fn the_last_slot() {
    assert_settles(&book(2, &[2, 2, 3]).row(0, 3, 1, None), &[2, 2, 1]);
    assert_settles(&book(2, &[1, 1, 3]).row(0, 3, 0, Some(2)), &[1, 1, 2]);
    // With a third type only one rule speaks of it.
    assert_settles(&book(3, &[6, 6, 7]).row(0, 3, 1, None), &[6, 6, 1]);
    assert_settles(&book(3, &[1, 6, 7]).row(0, 3, 0, Some(1)), &[1, 6, 6]);
}

/// Type 0 has just one slot before end 2, slot 0, so that this one loses type 1; then type 1 has just slot 1,
/// which loses type 2; then type 2 has just slot 2.
#[test]
fn a_fixed_slot_fixes_another() {
    let book = book(3, &[3, 6, 7]).row(0, 2, 1, None).row(1, 2, 1, None).row(2, 3, 1, None);
    assert_settles(&book, &[1, 2, 4]);
}

#[test]
fn chains_of_256_slots() {
    let mut settled: Vec<u32> = (0..256).map(|slot| 1 << (slot % 32)).collect();
    assert_settles(&chains::strikes(), &settled);
    // The last slot keeps the types 31 and 0.
    settled[255] = 0x8000_0001;
    assert_settles(&chains::fixes(), &settled);
}

/// With types 0 and 1 in slot 0 nothing moves.
#[test]
fn chains_that_do_not_begin() {
    let two = |slot: u32| 1 << (slot % 32) | 1 << ((slot + 1) % 32);
    let strikes: Vec<u32> = [3].into_iter().chain((0..255).map(two)).collect();
    assert_settles(&chains::strikes().mask(0, 3), &strikes);
    let fixes: Vec<u32> = (0..256).map(two).collect();
    assert_settles(&chains::fixes().mask(0, 3), &fixes);
}

/// At the end of the chain two slots have only type 30, or none has it.
#[test]
fn chains_that_end_dead() {
    assert_dead(&chains::strikes().mask(255, 1 << 30));
    assert_dead(&chains::fixes().mask(254, 1 << 31));
}

#[test]
fn dead_in_settling() {
    // P below lower: no slot before end 1 has type 0; type 1 has two slots and needs three.
    assert_dead(&book(2, &[2, 3]).row(0, 1, 1, None));
    assert_dead(&book(2, &[3, 1, 3, 1]).row(1, 4, 3, None));
    // Type 0 has one slot and needs two; nothing else is wrong.
    assert_dead(&book(3, &[6, 6, 6, 7]).row(0, 4, 2, None));
    // B above upper: two slots are fixed to type 0.
    assert_dead(&book(2, &[1, 3, 1]).row(0, 3, 0, Some(1)));
    assert_dead(&with_rows_of_m4(&[1, 7, 1, 7, 1]));
    // Slot 0 fixed to type 0 takes it from slots 1 and 2, which are then both fixed to type 1.
    let book = book(4, &[1, 3, 3, 7]).row(0, 3, 0, Some(1));
    assert_dead(&book.clone().row(1, 3, 0, Some(1)));
    assert_settles(&book.row(1, 4, 0, Some(2)), &[1, 2, 2, 5]);
}

/// Type 31 is bit 31, and it fills every slot.
#[test]
fn largest_book() {
    let book = Book::new(256, 32).row(31, 256, 256, None);
    assert_settles(&book, &[0x8000_0000; 256]);
    assert_dead(&book.mask(255, 0x7fff_ffff));
}

/// Settles into an output of this length. The answer is the expected one; live and dead write these bytes and
/// nothing else, and a refusal writes nothing.
fn assert_settles_into(book: &[u8], length: usize, expected: Result<Verdict, Refusal>, written: &[u8]) {
    let written = if expected.is_ok() { written } else { &[] };
    for seed in [0, 1, 2, 3, 252, 253, 254, 255] {
        let case = (length, seed);
        let mut masks = Lent::new(length, seed);
        assert_eq!(settle_into(book, masks.output()), expected, "{case:?}");
        masks.assert_written(written, &case);
    }
}

/// Each length about the `needed` bytes, and far past them.
fn assert_lengths(book: &[u8], needed: usize, verdict: Verdict, written: &[u8]) {
    assert_eq!(written.len(), needed);
    let lengths = (0..=4).chain(needed - 4..=needed + 8);
    for length in lengths.chain([65536, 65537, 65539, 131072, 262144]) {
        let expected = if length < needed { Err(Refusal::OutputTooShort) } else { Ok(verdict) };
        assert_settles_into(book, length, expected, written);
    }
}

#[test]
fn lengths_for_a_live_book() {
    let masks = [1, 0, 0, 0, 1, 0, 0, 0, 6, 0, 0, 0, 6, 0, 0, 0, 6, 0, 0, 0];
    assert_lengths(&with_rows_of_m4(&[1, 1, 7, 7, 7]).to_bytes(), 20, Verdict::Live, &masks);
}

/// Dead in closing, and dead in settling. Too short wins over both.
#[test]
fn lengths_for_a_dead_book() {
    assert_lengths(&m6().to_bytes(), 8, Verdict::Dead, &[0; 8]);
    assert_lengths(&with_rows_of_m4(&[1, 7, 1, 7, 1]).to_bytes(), 20, Verdict::Dead, &[0; 20]);
}

#[test]
fn lengths_for_the_smallest_book() {
    assert_lengths(&Book::new(1, 1).to_bytes(), 4, Verdict::Live, &[1, 0, 0, 0]);
}

#[test]
fn lengths_for_the_largest_book() {
    let book = Book::new(256, 32).mask(0, 0xfedc_ba98).mask(255, 0x7654_3210);
    let mut masks = vec![255; 1024];
    masks[..4].copy_from_slice(&[0x98, 0xba, 0xdc, 0xfe]);
    masks[1020..].copy_from_slice(&[0x10, 0x32, 0x54, 0x76]);
    assert_eq!(MASKS_BYTES, 1024);
    assert_lengths(&book.to_bytes(), 1024, Verdict::Live, &masks);
    let dead = book.row(0, 1, 1, None);
    assert_lengths(&dead.to_bytes(), 1024, Verdict::Dead, &[0; 1024]);
}

/// A refused book has the number of `check`, whatever the output's length, and nothing is written.
#[test]
fn refused_books() {
    let with = |at: usize, byte: u8| {
        let mut bytes = with_rows_of_m4(&[1, 1, 7, 7, 7]).to_bytes();
        bytes[at] = byte;
        bytes
    };
    // n = 5: the masks are at 12, the rows at 32 and 40; 48 bytes.
    let books = [
        (with(0, 5)[..11].to_vec(), Refusal::TooShort),
        (with(1, 1), Refusal::OutOfRange),
        (with(3, 4), Refusal::IdleType),
        (with(8, 33), Refusal::Layout),
        (with(12, 8), Refusal::Mask),
        (with(28, 0), Refusal::Mask),
        (with(40, 3), Refusal::RowType),
        (with(42, 6), Refusal::RowEnd),
        (with(45, 1), Refusal::RowBound),
    ];
    for (book, refusal) in books {
        assert_eq!(check(&book), Err(refusal));
        assert_eq!(settle(&book), Err(refusal));
        for length in [0, 1, 16, 19, 20, 21, 1024, 20000] {
            assert_settles_into(&book, length, Err(refusal), &[]);
        }
    }
}

/// A row fault behind rows that alone would be dead.
#[test]
fn a_refusal_wins_over_dead() {
    assert_settles_into(&m6().row(2, 1, 0, None).to_bytes(), 8, Err(Refusal::RowType), &[]);
}
