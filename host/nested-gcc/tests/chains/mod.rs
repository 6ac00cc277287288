//! Books of 256 slots in which settling one slot settles the next, from slot 0 to the end: types are counted
//! modulo 32.

#![allow(dead_code)] // not every test uses all of it

use nested_gcc::Book;

/// Slot s has the types s - 1 and s, and slot 0 only type 0. Each time that a type comes, it may stand in one
/// of its two slots. So slot 0 takes type 0 from slot 1, which then takes type 1 from slot 2, and so on.
pub fn strikes() -> Book {
    let mut book = Book::new(256, 32).mask(0, 1);
    for slot in 1..256u16 {
        let (former, own) = ((slot - 1) % 32, slot % 32);
        book = book.mask(slot.into(), 1 << former | 1 << own);
        book = book.row(former as u8, slot + 1, 0, Some((slot - 1) / 32 + 1));
    }
    book
}

/// Slot s has the types s and s + 1, and slot 0 only type 0. Each time that a type comes, it must stand in
/// one of its two slots. So type 1 has just slot 1, which then loses type 2; type 2 has just slot 2, and so
/// on up to slot 254.
pub fn fixes() -> Book {
    let mut book = Book::new(256, 32).mask(0, 1);
    for slot in 1..256u16 {
        let (own, next) = (slot % 32, (slot + 1) % 32);
        book = book.mask(slot.into(), 1 << own | 1 << next);
        if slot < 255 {
            book = book.row(own as u8, slot + 2, slot / 32 + 1, None);
        }
    }
    book
}
