use crate::{sys, verdict, Calls, Refusal, Verdict, TYPES_MOST};

/// Which of the picks would die. A pick is a slot and a type; it dies if assigning that type to that slot, as the only
/// call of a session on the book, is answered dead.
///
/// On a live book that is where no stable list (see [`settle`](crate::settle)) lies within the book's masks with the
/// slot cut to the type; on a dead book every pick dies. `true` says that no plan has that type in that slot; `false`
/// promises no plan. Each pick is tried by itself: neither their order nor a pick that comes twice changes an answer.
///
/// Any bytes and any picks may be given. The refusals are those of [`check`](crate::check), then
/// [`Refusal::CallList`] if there are more than 4096 picks, then that of the first pick that has one:
/// [`Refusal::CallSlot`], else [`Refusal::CallType`]. A bad pick refuses the whole list, also on a dead book.
///
/// # Panics
///
/// If the linked archive answers a number that is none of this crate's: it is then another archive.
///
/// ```
/// use nested_gcc::{probe, settle, Book, Refusal};
///
/// // Four slots and two types; of type 0 at least one within the first two slots, and at most one in all.
/// let book = Book::new(4, 2).row(0, 2, 1, None).row(0, 4, 0, Some(1)).to_bytes();
/// // Settling leaves both types in every slot. But type 0 in slot 2 leaves none for the first two slots.
/// assert_eq!(settle(&book)?, Some(vec![0b11; 4]));
/// assert_eq!(probe(&book, &[(0, 0), (0, 1), (2, 0), (2, 1)])?, [false, false, true, false]);
///
/// // There is no slot 4, and no type 2.
/// assert_eq!(probe(&book, &[(0, 0), (4, 0)]), Err(Refusal::CallSlot));
/// assert_eq!(probe(&book, &[(0, 2), (4, 0)]), Err(Refusal::CallType));
/// # Ok::<(), Refusal>(())
/// ```
pub fn probe(book: &[u8], picks: &[(u16, u8)]) -> Result<Vec<bool>, Refusal> {
    let mut calls = Calls::new();
    for &(slot, board_type) in picks {
        calls.assign(slot, board_type);
    }
    let mut dead = vec![0; picks.len()];
    probe_into(book, calls.as_bytes(), &mut dead)?;
    Ok(dead.into_iter().map(|byte| byte != 0).collect())
}

/// Probes into the caller's bytes: one for each call, in the order of the list, 1 where the call dies, else 0.
///
/// The calls are assigns, 4 bytes each, as [`Calls::assign`] writes them. Live or dead is how a session on the book
/// opens; a dead book gives 1 for each call. Bytes past one a call stay as they are. A list without calls is good, and
/// writes nothing.
///
/// Any bytes may be given. The refusals are those of [`check`](crate::check); then [`Refusal::CallList`] if the calls
/// are not whole calls or have more than [`CALLS_BYTES`](crate::CALLS_BYTES); then that of the first call that has one:
/// [`Refusal::CallKind`] if it is no assign, else [`Refusal::CallSlot`], else [`Refusal::CallType`]; then
/// [`Refusal::OutputTooShort`]. A refusal writes nothing. No list needs more than
/// [`PROBES_BYTES`](crate::PROBES_BYTES).
///
/// # Panics
///
/// If the linked archive answers a number that is none of this crate's: it is then another archive.
///
/// ```
/// use nested_gcc::{probe_into, Book, Calls, Refusal, Verdict};
///
/// // Two slots and two types, of which slot 0 has only type 1. The fourth byte stays.
/// let book = Book::new(2, 2).mask(0, 0b10).to_bytes();
/// let mut calls = Calls::new();
/// calls.assign(0, 0).assign(0, 1).assign(1, 0);
/// let mut dead = [7; 4];
/// assert_eq!(probe_into(&book, calls.as_bytes(), &mut dead), Ok(Verdict::Live));
/// assert_eq!(dead, [1, 0, 0, 7]);
///
/// // Two bytes are too few for three calls; a remove cannot be probed.
/// assert_eq!(probe_into(&book, calls.as_bytes(), &mut dead[..2]), Err(Refusal::OutputTooShort));
/// assert_eq!(probe_into(&book, calls.remove(1, 1).as_bytes(), &mut dead), Err(Refusal::CallKind));
/// ```
pub fn probe_into(book: &[u8], calls: &[u8], dead: &mut [u8]) -> Result<Verdict, Refusal> {
    verdict("nested_gcc_probe", sys::probe(book, calls, dead))
}

/// The types that would live in the slot, bit v for type v: those that [`probe`] does not tell as dying there.
///
/// They are some or all of those that [`settle`](crate::settle) leaves the slot. A menu of 0 says that there is no
/// plan: the book is dead, or each type dies in that slot.
///
/// Any bytes may be given. The refusals are those of [`check`](crate::check), then [`Refusal::CallSlot`] if the book
/// has no such slot.
///
/// # Panics
///
/// If the linked archive answers a number that is none of this crate's: it is then another archive.
///
/// ```
/// use nested_gcc::{menu, settle, Book, Refusal};
///
/// // Four slots and two types; of type 0 at least one within the first two slots, and at most one in all.
/// let book = Book::new(4, 2).row(0, 2, 1, None).row(0, 4, 0, Some(1)).to_bytes();
/// assert_eq!((menu(&book, 1)?, menu(&book, 2)?), (0b11, 0b10));
/// assert_eq!(menu(&book, 4), Err(Refusal::CallSlot));
///
/// // Three slots have only the types 0 and 1, each at most once. Settling strikes nothing; the menu tells it.
/// let book = Book::new(4, 4).mask(0, 3).mask(1, 3).mask(2, 3).row(0, 4, 0, Some(1)).row(1, 4, 0, Some(1));
/// let book = book.to_bytes();
/// assert_eq!(settle(&book)?, Some(vec![0b0011, 0b0011, 0b0011, 0b1111]));
/// assert_eq!(menu(&book, 0)?, 0);
/// # Ok::<(), Refusal>(())
/// ```
pub fn menu(book: &[u8], slot: u16) -> Result<u32, Refusal> {
    // A good book has k, at most 32, in its byte 2; any other is refused before its calls are looked at.
    let types = book.get(2).map_or(0, |&types| types.min(TYPES_MOST as u8));
    let mut calls = Calls::new();
    for board_type in 0..types {
        calls.assign(slot, board_type);
    }
    let mut dead = [0; TYPES_MOST];
    probe_into(book, calls.as_bytes(), &mut dead)?;
    Ok((0..types).filter(|&v| dead[usize::from(v)] == 0).fold(0, |menu, v| menu | 1 << v))
}
