//! The plain probes (`docs/SPECIFICATION.md`, section 14): the plain machine as the book opens it, anew for each call.

use crate::{Book, Machine};

/// The most bytes of a list of calls.
const CALLS_BYTES: usize = 16384;

/// What a list of probes comes to.
#[derive(Clone, Debug, PartialEq, Eq)]
pub struct Probes {
    /// Whether the book opens live.
    pub live: bool,
    /// For each call 1 if it is answered dead, else 0; all are 1 where the book opens dead.
    pub dead: Vec<u8>,
}

/// Probes a list of assigns, with room for so many bytes; or the number of the refusal: the book's; 10; for each call
/// in turn 11, 12, 13; 9.
pub fn probe(book: &[u8], calls: &[u8], room: usize) -> Result<Probes, u32> {
    let book = Book::parse(book)?;
    let whole = calls.chunks_exact(4);
    if !whole.remainder().is_empty() || calls.len() > CALLS_BYTES {
        return Err(10);
    }
    let calls: Vec<[u8; 4]> = whole.map(|call| [call[0], call[1], call[2], call[3]]).collect();
    for &[kind, board_type, low, high] in &calls {
        if kind != 1 {
            return Err(11);
        }
        if usize::from(low) + 256 * usize::from(high) >= book.n {
            return Err(12);
        }
        if usize::from(board_type) >= book.k {
            return Err(13);
        }
    }
    if room < calls.len() {
        return Err(9);
    }
    let opened = Machine::open(&book);
    let dies = |&call: &[u8; 4]| opened.dead || opened.clone().call(call) == [1, 0];
    Ok(Probes { live: !opened.dead, dead: calls.iter().map(|call| u8::from(dies(call))).collect() })
}
