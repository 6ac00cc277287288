use std::fmt;

/// A closed table: for each type and each end from 0 to n, a lower and an upper bound on how many of that
/// type the first so many slots have.
///
/// ```
/// use nested_gcc::{close, Book};
///
/// // Five slots and two types; of type 0 at least two within the first four slots.
/// let book = Book::new(5, 2).row(0, 4, 2, None);
/// let table = close(&book.to_bytes())?.expect("the book is live");
/// assert_eq!(table.lowers(0), [0, 0, 0, 1, 2, 2]);
/// assert_eq!(table.upper(1, 4), 2);
/// # Ok::<(), nested_gcc::Refusal>(())
/// ```
#[derive(Clone, PartialEq, Eq, Hash)]
pub struct Table {
    /// n.
    slots: usize,
    /// The bound for type v and end t is at v * (n + 1) + t, in both lists.
    lowers: Vec<u16>,
    uppers: Vec<u16>,
}

impl Table {
    /// A table from what `close` wrote: k(n + 1) elements of 16 bits in each, little-endian.
    pub(crate) fn from_bytes(slots: usize, lowers: &[u8], uppers: &[u8]) -> Table {
        Table { slots, lowers: elements(lowers), uppers: elements(uppers) }
    }

    /// n, the number of slots.
    pub fn slots(&self) -> usize {
        self.slots
    }

    /// k, the number of types.
    pub fn types(&self) -> usize {
        self.lowers.len() / (self.slots + 1)
    }

    /// The least number of `board_type` that the first `end` slots have.
    ///
    /// # Panics
    ///
    /// If there is no such type or end.
    pub fn lower(&self, board_type: usize, end: usize) -> u16 {
        self.lowers(board_type)[end]
    }

    /// The greatest number of `board_type` that the first `end` slots have.
    ///
    /// # Panics
    ///
    /// If there is no such type or end.
    pub fn upper(&self, board_type: usize, end: usize) -> u16 {
        self.uppers(board_type)[end]
    }

    /// The lower bounds of `board_type` at the ends 0 to n.
    ///
    /// # Panics
    ///
    /// If there is no such type.
    pub fn lowers(&self, board_type: usize) -> &[u16] {
        self.line(&self.lowers, board_type)
    }

    /// The upper bounds of `board_type` at the ends 0 to n.
    ///
    /// # Panics
    ///
    /// If there is no such type.
    pub fn uppers(&self, board_type: usize) -> &[u16] {
        self.line(&self.uppers, board_type)
    }

    fn line<'a>(&self, bounds: &'a [u16], board_type: usize) -> &'a [u16] {
        assert!(board_type < self.types(), "type {board_type} of {}", self.types());
        &bounds[board_type * (self.slots + 1)..][..self.slots + 1]
    }
}

fn elements(bytes: &[u8]) -> Vec<u16> {
    bytes.chunks_exact(2).map(|element| u16::from_le_bytes([element[0], element[1]])).collect()
}

impl fmt::Debug for Table {
    fn fmt(&self, f: &mut fmt::Formatter<'_>) -> fmt::Result {
        let lines = (0..self.types()).map(|v| (v, (self.lowers(v), self.uppers(v))));
        f.debug_map().entries(lines).finish()
    }
}
