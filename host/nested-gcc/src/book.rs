use crate::NO_UPPER;

/// A book to be written: slots, types, which of them is idle, a mask for each slot, and rows.
///
/// It writes what it is given and judges nothing; [`check`](crate::check) does.
///
/// ```
/// use nested_gcc::Book;
///
/// let book = Book::new(2, 2).mask(1, 0b10).row(0, 2, 0, Some(1));
/// assert_eq!(
///     book.to_bytes(),
///     [
///         2, 0, 2, 0, 1, 0, 12, 0, 20, 0, 28, 0, // n, k, no idle type, r, masks at, rows at, length
///         3, 0, 0, 0, 2, 0, 0, 0, // masks
///         0, 0, 2, 0, 0, 0, 1, 0, // type, 0, end, lower, upper
///     ]
/// );
/// ```
#[derive(Clone, Debug)]
pub struct Book {
    /// k.
    types: u8,
    /// Byte 3: 0 for no idle type, else that type plus 1.
    idle: u8,
    /// One for each slot; n is their count.
    masks: Vec<u32>,
    rows: Vec<Row>,
}

/// Of `board_type`, the first `end` slots have at least `lower` and at most `upper`.
#[derive(Clone, Debug)]
struct Row {
    board_type: u8,
    end: u16,
    lower: u16,
    upper: u16,
}

impl Book {
    /// A book without rows, whose slots may have each of the types 0 to `types` - 1, none of them idle.
    pub fn new(slots: u16, types: u8) -> Book {
        let every_type = if types < 32 { (1 << types) - 1 } else { u32::MAX };
        Book { types, idle: 0, masks: vec![every_type; slots.into()], rows: Vec::new() }
    }

    /// Sets the type that means: line stands. Struck figures leave it out, and nothing else changes.
    ///
    /// Byte 3 is then `board_type` + 1, or 255 where that does not fit it. A book that has no such type is
    /// refused with [`Refusal::IdleType`](crate::Refusal::IdleType).
    ///
    /// ```
    /// use nested_gcc::{check, session, Answer, Book, Calls, Refusal};
    ///
    /// // Three slots and two types; of type 0 at least one within the first two slots.
    /// let book = Book::new(3, 2).row(0, 2, 1, None);
    /// // Slot 0 loses type 0, so that slot 1 has to take it and loses type 1.
    /// let mut calls = Calls::new();
    /// calls.assign(0, 1);
    /// let ran = session(&book.to_bytes(), calls.as_bytes())?;
    /// assert_eq!(ran.answers, [Answer::Live { struck: 2 }]);
    /// assert_eq!(ran.masks, [0b10, 0b01, 0b11]);
    ///
    /// // Where type 0 means that the line stands, only the loss of type 1 is news. The masks are the same.
    /// let idle = session(&book.clone().idle(0).to_bytes(), calls.as_bytes())?;
    /// assert_eq!(idle.answers, [Answer::Live { struck: 1 }]);
    /// assert_eq!(idle.masks, ran.masks);
    ///
    /// // There is no type 2.
    /// assert_eq!(check(&book.idle(2).to_bytes()), Err(Refusal::IdleType));
    /// # Ok::<(), Refusal>(())
    /// ```
    pub fn idle(mut self, board_type: u8) -> Book {
        self.idle = board_type.saturating_add(1);
        self
    }

    /// Sets the slot's mask: bit v says that type v may go there.
    ///
    /// # Panics
    ///
    /// If the book has no such slot.
    pub fn mask(mut self, slot: usize, bits: u32) -> Book {
        self.masks[slot] = bits;
        self
    }

    /// Adds a row: the first `end` slots have at least `lower` of type `board_type` and at most `upper`, where
    /// `None` means no upper bound, as [`NO_UPPER`] does.
    pub fn row(mut self, board_type: u8, end: u16, lower: u16, upper: Option<u16>) -> Book {
        let upper = upper.unwrap_or(NO_UPPER);
        self.rows.push(Row { board_type, end, lower, upper });
        self
    }

    /// The bytes of the book. A count, offset or length past 16 bits is cut to them; such a book is
    /// refused, since its counts are out of range or its length is not the one written.
    pub fn to_bytes(&self) -> Vec<u8> {
        let masks_at = 12;
        let rows_at = masks_at + 4 * self.masks.len();
        let length = rows_at + 8 * self.rows.len();
        let mut bytes = Vec::with_capacity(length);
        bytes.extend((self.masks.len() as u16).to_le_bytes());
        bytes.extend([self.types, self.idle]);
        bytes.extend((self.rows.len() as u16).to_le_bytes());
        for place in [masks_at, rows_at, length] {
            bytes.extend((place as u16).to_le_bytes());
        }
        for mask in &self.masks {
            bytes.extend(mask.to_le_bytes());
        }
        for row in &self.rows {
            bytes.extend([row.board_type, 0]);
            for field in [row.end, row.lower, row.upper] {
                bytes.extend(field.to_le_bytes());
            }
        }
        bytes
    }
}
