/// A list of calls to be written, for [`session`](crate::session), [`Live::run`](crate::Live::run) and
/// [`probe_into`](crate::probe_into).
///
/// It writes what it is given and judges nothing. Fields that a kind of call does not use are written as 0.
///
/// ```
/// use nested_gcc::Calls;
///
/// let mut calls = Calls::new();
/// calls.mark().assign(258, 1).back();
/// assert_eq!(
///     calls.as_bytes(),
///     [
///         3, 0, 0, 0, // mark
///         1, 1, 2, 1, // assign, type, slot
///         4, 0, 0, 0, // back
///     ]
/// );
/// assert_eq!(calls.len(), 3);
///
/// // What was written last is taken out again.
/// assert_eq!(calls.pop(), Some([4, 0, 0, 0]));
/// assert_eq!(calls.truncate(1).as_bytes(), [3, 0, 0, 0]);
/// ```
#[derive(Clone, Debug, Default, PartialEq, Eq, Hash)]
pub struct Calls {
    /// 4 for each call: kind, type, slot in 2 bytes.
    bytes: Vec<u8>,
}

impl Calls {
    /// No calls.
    pub fn new() -> Calls {
        Calls::default()
    }

    /// Kind 1: cuts the slot to that type.
    pub fn assign(&mut self, slot: u16, board_type: u8) -> &mut Calls {
        self.push(1, board_type, slot)
    }

    /// Kind 2: strikes that type from the slot.
    pub fn remove(&mut self, slot: u16, board_type: u8) -> &mut Calls {
        self.push(2, board_type, slot)
    }

    /// Kind 3: saves the masks.
    pub fn mark(&mut self) -> &mut Calls {
        self.push(3, 0, 0)
    }

    /// Kind 4: restores the masks of the latest mark still open, which is then gone. A dead session gets live.
    pub fn back(&mut self) -> &mut Calls {
        self.push(4, 0, 0)
    }

    /// Kind 5: reads the slot's mask.
    pub fn show(&mut self, slot: u16) -> &mut Calls {
        self.push(5, 0, slot)
    }

    /// Kind 6: counts the upper walls of the type.
    pub fn upper_walls(&mut self, board_type: u8) -> &mut Calls {
        self.push(6, board_type, 0)
    }

    /// Kind 7: counts the lower walls of the type.
    pub fn lower_walls(&mut self, board_type: u8) -> &mut Calls {
        self.push(7, board_type, 0)
    }

    /// How many calls the list has.
    pub fn len(&self) -> usize {
        self.bytes.len() / 4
    }

    /// Whether the list has no calls.
    pub fn is_empty(&self) -> bool {
        self.bytes.is_empty()
    }

    /// Keeps the first `calls` calls. A list that has no more stays as it is.
    pub fn truncate(&mut self, calls: usize) -> &mut Calls {
        self.bytes.truncate(calls.saturating_mul(4));
        self
    }

    /// Takes the last call out of the list: its 4 bytes, or `None` if there is none.
    pub fn pop(&mut self) -> Option<[u8; 4]> {
        let last = self.bytes.last_chunk().copied()?;
        self.truncate(self.len() - 1);
        Some(last)
    }

    /// The bytes of the list.
    pub fn as_bytes(&self) -> &[u8] {
        &self.bytes
    }

    fn push(&mut self, kind: u8, board_type: u8, slot: u16) -> &mut Calls {
        let [low, high] = slot.to_le_bytes();
        self.bytes.extend([kind, board_type, low, high]);
        self
    }
}
