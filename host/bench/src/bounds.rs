//! The closed bounds of a book, as the rivals hand them on.

/// The closed bounds of all types, a line for each.
pub struct Bounds {
    /// n + 1.
    ends: usize,
    types: usize,
    lowers: Vec<u16>,
    uppers: Vec<u16>,
}

impl Bounds {
    pub fn new(ends: usize, types: usize, lowers: Vec<u16>, uppers: Vec<u16>) -> Bounds {
        Bounds { ends, types, lowers, uppers }
    }

    pub fn types(&self) -> usize {
        self.types
    }

    /// The lowers of type v at the ends 0 to n.
    pub fn lowers(&self, v: usize) -> &[u16] {
        &self.lowers[v * self.ends..][..self.ends]
    }

    /// The uppers of type v at the ends 0 to n.
    pub fn uppers(&self, v: usize) -> &[u16] {
        &self.uppers[v * self.ends..][..self.ends]
    }
}

/// A closing: the bounds of a book, or `None` if it is dead, or the number of its refusal.
pub type Closing = fn(&[u8]) -> Result<Option<Bounds>, u32>;

/// Closes the book into bytes, with the answers of `nested_gcc_close`.
pub fn close_into(closing: Closing, book: &[u8], lowers: &mut [u8], uppers: &mut [u8]) -> u32 {
    let closed = match closing(book) {
        Ok(closed) => closed,
        Err(number) => return 256 + number,
    };
    let entries = usize::from(book[2]) * (usize::from(u16::from_le_bytes([book[0], book[1]])) + 1);
    if lowers.len() / 2 < entries || uppers.len() / 2 < entries {
        return 256 + 9;
    }
    match closed {
        None => {
            lowers[..2 * entries].fill(0);
            uppers[..2 * entries].fill(0);
            1
        }
        Some(bounds) => {
            write(&bounds.lowers, lowers);
            write(&bounds.uppers, uppers);
            0
        }
    }
}

fn write(bounds: &[u16], output: &mut [u8]) {
    for (bound, bytes) in bounds.iter().zip(output.chunks_exact_mut(2)) {
        bytes.copy_from_slice(&bound.to_le_bytes());
    }
}
