//! The plain kept session (`docs/SPECIFICATION.md`, section 11): the plain machine, and beside it the number of calls made
//! and the standing.

use crate::{Book, Machine};

/// The most bytes of a list of calls.
const CALLS_BYTES: usize = 16384;

/// A session between two steps.
#[derive(Clone, Debug)]
pub struct Kept {
    pub machine: Machine,
    /// How many calls were made since the opening, refused ones included.
    pub made: u64,
    pub standing: Standing,
}

/// How a session stands.
#[derive(Clone, Copy, Debug, PartialEq, Eq)]
pub enum Standing {
    Live,
    /// Dead since the call of that number, counted from 0 since the opening.
    Dead(u64),
    OpenedDead,
}

impl Kept {
    pub fn open(book: &Book) -> Kept {
        let machine = Machine::open(book);
        let standing = if machine.dead { Standing::OpenedDead } else { Standing::Live };
        Kept { machine, made: 0, standing }
    }

    /// Makes one call; its two words.
    pub fn call(&mut self, call: [u8; 4]) -> [u32; 2] {
        let words = self.machine.call(call);
        match words {
            // A decision that is dead.
            [1, _] => self.standing = Standing::Dead(self.made),
            // A back; a mark finds the session live.
            [3, _] => self.standing = Standing::Live,
            _ => {}
        }
        self.made += 1;
        words
    }

    /// Makes a list of calls, with room for so many words: two words a call; or the number of the refusal, and nothing is
    /// changed.
    pub fn step(&mut self, calls: &[u8], room: usize) -> Result<Vec<u32>, u32> {
        if calls.len() % 4 != 0 || calls.len() > CALLS_BYTES {
            return Err(10);
        }
        if room < calls.len() / 2 {
            return Err(9);
        }
        let call = |call: &[u8]| self.call([call[0], call[1], call[2], call[3]]);
        Ok(calls.chunks_exact(4).flat_map(call).collect())
    }
}
