//! The plain machine of sessions (`docs/SPECIFICATION.md`, section 5): masks M, a dead flag and a pile of saved
//! masks. Each decision settles the cut masks anew, and walls are counted by the formula of section 6.

use crate::settling::largest_stable;
use crate::{close, settle, Book, Table};

/// The most marks that may be open.
const MARKS: usize = 256;

/// A session between two calls.
#[derive(Clone, Debug)]
pub struct Machine {
    /// Types.
    k: usize,
    /// The type that struck figures leave out.
    idle: Option<usize>,
    /// The closed table; `None` after a dead opening.
    table: Option<Table>,
    /// M.
    pub masks: Vec<u32>,
    /// The flag is up.
    pub dead: bool,
    /// Each open mark's masks, the latest last.
    pub pile: Vec<Vec<u32>>,
}

/// The two kinds of walls.
#[derive(Clone, Copy, Debug, PartialEq, Eq)]
pub enum Walls {
    Upper,
    Lower,
}

impl Machine {
    /// M is the settled masks, the flag down, the pile empty; if the book is dead, M is all 0 and the flag up.
    pub fn open(book: &Book) -> Machine {
        let (masks, table) = match settle(book).masks {
            Ok(masks) => (masks, close(book).table),
            Err(_) => (vec![0; book.n], None),
        };
        Machine { k: book.k, idle: book.idle, dead: table.is_none(), table, masks, pile: Vec::new() }
    }

    /// Makes one call: kind, type, slot in 2 bytes. The two words of its answer.
    pub fn call(&mut self, call: [u8; 4]) -> [u32; 2] {
        let [kind, board_type, slot @ ..] = call;
        let (v, slot) = (usize::from(board_type), usize::from(u16::from_le_bytes(slot)));
        let refusal = self.refusal(kind, v, slot);
        if refusal != 0 {
            return [256 + refusal, 0];
        }
        match kind {
            1 => self.cut(slot, 1 << v),
            2 => self.cut(slot, !(1 << v)),
            3 => {
                self.pile.push(self.masks.clone());
                [3, 0]
            }
            4 => {
                self.masks = self.pile.pop().expect("a mark is open");
                self.dead = false;
                [3, 0]
            }
            5 => [2, self.masks[slot]],
            6 => [2, self.walls(Walls::Upper, v) as u32],
            _ => [2, self.walls(Walls::Lower, v) as u32],
        }
    }

    /// 0, or the first number that refuses the call, in the order 11, 12, 13, 15, 14, 16.
    fn refusal(&self, kind: u8, v: usize, slot: usize) -> u32 {
        if !(1..=7).contains(&kind) {
            11
        } else if [1, 2, 5].contains(&kind) && slot >= self.masks.len() {
            12
        } else if [1, 2, 6, 7].contains(&kind) && v >= self.k {
            13
        } else if [1, 2, 3].contains(&kind) && self.dead {
            15
        } else if kind == 4 && self.pile.is_empty() {
            14
        } else if kind == 3 && self.pile.len() >= MARKS {
            16
        } else {
            0
        }
    }

    /// A decision: the slot keeps only those of its types that are in `kept`.
    fn cut(&mut self, slot: usize, kept: u32) -> [u32; 2] {
        let mut cut = self.masks.clone();
        cut[slot] &= kept;
        let table = self.table.as_ref().expect("a live session opened live");
        match largest_stable(table, &cut) {
            Some(settled) => {
                let struck = self.ones(&self.masks) - self.ones(&settled);
                self.masks = settled;
                [0, struck]
            }
            None => {
                self.dead = true;
                [1, 0]
            }
        }
    }

    /// How many types the masks have, the idle type left out.
    fn ones(&self, masks: &[u32]) -> u32 {
        let idle = self.idle.map_or(0, |v| 1 << v);
        masks.iter().map(|mask| (mask & !idle).count_ones()).sum()
    }

    /// How many walls of the kind and type stand: corners with a slack above 0 and below that of every later
    /// corner. 0 after a dead opening.
    pub fn walls(&self, kind: Walls, v: usize) -> usize {
        let Some(table) = &self.table else { return 0 };
        let corners: Vec<usize> = (1..=self.masks.len()).filter(|&t| is_corner(table, kind, v, t)).collect();
        let slacks: Vec<i64> = corners.iter().map(|&t| self.slack(table, kind, v, t)).collect();
        let stands = |&at: &usize| slacks[at] > 0 && slacks[at + 1..].iter().all(|&later| slacks[at] < later);
        (0..slacks.len()).filter(stands).count()
    }

    /// At an upper corner upper - B, at a lower corner P - lower.
    fn slack(&self, table: &Table, kind: Walls, v: usize, t: usize) -> i64 {
        let before = self.masks[..t].iter();
        match kind {
            Walls::Upper => table.upper[v][t] - before.filter(|&&mask| mask == 1 << v).count() as i64,
            Walls::Lower => before.filter(|&&mask| mask >> v & 1 == 1).count() as i64 - table.lower[v][t],
        }
    }
}

/// Whether the closed table has a corner of the kind and type at t, which is at least 1.
pub(crate) fn is_corner(table: &Table, kind: Walls, v: usize, t: usize) -> bool {
    let (upper, lower) = (&table.upper[v], &table.lower[v]);
    let n = upper.len() - 1;
    match kind {
        Walls::Upper => upper[t] == upper[t - 1] && (t == n || upper[t + 1] == upper[t] + 1),
        Walls::Lower => lower[t] == lower[t - 1] + 1 && (t == n || lower[t + 1] == lower[t]),
    }
}
