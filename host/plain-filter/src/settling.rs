//! The plain settling: the rules of `docs/SPECIFICATION.md`, section 4, for stable lists, applied type by type
//! and end by end, again and again, until none of them cuts a mask.

use crate::{close, Book, Table};

/// What came of settling a book.
#[derive(Clone, Debug, PartialEq, Eq)]
pub struct Settling {
    /// The largest stable list within the book's masks, or why there is none.
    pub masks: Result<Vec<u32>, Death>,
    /// How many masks were cut to one type because P = lower.
    pub fixes: usize,
    /// How many types were struck from a mask because B = upper.
    pub strikes: usize,
    /// How often all rules were applied, up to the time when none cut a mask, or one was broken.
    pub passes: usize,
}

/// The rule that is found broken. A mask never gets empty: of a fixed slot nothing is struck.
#[derive(Clone, Copy, Debug, PartialEq, Eq)]
pub enum Death {
    /// The book is dead in closing.
    Closing,
    /// P is below lower.
    TooFew,
    /// B is above upper.
    TooMany,
}

/// Settles the book: each rule applied in turn until a whole pass cuts nothing. Only what every stable list
/// within the masks lacks is cut, so the book is dead as soon as a rule is broken.
pub fn settle(book: &Book) -> Settling {
    let mut settling = Settling { masks: Err(Death::Closing), fixes: 0, strikes: 0, passes: 0 };
    if let Some(table) = close(book).table {
        let mut masks = book.masks.clone();
        settling.masks = settle_within(&table, &mut masks, &mut settling).map(|()| masks);
    }
    settling
}

/// The largest stable list within the masks, with the bounds of the closed table; `None` if there is none.
pub fn largest_stable(table: &Table, masks: &[u32]) -> Option<Vec<u32>> {
    let mut settling = Settling { masks: Ok(Vec::new()), fixes: 0, strikes: 0, passes: 0 };
    let mut masks = masks.to_vec();
    let settled = !masks.contains(&0) && settle_within(table, &mut masks, &mut settling).is_ok();
    settled.then_some(masks)
}

fn settle_within(table: &Table, masks: &mut [u32], settling: &mut Settling) -> Result<(), Death> {
    loop {
        settling.passes += 1;
        let before = masks.to_vec();
        for v in 0..table.lower.len() {
            for t in 1..=masks.len() {
                ask(table, v, t, masks, settling)?;
            }
        }
        if masks == before {
            return Ok(());
        }
    }
}

fn has(mask: u32, v: usize) -> bool {
    mask >> v & 1 == 1
}

fn fixed(mask: u32, v: usize) -> bool {
    mask == 1 << v
}

/// The rules for one type and one end: cuts what they ask for, or says which is broken.
fn ask(table: &Table, v: usize, t: usize, masks: &mut [u32], settling: &mut Settling) -> Result<(), Death> {
    let (lower, upper) = (table.lower[v][t], table.upper[v][t]);
    let p = masks[..t].iter().filter(|&&mask| has(mask, v)).count() as i64;
    let b = masks[..t].iter().filter(|&&mask| fixed(mask, v)).count() as i64;
    if p < lower {
        return Err(Death::TooFew);
    }
    if b > upper {
        return Err(Death::TooMany);
    }
    for mask in &mut masks[..t] {
        if p == lower && has(*mask, v) && !fixed(*mask, v) {
            *mask = 1 << v;
            settling.fixes += 1;
        }
        if b == upper && has(*mask, v) && !fixed(*mask, v) {
            *mask &= !(1 << v);
            settling.strikes += 1;
        }
    }
    Ok(())
}
