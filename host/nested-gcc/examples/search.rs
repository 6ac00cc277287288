//! Searches for a plan, depth first, with a kept session as the filter: `cargo run --release --example search`. The book
//! and the search are those of `examples/search.c`, which says how the search goes, what it counts and what it costs.

use nested_gcc::{Book, CallRefusal, Decided, Live, Standing};

pub const SLOTS: u16 = 16;
pub const TYPES: u8 = 4;

/// The types of each slot.
pub const MASKS: [u32; SLOTS as usize] = [7, 7, 7, 7, 13, 13, 13, 13, 14, 14, 14, 14, 15, 15, 15, 15];

/// Type, end, lower, upper.
pub const ROWS: [(u8, u16, u16, Option<u16>); 5] =
    [(0, 6, 0, Some(2)), (1, 12, 6, None), (1, 16, 8, None), (2, 14, 2, None), (3, 16, 3, None)];

/// What a search has come to.
struct Search {
    session: Live,
    nodes: usize,
    dead: usize,
}

impl Search {
    /// Whether there is a plan from where the session stands, live or dead; the masks then have one type each.
    fn run(&mut self, live: bool) -> Result<bool, CallRefusal> {
        self.nodes += 1;
        if !live {
            self.dead += 1;
            return Ok(false);
        }
        let masks = self.session.masks();
        let Some(slot) = masks.iter().position(|mask| mask.count_ones() > 1) else {
            return Ok(true);
        };
        let (slot, lowest) = (slot as u16, masks[slot].trailing_zeros() as u8);
        self.session.mark()?;
        let assigned = self.session.assign(slot, lowest)?;
        if self.run(assigned != Decided::Dead)? {
            return Ok(true);
        }
        self.session.back()?;
        let removed = self.session.remove(slot, lowest)?;
        self.run(removed != Decided::Dead)
    }
}

fn book() -> Vec<u8> {
    let mut book = Book::new(SLOTS, TYPES);
    for (slot, &mask) in MASKS.iter().enumerate() {
        book = book.mask(slot, mask);
    }
    for (board_type, end, lower, upper) in ROWS {
        book = book.row(board_type, end, lower, upper);
    }
    book.to_bytes()
}

/// Whether the plan, each slot's type as a mask, keeps the masks and the rows; looked at without the library.
fn keeps_masks_and_rows(plan: &[u32]) -> bool {
    let within = |(slot, &mask): (usize, &u32)| plan[slot].count_ones() == 1 && plan[slot] & !mask == 0;
    let kept = |&(board_type, end, lower, upper): &(u8, u16, u16, Option<u16>)| {
        let count = plan[..usize::from(end)].iter().filter(|&&slot| slot == 1 << board_type).count();
        count >= usize::from(lower) && count <= upper.map_or(usize::MAX, usize::from)
    };
    MASKS.iter().enumerate().all(within) && ROWS.iter().all(kept)
}

/// What the program prints.
pub fn report() -> String {
    let session = Live::open(&book()).expect("the book is good");
    let live = session.standing() == Standing::Live;
    let mut search = Search { session, nodes: 0, dead: 0 };
    if !search.run(live).expect("no call is refused") {
        return "no plan\n".to_string();
    }
    let plan = search.session.masks();
    assert!(keeps_masks_and_rows(plan), "the masks or the rows are broken: {plan:?}");
    let types: String = plan.iter().map(|slot| format!(" {}", slot.trailing_zeros())).collect();
    format!("plan{types}\nnodes {}, of which {} dead\n", search.nodes, search.dead)
}

#[allow(dead_code)] // the test includes this file as a module
fn main() {
    print!("{}", report());
}
