//! The search examples: what `examples/search.c`, `examples/search.cpp` and `host/nested-gcc/examples/search.rs` print is
//! held to the file examples/search.expected, and that file here to a search that has nothing of the library: the plan
//! by trying all plans in order, the numbers of nodes by the same search on the plain machine.

#[path = "../examples/search.rs"]
mod search;

use plain_filter::{Book, Machine, Row};
use search::{report, MASKS, ROWS, SLOTS, TYPES};

const EXPECTED: &str = include_str!("../../../examples/search.expected");

fn book() -> Book {
    let rows = ROWS
        .map(|(board_type, end, lower, upper)| Row {
            board_type: board_type.into(),
            end: end.into(),
            lower: lower.into(),
            upper: upper.map(usize::from),
        })
        .to_vec();
    Book { n: SLOTS.into(), k: TYPES.into(), idle: None, masks: MASKS.to_vec(), rows }
}

/// The first plan, in the order of its types, that begins with `begun`; rows are looked at where they end.
fn first_plan(book: &Book, begun: &mut Vec<usize>) -> bool {
    let kept = |row: &Row| {
        let count = begun.iter().filter(|&&board_type| board_type == row.board_type).count();
        row.end != begun.len() || (count >= row.lower && count <= row.upper.unwrap_or(usize::MAX))
    };
    if !book.rows.iter().all(kept) {
        return false;
    }
    if begun.len() == book.n {
        return true;
    }
    let mask = book.masks[begun.len()];
    for board_type in (0..book.k).filter(|v| mask >> v & 1 == 1) {
        begun.push(board_type);
        if first_plan(book, begun) {
            return true;
        }
        begun.pop();
    }
    false
}

#[derive(Default)]
struct Count {
    nodes: usize,
    dead: usize,
}

/// Assigns the first slot with more than one type its lowest; where that leads to no plan, removes it instead.
fn search_plainly(machine: &Machine, count: &mut Count) -> Option<Vec<u32>> {
    count.nodes += 1;
    count.dead += usize::from(machine.dead);
    if machine.dead {
        return None;
    }
    let Some(slot) = machine.masks.iter().position(|mask| mask.count_ones() > 1) else {
        return Some(machine.masks.clone());
    };
    let lowest = machine.masks[slot].trailing_zeros() as u8;
    [1, 2].into_iter().find_map(|kind| {
        let mut next = machine.clone();
        next.call([kind, lowest, slot as u8, 0]);
        search_plainly(&next, count)
    })
}

#[test]
fn the_example_prints_what_is_expected() {
    assert_eq!(report(), EXPECTED);
}

#[test]
fn what_is_expected_is_the_first_plan_and_the_plain_machines_numbers() {
    let book = book();
    let mut plan = Vec::new();
    assert!(first_plan(&book, &mut plan));
    let mut count = Count::default();
    let masks = search_plainly(&Machine::open(&book), &mut count).expect("there is a plan");
    assert_eq!(masks, plan.iter().map(|board_type| 1 << board_type).collect::<Vec<u32>>());
    assert!(count.dead > 0, "the search never goes back");
    let types: Vec<String> = plan.iter().map(usize::to_string).collect();
    let report = format!("plan {}\nnodes {}, of which {} dead\n", types.join(" "), count.nodes, count.dead);
    assert_eq!(report, EXPECTED);
}
