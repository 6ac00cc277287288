//! Small random books, and what `docs/SPECIFICATION.md`, section 4, defines on them: every stable list and every plan,
//! found by listing every list there is.

#![allow(dead_code)] // not every test uses all of it

use plain_filter::{Book, Row, Table};
use random_books::{every_type, masks_around, near_plan, plan, Random};

fn has(mask: u32, v: usize) -> bool {
    mask >> v & 1 == 1
}

fn fixed(mask: u32, v: usize) -> bool {
    mask == 1 << v
}

/// The definition of docs/SPECIFICATION.md, 4.2 to 4.7, rule by rule.
fn stable(table: &Table, masks: &[u32]) -> bool {
    masks.iter().all(|&mask| mask != 0)
        && (0..table.lower.len()).all(|v| (1..=masks.len()).all(|t| stable_at(table, v, t, &masks[..t])))
}

fn stable_at(table: &Table, v: usize, t: usize, before: &[u32]) -> bool {
    let p = before.iter().filter(|&&mask| has(mask, v)).count() as i64;
    let b = before.iter().filter(|&&mask| fixed(mask, v)).count() as i64;
    let (lower, upper) = (table.lower[v][t], table.upper[v][t]);
    p >= lower
        && b <= upper
        && (p != lower || before.iter().all(|&mask| !has(mask, v) || fixed(mask, v)))
        && (b != upper || before.iter().all(|&mask| fixed(mask, v) || !has(mask, v)))
}

/// Every way to choose one of each list.
fn every_choice(lists: &[Vec<u32>]) -> Vec<Vec<u32>> {
    lists.iter().fold(vec![Vec::new()], |choices, list| {
        let longer = |choice: &Vec<u32>| {
            let choice = choice.clone();
            list.iter().map(move |&next| [&choice[..], &[next]].concat())
        };
        choices.iter().flat_map(longer).collect()
    })
}

/// Every stable list within the masks, with the bounds of the closed table.
pub fn stable_lists(table: &Table, masks: &[u32]) -> Vec<Vec<u32>> {
    let parts = |&mask: &u32| (1..=mask).filter(|part| part & !mask == 0).collect();
    let mut lists = every_choice(&masks.iter().map(parts).collect::<Vec<_>>());
    lists.retain(|masks| stable(table, masks));
    lists
}

/// Every plan, each slot's type as a mask: allowed by the masks, and keeping the rows.
pub fn plans(book: &Book) -> Vec<Vec<u32>> {
    let types = |&mask: &u32| (0..32).map(|v| 1 << v).filter(|one| mask & one != 0).collect();
    let mut plans = every_choice(&book.masks.iter().map(types).collect::<Vec<_>>());
    plans.retain(|plan| {
        book.rows.iter().all(|row| {
            let count = plan[..row.end].iter().filter(|&&slot| fixed(slot, row.board_type)).count();
            row.lower <= count && row.upper.is_none_or(|upper| count <= upper)
        })
    });
    plans
}

/// Rows near a plan and masks around it; in two of three books some masks or rows are at odds with the plan.
pub fn random_book(random: &mut Random, n: usize, k: usize) -> Book {
    let plan = plan(random, n, k, 2);
    let (rows, slack) = (random.below(2 * n), random.below(2));
    let mut book = near_plan(random, &plan, k, rows, slack);
    let eighths = random.between(2, 7);
    book.masks = masks_around(random, &plan, k, eighths);
    match random.below(3) {
        0 => {
            let mask = random.between(1, every_type(k) as usize) as u32;
            book.masks[random.below(n)] = mask;
        }
        1 => {
            let (board_type, end) = (random.below(k), random.between(1, n));
            let (lower, upper) = random.one_of(&[(1, None), (2, None), (0, Some(0)), (0, Some(1))]);
            book.rows.push(Row { board_type, end, lower, upper });
        }
        _ => {}
    }
    book
}
