//! Random books and calls, for the tests of sessions.

#![allow(dead_code)] // not every test uses all of it

use plain_filter::{Book, Machine, Row};
use random_books::{every_type, masks_around, near_plan, plan, Random};

/// Rows near a plan, and masks around it.
fn around_a_plan(random: &mut Random, n: usize, k: usize) -> Book {
    let (rows, slack, eighths) = (random.between(n / 2, 2 * n), random.between(0, 3), random.between(2, 8));
    let plan = plan(random, n, k, 2);
    let book = near_plan(random, &plan, k, rows, slack);
    Book { masks: masks_around(random, &plan, k, eighths), ..book }
}

/// As many books as not lie around a plan; of the others a few have more rows, fewer types or fewer slots than
/// most, and some are at odds with their plan.
pub fn random_book(random: &mut Random) -> Book {
    let (n, k) = (random.between(2, 16), random.between(2, 6));
    match random.below(16) {
        0..=7 => around_a_plan(random, n, k),
        8..=10 => {
            let book = around_a_plan(random, n, k);
            Book { masks: vec![every_type(k); n], ..book }
        }
        11 => {
            let mut book = around_a_plan(random, n, k);
            for _ in 0..random.between(1, 3) {
                let slot = random.below(n);
                book.masks[slot] = 1 << random.below(k);
            }
            book
        }
        12 => {
            let mut book = around_a_plan(random, n, k);
            let (board_type, end) = (random.below(k), random.between(1, n));
            let (lower, upper) = random.one_of(&[(end, None), (end / 2 + 1, None), (0, Some(0))]);
            book.rows.push(Row { board_type, end, lower, upper });
            book
        }
        13 => around_a_plan(random, n, 1),
        14 => around_a_plan(random, 1, k),
        _ => around_a_plan(random, n, 32),
    }
}

/// What a maker of calls is inclined to, in shares.
#[derive(Clone, Copy)]
pub struct Habit {
    assign: usize,
    remove: usize,
    mark: usize,
    back: usize,
    show: usize,
    walls: usize,
    /// A kind that is none.
    unknown: usize,
    /// How many of 16 decisions take any type and not one that the slot has.
    careless: usize,
    /// How many of 64 slots or types are out of range.
    outside: usize,
}

/// A search: marks and decisions, and backs when dead. Any mixture. Many marks. Careless decisions and bad calls.
pub const HABITS: [Habit; 4] = [
    Habit { assign: 8, remove: 4, mark: 8, back: 2, show: 1, walls: 4, unknown: 0, careless: 0, outside: 0 },
    Habit { assign: 4, remove: 8, mark: 4, back: 3, show: 3, walls: 6, unknown: 1, careless: 2, outside: 2 },
    Habit { assign: 1, remove: 3, mark: 60, back: 1, show: 1, walls: 1, unknown: 1, careless: 0, outside: 1 },
    Habit { assign: 4, remove: 4, mark: 2, back: 4, show: 2, walls: 4, unknown: 4, careless: 8, outside: 16 },
];

/// One of the slots or types below `limit`, or in so many of 64 cases one that is not.
fn field(random: &mut Random, limit: usize, outside: usize, choices: &[usize]) -> usize {
    if random.below(64) < outside {
        limit + random.one_of(choices)
    } else {
        random.below(limit)
    }
}

/// A call on the machine as it stands. Fields that the kind does not use hold anything.
pub fn random_call(random: &mut Random, habit: &Habit, machine: &Machine, k: usize) -> [u8; 4] {
    let Habit { assign, remove, mark, back, show, walls, unknown, careless, outside } = *habit;
    // A live session that has no open mark mostly makes one.
    let alone = !machine.dead && machine.pile.is_empty();
    let mark = if alone { mark + assign + remove } else { mark };
    // A dead session mostly goes back.
    let back = if machine.dead { back + (assign + remove + mark) / 2 } else { back };
    let shares = [assign, remove, mark, back, show, walls, walls, unknown];
    let mut share = random.below(shares.iter().sum());
    let mut kind = 0;
    while share >= shares[kind] {
        share -= shares[kind];
        kind += 1;
    }
    let kind = match kind {
        7 => random.one_of(&[0, 8, 9, 127, 128, 129, 255]),
        _ => kind as u8 + 1,
    };
    let n = machine.masks.len();
    let mut slot = field(random, n, outside, &[0, 1, 2, 255, 256, 65535 - n]);
    let mut board_type = field(random, k, outside, &[0, 1, 31, 32, 128, 255 - k]);
    if kind <= 2 && slot < n && board_type < k && random.below(16) >= careless {
        // A slot from here on with a choice, and a type that it has.
        slot = (slot..n).chain(0..slot).find(|&s| machine.masks[s].count_ones() > 1).unwrap_or(slot);
        let has = |v: &usize| machine.masks[slot] >> v & 1 == 1;
        board_type = (board_type..k).chain(0..board_type).find(has).unwrap_or(board_type);
    }
    if ![1, 2, 5].contains(&kind) {
        slot = random.below(65536);
    }
    if ![1, 2, 6, 7].contains(&kind) {
        board_type = random.below(256);
    }
    let [low, high] = (slot as u16).to_le_bytes();
    [kind, board_type as u8, low, high]
}

/// A list of random calls, made on the plain machine as it goes.
pub fn random_list(random: &mut Random, book: &Book, length: usize, habit: usize) -> Vec<u8> {
    let mut machine = Machine::open(book);
    let mut calls = Vec::new();
    for _ in 0..length {
        let call = random_call(random, &HABITS[habit], &machine, book.k);
        machine.call(call);
        calls.extend(call);
    }
    calls
}
