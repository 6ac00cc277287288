//! Times `session` against a plain engine on 4096 calls, and tells what an opening, a mark, a decision and a back
//! take: from the times of the list's parts.

use std::time::Instant;

use nested_gcc::{session_into, Verdict, ANSWERS_BYTES, MASKS_BYTES};
use plain_filter::Book;
use random_books::{bytes, masks_around, near_plan, plan, row_near_plan, Random};

use crate::{engine, in_place};

const BOOKS: usize = 5;
const PASSES: usize = 21;
/// Runs before each one that is timed.
const WARM: usize = 8;
const MARKS: usize = 256;
/// Decisions after each mark.
const DECISIONS: usize = 4;
/// The calls of a whole list.
const CALLS: usize = 4096;
/// How often a live decision is looked for.
const TRIES: usize = 500;

/// 256 slots and 32 types around a plan: a row for each type at every 16 slots, at most 3 off the plan's count, and
/// masks with three quarters of the other types.
fn book(random: &mut Random) -> Book {
    let plan = plan(random, 256, 32, 2);
    let mut book = near_plan(random, &plan, 32, 0, 0);
    book.masks = masks_around(random, &plan, 32, 6);
    for end in (16..=256).step_by(16) {
        for board_type in 0..32 {
            book.rows.push(row_near_plan(random, &plan, board_type, end, 3));
        }
    }
    book
}

/// A decision that is live: of 16 one is an assign and the others are removes, of a type that the slot has.
fn live_decision(random: &mut Random, engine: &mut engine::Engine) -> Option<[u8; 4]> {
    for _ in 0..TRIES {
        let (slot, board_type) = (random.below(256), random.below(32));
        let mask = engine.masks()[slot];
        if mask.count_ones() < 2 || mask >> board_type & 1 == 0 {
            continue;
        }
        let kind = if random.below(16) == 0 { 1 } else { 2 };
        let call = [kind, board_type as u8, slot as u8, 0];
        engine.call([3, 0, 0, 0]);
        let live = engine.call(call)[0] == 0;
        engine.call([4, 0, 0, 0]);
        if live {
            return Some(call);
        }
    }
    None
}

/// Marks with live decisions after each, until there are as many as may be or no live decision is found; then a
/// back for each mark; and all this again, until the list is as long as it may be.
struct List {
    calls: Vec<u8>,
    marks: usize,
    decisions: usize,
    /// How many types the decisions strike.
    struck: u32,
}

impl List {
    fn new(random: &mut Random, book: &[u8]) -> List {
        let bounds = in_place::close(book).expect("a good book");
        let mut engine = engine::Engine::open(book, 256, bounds);
        let mut list = List { calls: Vec::new(), marks: 0, decisions: 0, struck: 0 };
        // The engine makes no marks but those to try a decision.
        'marks: while list.marks < MARKS {
            list.calls.extend([3, 0, 0, 0]);
            list.marks += 1;
            for _ in 0..DECISIONS {
                let Some(call) = live_decision(random, &mut engine) else { break 'marks };
                list.calls.extend(call);
                list.decisions += 1;
                list.struck += engine.call(call)[1];
            }
        }
        list.calls.extend([4, 0, 0, 0].repeat(list.marks));
        list.calls = list.calls.into_iter().cycle().take(4 * CALLS).collect();
        list
    }

    /// The first marks and their decisions.
    fn down(&self) -> &[u8] {
        &self.calls[..4 * (self.marks + self.decisions)]
    }

    /// With the first backs.
    fn down_and_back(&self) -> &[u8] {
        &self.calls[..4 * (2 * self.marks + self.decisions)]
    }
}

struct Outputs {
    answers: Vec<u8>,
    masks: Vec<u8>,
}

impl Outputs {
    fn new() -> Outputs {
        Outputs { answers: vec![0; ANSWERS_BYTES], masks: vec![0; MASKS_BYTES] }
    }
}

type Contender = fn(&[u8], &[u8], &mut Outputs);

const PROVED: Contender = |book, calls, outputs| {
    assert_eq!(session_into(book, calls, &mut outputs.answers, &mut outputs.masks), Ok(Verdict::Live));
};

const PLAIN: Contender = |book, calls, outputs| {
    let opened = engine::session_into(in_place::close, book, calls, &mut outputs.answers, &mut outputs.masks);
    assert_eq!(opened, 0);
};

/// The median time of each contender for each list, in nanoseconds. Lists and contenders take turns, so that what the
/// machine does besides falls on all alike, and differences between lists are of one time. Each time is that of a
/// ninth run, so that no list pays for what another left in caches and predictors.
fn medians<const N: usize>(book: &[u8], lists: [&[u8]; N]) -> [[f64; 2]; N] {
    let mut outputs = Outputs::new();
    let mut times = [(); N].map(|()| [Vec::new(), Vec::new()]);
    for _ in 0..PASSES {
        for (calls, times) in lists.iter().zip(&mut times) {
            for (contender, times) in [PROVED, PLAIN].iter().zip(times) {
                for _ in 0..WARM {
                    contender(book, calls, &mut outputs);
                }
                let begin = Instant::now();
                contender(book, calls, &mut outputs);
                times.push(begin.elapsed());
            }
        }
    }
    times.map(|times| {
        times.map(|mut times| {
            times.sort();
            times[times.len() / 2].as_secs_f64() * 1e9
        })
    })
}

fn assert_same(book: &[u8], calls: &[u8]) {
    let (mut proved, mut plain) = (Outputs::new(), Outputs::new());
    PROVED(book, calls, &mut proved);
    PLAIN(book, calls, &mut plain);
    assert!(proved.answers == plain.answers && proved.masks == plain.masks, "the contenders differ");
}

pub fn run() {
    let mut random = Random::new(0x9b05_688c_2b3e_6c1f);
    let mut sums = [[0.0; 2]; 5];
    let (mut decisions, mut struck) = (0, 0);
    for _ in 0..BOOKS {
        let book = bytes(&book(&mut random));
        let list = List::new(&mut random, &book);
        decisions += list.decisions;
        struck += list.struck;
        assert_same(&book, &list.calls);
        let pairs = [3, 0, 0, 0, 4, 0, 0, 0].repeat(CALLS / 2);
        let lists = [&[], &pairs[..], list.down(), list.down_and_back(), &list.calls[..]];
        let [opening, pairs, down, down_and_back, whole] = medians(&book, lists);
        for at in 0..2 {
            // One mark is too little to be timed: it is taken for half of a mark and its empty back.
            let mark = (pairs[at] - opening[at]) / CALLS as f64;
            let decided = down[at] - opening[at] - mark * list.marks as f64;
            sums[0][at] += opening[at];
            sums[1][at] += mark;
            sums[2][at] += decided / list.decisions as f64;
            sums[3][at] += (down_and_back[at] - down[at]) / list.marks as f64;
            sums[4][at] += whole[at];
        }
    }
    println!(
        "{CALLS} calls on {BOOKS} books, {:.0} decisions at a time, {:.1} types struck by each; nanoseconds",
        decisions as f64 / BOOKS as f64,
        f64::from(struck) / decisions as f64
    );
    println!("{:26} {:>10} {:>10} {:>13}", "", "proved", "engine", "proved/engine");
    for (name, [proved, plain]) in ["opening", "mark", "decision", "back", "whole list"].iter().zip(sums) {
        let (proved, plain) = (proved / BOOKS as f64, plain / BOOKS as f64);
        let name = format!("session 256x32 {name}");
        println!("{name:26} {proved:>10.0} {plain:>10.0} {:>13.2}", proved / plain);
    }
}

#[cfg(test)]
mod tests {
    use super::*;
    use plain_filter::Machine;

    /// The engine answers and writes as the plain machine does, on books opened live and dead.
    #[test]
    fn engine_is_right() {
        let mut random = Random::new(0x3c6e_f372_fe94_f82b);
        let mut met = [0; 6];
        for _ in 0..2000 {
            let (n, k) = (random.between(1, 16), random.between(1, 6));
            let plan = plan(&mut random, n, k, 2);
            let mut book = near_plan(&mut random, &plan, k, n, 2);
            book.masks = masks_around(&mut random, &plan, k, 5);
            let slot = random.below(n);
            book.masks[slot] = 1 << random.below(k);
            let mut machine = Machine::open(&book);
            met[usize::from(machine.dead)] += 1;
            let opened_dead = u32::from(machine.dead);
            let (mut calls, mut words) = (Vec::new(), Vec::new());
            for _ in 0..60 {
                let call = [
                    random.one_of(&[0, 1, 2, 2, 2, 3, 3, 4, 5, 6, 7, 8]),
                    random.below(k + 1) as u8,
                    random.below(n + 1) as u8,
                    0,
                ];
                let before = machine.dead;
                let answer = machine.call(call);
                met[2] += usize::from(answer[0] == 0 && answer[1] > 1);
                met[3] += usize::from(answer[0] == 1);
                met[4] += usize::from(answer[0] == 3 && before);
                met[5] += usize::from(answer[0] == 2 && call[0] > 5 && answer[1] > 0);
                calls.extend(call);
                words.extend(answer.iter().flat_map(|word| word.to_le_bytes()));
            }
            let (mut answers, mut masks) = (vec![0; 8 * 60], vec![0; 4 * n]);
            let book_bytes = bytes(&book);
            let opened = engine::session_into(in_place::close, &book_bytes, &calls, &mut answers, &mut masks);
            let last: Vec<u8> = machine.masks.iter().flat_map(|mask| mask.to_le_bytes()).collect();
            assert_eq!((opened, answers, masks), (opened_dead, words, last), "{calls:?} on {book:?}");
        }
        println!("opened live, opened dead, consequences, dead, back while dead, walls: {met:?}");
        assert!(met.iter().all(|&times| times >= 100), "{met:?}");
    }
}
