//! Random books and lists of picks, good ones and damaged: `probe_into` answers and writes as the plain second filter
//! does, and touches nothing else; no plan has a pick that dies, and a menu has what `settle` leaves at most.

mod lent;
mod makers;

use std::collections::BTreeMap;
use std::hint::black_box;

use lent::Lent;
use makers::random_book;
use nested_gcc::{menu, probe, probe_into, settle, Verdict};
use plain_filter::{settle as plain_settle, Book, Probes};
use random_books::{bytes, count, every_type, masks_around, near_plan, plan, with_idle, Random};

const BOOKS: usize = 40_000;
/// How often each kind of case comes up at least.
const LEAST: usize = 100;
/// The most calls in a list.
const CALLS: usize = 4096;
/// Of a book that has more picks, some are probed.
const PICKS: usize = 96;

/// How often each kind of case came up.
#[derive(Default)]
struct Met(BTreeMap<String, usize>);

impl Met {
    fn count(&mut self, case: &str) {
        *self.0.entry(case.to_string()).or_default() += 1;
    }

    fn count_if(&mut self, is: bool, case: &str) {
        if is {
            self.count(case);
        }
    }

    /// A good book with a list of its picks.
    fn probes(&mut self, book: &Book, calls: &[[u8; 4]], probes: &Probes) {
        self.count(if probes.live { "opened live" } else { "opened dead" });
        self.count_if(calls.is_empty(), if probes.live { "no calls, live" } else { "no calls, dead" });
        self.count_if(calls.len() == book.n * book.k, "every pick of a book");
        self.count_if(book.idle.is_some(), "an idle type");
        self.count_if(book.n == 1, "n = 1");
        self.count_if(book.k == 1, "k = 1");
        self.count_if(book.k == 32, "k = 32");
        let settled = plain_settle(book).masks;
        let (mut dying, mut living) = (false, false);
        for (&[_, v, slot, _], &byte) in calls.iter().zip(&probes.dead) {
            let Ok(masks) = &settled else {
                self.count("a pick on a dead book");
                continue;
            };
            let within = |mask: u32| mask >> v & 1 == 1;
            self.count(
                match (byte, within(book.masks[usize::from(slot)]), within(masks[usize::from(slot)])) {
                    (0, ..) => "a pick that lives",
                    (_, false, _) => "dies, not in the book's mask",
                    (_, true, false) => "dies, struck at the opening",
                    (_, true, true) => "dies, in the settled mask",
                },
            );
            self.count_if(dying && byte == 0, "lives behind one that dies");
            self.count_if(living && byte == 1, "dies behind one that lives");
            dying |= byte == 1;
            living |= byte == 0;
        }
    }
}

/// Each kind of case that has to come up.
fn cases() -> Vec<String> {
    let fixed = [
        "opened live",
        "opened dead",
        "no calls, live",
        "no calls, dead",
        "every pick of a book",
        "an idle type",
        "n = 1",
        "k = 1",
        "k = 32",
        "a pick on a dead book",
        "a pick that lives",
        "dies, not in the book's mask",
        "dies, struck at the opening",
        "dies, in the settled mask",
        "lives behind one that dies",
        "dies behind one that lives",
        "answered 0",
        "answered 1",
        "an output longer than the calls",
        "a bad call on a dead book",
        "an output too short on a dead book",
    ];
    let refused = (1..=13).map(|number| format!("refused {number}"));
    fixed.into_iter().map(String::from).chain(refused).collect()
}

fn assign(slot: usize, v: usize) -> [u8; 4] {
    let [low, high] = (slot as u16).to_le_bytes();
    [1, v as u8, low, high]
}

/// Every pick of the book, slot by slot or in any order; or so many of them, where some may come twice.
fn picks(random: &mut Random, book: &Book, turn: usize) -> Vec<[u8; 4]> {
    let every = book.n * book.k;
    let pick = |at: usize| assign(at / book.k, at % book.k);
    match turn % 16 {
        0 => Vec::new(),
        1..=4 => (0..random.between(1, PICKS)).map(|_| pick(random.below(every))).collect(),
        _ if every > PICKS => (0..PICKS).map(|_| pick(random.below(every))).collect(),
        5..=10 => (0..every).map(pick).collect(),
        _ => {
            let mut picks: Vec<[u8; 4]> = (0..every).map(pick).collect();
            for at in 1..every {
                picks.swap(at, random.below(at + 1));
            }
            picks
        }
    }
}

/// What was lent: a book, calls, and an output of so many bytes.
#[derive(Clone, Debug)]
struct Lot {
    book: Vec<u8>,
    calls: Vec<u8>,
    room: usize,
}

impl Lot {
    /// Something about the book, the calls or the output that mostly refuses them.
    fn damage(&mut self, random: &mut Random) {
        // A book that was cut short stays so: the first eight are for the others.
        match random.between(if self.book.len() < 12 { 8 } else { 0 }, 15) {
            0 => self.book.truncate(random.below(12)),
            1 => self.book[random.one_of(&[1, 2, 5])] = random.one_of(&[0, 33, 255]),
            2 => self.book[3] = random.byte(),
            3 => self.book[random.between(6, 11)] ^= 1 << random.below(8),
            4 => self.book.push(random.byte()),
            // A byte of a mask or of a row.
            5..=7 => {
                let at = random.between(12, self.book.len() - 1);
                self.book[at] = random.one_of(&[0, 1, 2, 255, self.book[at] ^ 4]);
            }
            8 => self.calls.extend((0..random.between(1, 3)).map(|_| random.one_of(&[0, 1]))),
            9 => {
                let calls = random.between(CALLS + 1, CALLS + 9);
                self.calls = random.one_of(&[[1, 0, 0, 0], [2, 0, 0, 0], [1, 255, 0, 0]]).repeat(calls);
                self.room = random.one_of(&[self.room, calls]);
            }
            10..=13 => self.damage_a_call(random),
            _ => self.room = random.below(usize::max(1, self.calls.len() / 4)),
        }
    }

    /// A kind that is no assign, or a slot or type that the book lacks or that it may just have.
    fn damage_a_call(&mut self, random: &mut Random) {
        let calls = self.calls.len() / 4;
        if calls == 0 || self.book.len() < 3 {
            return;
        }
        let call = &mut self.calls[4 * random.below(calls)..][..4];
        match random.below(5) {
            0 => call[0] = random.one_of(&[0, 2, 3, 5, 7, 8, 129, 255]),
            1 => call[1] = random.one_of(&[self.book[2], self.book[2].wrapping_add(1), 32, 128, 255]),
            2 => call[2] = random.one_of(&[self.book[0].wrapping_sub(1), self.book[0], 128, 255]),
            3 => call[3] = random.one_of(&[1, 2, 128, 255]),
            _ => call.copy_from_slice(&[random.below(3) as u8, random.byte(), random.byte(), 0]),
        }
    }

    /// `probe_into` answers and writes as the plain filter does; what that gave.
    fn compare(&self, random: &mut Random, met: &mut Met) -> Result<Probes, u32> {
        let Lot { book, calls, room } = self;
        let (lent_book, lent_calls) = (book.clone(), calls.clone());
        let mut output = Lent::new(*room, random.below(256));
        let answer = probe_into(&lent_book, &lent_calls, output.output());
        let expected = plain_filter::probe(book, calls, *room);
        match &expected {
            Ok(probes) => {
                let verdict = if probes.live { Verdict::Live } else { Verdict::Dead };
                assert_eq!(answer, Ok(verdict), "{self:?}");
                output.assert_written(&probes.dead, self);
                met.count(if probes.live { "answered 0" } else { "answered 1" });
                met.count_if(*room > probes.dead.len(), "an output longer than the calls");
            }
            Err(number) => {
                assert_eq!(answer.map_err(|refusal| refusal.number()), Err(*number), "{self:?}");
                output.assert_written(&[], self);
                met.count(&format!("refused {number}"));
            }
        }
        // The bytes are read anew: a shared slice would let the compiler take them for unchanged.
        assert!(black_box(lent_book) == *book, "probe wrote to the book of {self:?}");
        assert!(black_box(lent_calls) == *calls, "probe wrote to the calls of {self:?}");
        expected
    }
}

#[test]
fn random_books_and_lists() {
    let mut random = Random::new(0x6a09_e667_f3bc_c908);
    let mut met = Met::default();
    for turn in 0..BOOKS {
        let book = with_idle(random_book(&mut random), turn / 16);
        assert_eq!(Book::parse(&bytes(&book)).as_ref(), Ok(&book), "the maker's book is a good one");
        let calls = picks(&mut random, &book, turn);
        let room = calls.len() + random.one_of(&[0, 0, 0, 1, 2, 40]);
        let lot = Lot { book: bytes(&book), calls: calls.concat(), room };
        let probes = lot.compare(&mut random, &mut met).expect("a good book and list");
        met.probes(&book, &calls, &probes);
        // Once more with one thing damaged, or two.
        let mut damaged = lot.clone();
        for _ in 0..random.between(1, 2) {
            damaged.damage(&mut random);
        }
        if let Err(number) = damaged.compare(&mut random, &mut met) {
            let dead = !probes.live && damaged.book == lot.book;
            met.count_if(dead && (11..=13).contains(&number), "a bad call on a dead book");
            met.count_if(dead && number == 9, "an output too short on a dead book");
        }
    }
    for (case, times) in &met.0 {
        println!("{times:7} {case}");
    }
    for case in cases() {
        let times = met.0.get(&case).copied().unwrap_or(0);
        assert!(times >= LEAST, "{times} times: {case}");
    }
}

/// Every plan of the book that begins with these types.
fn plans(book: &Book, begun: &[usize]) -> Vec<Vec<usize>> {
    let end = begun.len();
    let kept = book.rows.iter().filter(|row| row.end == end).all(|row| {
        let count = count(begun, row.board_type, end);
        row.lower <= count && row.upper.is_none_or(|upper| count <= upper)
    });
    if !kept {
        return Vec::new();
    }
    if end == book.n {
        return vec![begun.to_vec()];
    }
    let types = (0..book.k).filter(|v| book.masks[end] >> v & 1 == 1);
    types.flat_map(|v| plans(book, &[begun, &[v]].concat())).collect()
}

/// By the rows alone: a type that a plan has in a slot does not die there. By `settle`: a type that it struck from a
/// slot dies there. A menu is what does not die.
#[test]
fn no_plan_has_a_pick_that_dies() {
    let mut random = Random::new(0xbb67_ae85_84ca_a73b);
    let (mut planned, mut dying, mut less_than_settled, mut empty) = (0, 0, 0, 0);
    for turn in 0..6_000 {
        let (n, k) = [(1, 4), (3, 4), (4, 3), (6, 3), (8, 2), (5, 4)][turn % 6];
        let plan = plan(&mut random, n, k, 2);
        let (rows, slack, eighths) = (random.between(1, 2 * n), random.below(3), random.between(2, 8));
        let mut book = near_plan(&mut random, &plan, k, rows, slack);
        book.masks = masks_around(&mut random, &plan, k, eighths);
        if random.below(4) == 0 {
            let mask = random.between(1, every_type(k) as usize) as u32;
            book.masks[random.below(n)] = mask;
        }
        let lent = bytes(&book);
        let plans = plans(&book, &[]);
        let settled = settle(&lent).expect("a good book").unwrap_or(vec![0; n]);
        for slot in 0..n {
            let picks: Vec<(u16, u8)> = (0..k).map(|v| (slot as u16, v as u8)).collect();
            let dies = probe(&lent, &picks).expect("a good book and list");
            let living = (0..k).filter(|&v| !dies[v]).fold(0, |mask, v| mask | 1 << v);
            let in_plans = plans.iter().fold(0, |mask, plan| mask | 1 << plan[slot]);
            assert_eq!(menu(&lent, slot as u16), Ok(living), "slot {slot} of {book:?}");
            assert!(
                living & !settled[slot] == 0,
                "slot {slot} of {book:?}: {living:b} and {:b}",
                settled[slot]
            );
            assert!(in_plans & !living == 0, "slot {slot} of {book:?}: {living:b} and {in_plans:b}");
            planned += in_plans.count_ones();
            dying += dies.iter().filter(|&&dies| dies).count();
            less_than_settled += usize::from(living != settled[slot]);
            empty += usize::from(living == 0 && settled[slot] != 0);
        }
    }
    println!(
        "{planned} types of slots in plans, {dying} that die; {less_than_settled} menus with less than is settled, \
         {empty} of them empty"
    );
    assert!(planned >= 10_000 && dying >= 10_000 && less_than_settled >= LEAST);
}

/// Lists of as many calls as there may be, on 256 slots: of the book's picks some come again and again.
#[test]
fn longest_lists() {
    let mut random = Random::new(0x3c6e_f372_fe94_f82b);
    for (k, rows, slack, different) in
        [(2, 120, 1, 512), (3, 100, 2, 768), (6, 300, 1, 300), (32, 800, 1, 64)]
    {
        let plan = plan(&mut random, 256, k, 3);
        let mut book = near_plan(&mut random, &plan, k, rows, slack);
        book.masks = masks_around(&mut random, &plan, k, 5);
        let some = |random: &mut Random| assign(random.below(256), random.below(k));
        let calls: Vec<[u8; 4]> = if different == 256 * k {
            (0..different).map(|at| assign(at / k, at % k)).collect()
        } else {
            (0..different).map(|_| some(&mut random)).collect()
        };
        let probes = plain_filter::probe(&bytes(&book), &calls.concat(), different).expect("a good list");
        let dying = probes.dead.iter().filter(|&&byte| byte == 1).count();
        println!("{k} types: {dying} of {different} die");
        assert!(probes.live && dying >= 10 && different - dying >= 10);
        let drawn: Vec<usize> = (0..CALLS).map(|_| random.below(different)).collect();
        let list: Vec<u8> = drawn.iter().flat_map(|&at| calls[at]).collect();
        let dead: Vec<u8> = drawn.iter().map(|&at| probes.dead[at]).collect();
        let mut output = Lent::new(CALLS + random.below(9), random.below(256));
        assert_eq!(probe_into(&bytes(&book), &list, output.output()), Ok(Verdict::Live));
        output.assert_written(&dead, &k);
    }
}
