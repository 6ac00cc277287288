//! Random order books, for tests and the benchmark: the same seed gives the same books.
//!
//! - [`Random`]: the generator of numbers.
//! - [`plan`], [`count`]: a random plan, and how many of a type it has before an end.
//! - [`near_plan`]: a book whose rows lie near the counts of a plan.
//! - [`with_idle`]: a book with one of its types idle, or none.
//! - [`masks_around`]: masks that hold a plan, and more types or fewer.
//! - [`bytes`]: the bytes of a book.

use plain_filter::{Book, Row};

/// The xorshift generator of 64 bits, with the shifts 13, 7, 17.
pub struct Random(u64);

impl Random {
    /// # Panics
    ///
    /// If the seed is 0, which would give only zeros.
    pub fn new(seed: u64) -> Random {
        assert_ne!(seed, 0, "a seed of 0 gives only zeros");
        Random(seed)
    }

    /// 64 random bits.
    pub fn bits(&mut self) -> u64 {
        self.0 ^= self.0 << 13;
        self.0 ^= self.0 >> 7;
        self.0 ^= self.0 << 17;
        self.0
    }

    /// From 0 to `limit` - 1.
    pub fn below(&mut self, limit: usize) -> usize {
        ((self.bits() >> 16) % limit as u64) as usize
    }

    /// From `least` to `most`.
    pub fn between(&mut self, least: usize, most: usize) -> usize {
        least + self.below(most - least + 1)
    }

    pub fn one_of<T: Copy>(&mut self, choices: &[T]) -> T {
        choices[self.below(choices.len())]
    }

    pub fn byte(&mut self) -> u8 {
        self.below(256) as u8
    }
}

/// A type for each of n slots, in stretches of 1 to `longest` slots of one type.
pub fn plan(random: &mut Random, n: usize, k: usize, longest: usize) -> Vec<usize> {
    let mut plan = Vec::new();
    while plan.len() < n {
        let board_type = random.below(k);
        let stretch = random.between(1, longest);
        plan.extend(vec![board_type; stretch.min(n - plan.len())]);
    }
    plan
}

/// How many of the first `end` slots of the plan have the type.
pub fn count(plan: &[usize], board_type: usize, end: usize) -> usize {
    plan[..end].iter().filter(|&&slot| slot == board_type).count()
}

/// The mask of all of k types.
pub fn every_type(k: usize) -> u32 {
    u32::MAX >> (32 - k)
}

/// A row that the plan keeps: its lower is at most `slack` below the plan's count, and its upper at most
/// `slack` above it.
pub fn row_near_plan(
    random: &mut Random,
    plan: &[usize],
    board_type: usize,
    end: usize,
    slack: usize,
) -> Row {
    let count = count(plan, board_type, end);
    let lower = count.saturating_sub(random.below(slack + 1));
    let upper = count + random.below(slack + 1);
    Row { board_type, end, lower, upper: Some(upper.min(256)) }
}

/// A book with every type in every slot, none of them idle, and `rows` rows at random types and ends, each
/// kept by the plan with that slack.
pub fn near_plan(random: &mut Random, plan: &[usize], k: usize, rows: usize, slack: usize) -> Book {
    let n = plan.len();
    let rows = (0..rows)
        .map(|_| {
            let board_type = random.below(k);
            let end = random.between(1, n);
            row_near_plan(random, plan, board_type, end, slack)
        })
        .collect();
    Book { n, k, idle: None, masks: vec![every_type(k); n], rows }
}

/// The book with byte 3 at `number` modulo k + 1: no idle type, or one of its types.
pub fn with_idle(book: Book, number: usize) -> Book {
    let byte = number % (book.k + 1);
    Book { idle: byte.checked_sub(1), ..book }
}

/// For each slot the plan's type, and each other type in so many of eight cases.
pub fn masks_around(random: &mut Random, plan: &[usize], k: usize, eighths: usize) -> Vec<u32> {
    let with_others = |&board_type: &usize| {
        (0..k).filter(|&v| v == board_type || random.below(8) < eighths).fold(0, |mask, v| mask | 1 << v)
    };
    plan.iter().map(with_others).collect()
}

/// The bytes of the book. Each field is cut to its width; the counts are n, k and that of the rows, byte 3 is
/// 0 or the idle type plus 1, and offsets and length are those of the masks and rows.
pub fn bytes(book: &Book) -> Vec<u8> {
    let rows_at = 12 + 4 * book.masks.len();
    let length = rows_at + 8 * book.rows.len();
    let mut bytes = Vec::with_capacity(length);
    bytes.extend((book.n as u16).to_le_bytes());
    bytes.extend([book.k as u8, book.idle.map_or(0, |v| v + 1) as u8]);
    for field in [book.rows.len(), 12, rows_at, length] {
        bytes.extend((field as u16).to_le_bytes());
    }
    for mask in &book.masks {
        bytes.extend(mask.to_le_bytes());
    }
    for row in &book.rows {
        bytes.extend([row.board_type as u8, 0]);
        for field in [row.end, row.lower, row.upper.unwrap_or(65535)] {
            bytes.extend((field as u16).to_le_bytes());
        }
    }
    bytes
}
