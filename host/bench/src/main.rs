//! Times the proved filter against plain ones, on the same random books in one run:
//! `cargo run --release -p bench`, or with `-- close`, `-- settle`, `-- session`, `-- canonical` or `-- import` for one
//! of them; canonical is timed over close (see `canonical.rs`), also on books from files with `-- canonical FOLDER
//! NAME..`. With `-- replay FOLDER NAME..` it replays call scripts from files (see `replay.rs`). It prints ratios of
//! medians, of canonical and import those of least times; the times beside them are this machine's, at this moment.

mod bounds;
mod canonical;
mod engine;
mod import;
mod in_place;
mod lanes;
mod opening;
mod replay;
mod session;

use std::env;
use std::time::Instant;

use bounds::Closing;
use nested_gcc::{close_into, settle_into, Verdict, BOOK_BYTES, MASKS_BYTES, TABLE_BYTES};
use plain_filter::Book;
use random_books::{bytes, masks_around, near_plan, plan, row_near_plan, Random};

/// Slots, types, and the distance of the ends that have rows.
const SIZES: [(usize, usize, usize); 3] = [(96, 8, 4), (192, 16, 4), (256, 32, 8)];
const BOOKS: usize = 10;
/// How often each contender goes through all books of a size.
const PASSES: usize = 101;
const NAIVE_PASSES: usize = 3;

/// A book around a plan that changes its type after a slot or two: a row for each type at every so many
/// slots, at most one off the plan's count, and masks with a quarter of the other types.
fn tight_book(random: &mut Random, n: usize, k: usize, distance: usize) -> Book {
    let plan = plan(random, n, k, 2);
    let mut book = near_plan(random, &plan, k, 0, 0);
    book.masks = masks_around(random, &plan, k, 2);
    for end in (distance..=n).step_by(distance) {
        for board_type in 0..k {
            book.rows.push(row_near_plan(random, &plan, board_type, end, 1));
        }
    }
    book
}

fn random_tight_books(random: &mut Random, (n, k, distance): (usize, usize, usize)) -> Vec<Vec<u8>> {
    (0..BOOKS).map(|_| bytes(&tight_book(random, n, k, distance))).collect()
}

/// What the contenders write.
#[derive(PartialEq)]
struct Outputs {
    lowers: Vec<u8>,
    uppers: Vec<u8>,
    masks: Vec<u8>,
    book: Vec<u8>,
}

impl Outputs {
    fn new() -> Outputs {
        let [lowers, uppers, masks, book] =
            [TABLE_BYTES, TABLE_BYTES, MASKS_BYTES, BOOK_BYTES].map(|length| vec![0; length]);
        Outputs { lowers, uppers, masks, book }
    }
}

type Contender = fn(&[u8], &mut Outputs);

/// Four ways to do one thing: proved; plain with the tables in the layout of the entry; plain with the types of
/// one end side by side; and by the rules word for word.
struct Contest {
    name: &'static str,
    proved: Contender,
    in_place: Contender,
    lanes: Contender,
    naive: Contender,
}

fn close_plain(closing: Closing, book: &[u8], outputs: &mut Outputs) -> u32 {
    bounds::close_into(closing, book, &mut outputs.lowers, &mut outputs.uppers)
}

fn settle_plain(closing: Closing, book: &[u8], outputs: &mut Outputs) -> u32 {
    opening::settle_into(closing, book, &mut outputs.masks)
}

const CLOSE: Contest = Contest {
    name: "close",
    proved: |book, outputs| {
        assert_eq!(close_into(book, &mut outputs.lowers, &mut outputs.uppers), Ok(Verdict::Live));
    },
    in_place: |book, outputs| {
        assert_eq!(close_plain(in_place::close, book, outputs), 0);
    },
    lanes: |book, outputs| {
        assert_eq!(close_plain(lanes::close, book, outputs), 0);
    },
    naive: |book, outputs| {
        let book = Book::parse(book).expect("a good book");
        let table = plain_filter::close(&book).table.expect("a live book");
        for (bounds, output) in [(&table.lower, &mut outputs.lowers), (&table.upper, &mut outputs.uppers)] {
            for (bound, bytes) in bounds.iter().flatten().zip(output.chunks_exact_mut(2)) {
                bytes.copy_from_slice(&(*bound as u16).to_le_bytes());
            }
        }
    },
};

/// Settling has closing in it.
const SETTLE: Contest = Contest {
    name: "settle",
    proved: |book, outputs| assert_eq!(settle_into(book, &mut outputs.masks), Ok(Verdict::Live)),
    in_place: |book, outputs| assert_eq!(settle_plain(in_place::close, book, outputs), 0),
    lanes: |book, outputs| assert_eq!(settle_plain(lanes::close, book, outputs), 0),
    naive: |book, outputs| {
        let book = Book::parse(book).expect("a good book");
        let masks = plain_filter::settle(&book).masks.expect("a live book");
        for (mask, bytes) in masks.iter().zip(outputs.masks.chunks_exact_mut(4)) {
            bytes.copy_from_slice(&mask.to_le_bytes());
        }
    },
};

/// The median time that each contender takes for a book, in microseconds. The contenders take turns at each
/// book.
fn medians<const N: usize>(contenders: [Contender; N], books: &[Vec<u8>], passes: usize) -> [f64; N] {
    let mut outputs = Outputs::new();
    let mut times = [(); N].map(|()| Vec::new());
    for book in books.iter().cycle().take(passes * books.len()) {
        for (contender, times) in contenders.iter().zip(&mut times) {
            let begin = Instant::now();
            contender(book, &mut outputs);
            times.push(begin.elapsed());
        }
    }
    times.map(|mut times| {
        times.sort();
        times[times.len() / 2].as_secs_f64() * 1e6
    })
}

/// All contenders write the same.
fn assert_same(contest: &Contest, books: &[Vec<u8>]) {
    for book in books {
        let contenders = [contest.proved, contest.in_place, contest.lanes, contest.naive];
        let outputs = contenders.map(|contender| {
            let mut outputs = Outputs::new();
            contender(book, &mut outputs);
            outputs
        });
        assert!(outputs.iter().all(|other| *other == outputs[0]), "the contenders differ");
    }
}

/// Times close and settle, those that are asked for.
fn run_contests(asked: impl Fn(&str) -> bool) {
    println!("{BOOKS} tight live books of each size; median time of a book in microseconds, and ratios");
    println!(
        "{:14} {:>8} {:>9} {:>7} {:>9} {:>16} {:>13} {:>13}",
        "", "proved", "in place", "lanes", "naive", "proved/in place", "proved/lanes", "proved/naive"
    );
    for contest in [CLOSE, SETTLE].into_iter().filter(|contest| asked(contest.name)) {
        let mut random = Random::new(0x51ed_270b_9f3a_c84d);
        for size in SIZES {
            let books = random_tight_books(&mut random, size);
            assert_same(&contest, &books);
            let [proved, in_place, lanes] =
                medians([contest.proved, contest.in_place, contest.lanes], &books, PASSES);
            let [naive] = medians([contest.naive], &books, NAIVE_PASSES);
            println!(
                "{:14} {proved:>8.1} {in_place:>9.1} {lanes:>7.1} {naive:>9.1} {:>16.2} {:>13.2} {:>13.4}",
                format!("{} {}x{}", contest.name, size.0, size.1),
                proved / in_place,
                proved / lanes,
                proved / naive,
            );
        }
    }
}

fn main() {
    let arguments: Vec<String> = env::args().skip(1).collect();
    if let [mode, folder, names @ ..] = arguments.as_slice() {
        match mode.as_str() {
            "replay" if !names.is_empty() => return replay::run(folder, names),
            "canonical" if !names.is_empty() => return canonical::run_files(folder, names),
            _ => {}
        }
    }
    let only = arguments.first();
    let asked = |name: &str| only.is_none_or(|only| only == name);
    if asked(CLOSE.name) || asked(SETTLE.name) {
        run_contests(asked);
    }
    if asked("session") {
        session::run();
    }
    if asked("canonical") {
        canonical::run();
    }
    if asked("import") {
        import::run();
    }
}

#[cfg(test)]
mod tests {
    use super::*;
    use plain_filter::Row;

    /// The plain contenders answer and write as the plain filter does, for live and for dead books.
    #[test]
    fn plain_contenders_are_right() {
        let mut random = Random::new(0x1f83_d9ab_fb41_bd6b);
        let mut met = [[0; 2]; 2];
        for _ in 0..3000 {
            let (n, k) = (random.between(1, 16), random.between(1, 20));
            let mut book = tight_book(&mut random, n, k, 3);
            let (board_type, end) = (random.below(k), random.between(1, n));
            let (lower, upper) = random.one_of(&[(0, None), (1, None), (0, Some(0)), (0, Some(2))]);
            book.rows.push(Row { board_type, end, lower, upper });
            let slot = random.below(n);
            book.masks[slot] = 1 << random.below(k);
            let table = plain_filter::close(&book).table;
            let masks = plain_filter::settle(&book).masks;
            met[0][usize::from(table.is_none())] += 1;
            met[1][usize::from(masks.is_err())] += 1;

            for closing in [in_place::close as Closing, lanes::close] {
                let mut outputs = Outputs::new();
                let answer = close_plain(closing, &bytes(&book), &mut outputs);
                assert_eq!(answer, u32::from(table.is_none()), "{book:?}");
                if let Some(table) = &table {
                    for (bounds, output) in [(&table.lower, &outputs.lowers), (&table.upper, &outputs.uppers)]
                    {
                        let bounds: Vec<u8> =
                            bounds.concat().iter().flat_map(|&bound| (bound as u16).to_le_bytes()).collect();
                        assert_eq!(output[..bounds.len()], bounds, "{book:?}");
                    }
                }
                let answer = settle_plain(closing, &bytes(&book), &mut outputs);
                assert_eq!(answer, u32::from(masks.is_err()), "{book:?}");
                if let Ok(masks) = &masks {
                    let masks: Vec<u8> = masks.iter().flat_map(|mask| mask.to_le_bytes()).collect();
                    assert_eq!(outputs.masks[..masks.len()], masks, "{book:?}");
                }
            }
        }
        println!("live and dead in closing, then in settling: {met:?}");
        assert!(met.iter().flatten().all(|&books| books >= 300), "{met:?}");
    }
}
