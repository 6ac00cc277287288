//! Times `canonical_into` over `close_into` on the same books, in turn in one run: on tight random books, or on the
//! books NAME.book of a folder, `cargo run --release -p bench -- canonical FOLDER NAME..`. Both must answer and write
//! as the second filter does. A book whose canonical book would have more than 1,024 rows is refused, by 19, after it
//! is closed and its corners are counted; it is timed all the same.

use std::fs;
use std::time::{Duration, Instant};

use nested_gcc::{canonical_into, BOOK_BYTES};
use plain_filter::Book;
use random_books::Random;

use crate::{assert_same, random_tight_books, Contender, Outputs, BOOKS, CLOSE, SIZES};

const PASSES: usize = 501;

const CANONICAL: Contender = |book, outputs| {
    let answer = canonical_into(book, &mut outputs.book).map_err(|refusal| refusal.number());
    assert!(matches!(answer, Ok(Some(_)) | Err(19)), "{answer:?}");
};

/// How many rows the book has, and how many the canonical book has or would have.
fn rows(book: &[u8]) -> [usize; 2] {
    let proved = nested_gcc::canonical(book).map_err(|refusal| refusal.number());
    assert!(proved == plain_filter::canonical(book, BOOK_BYTES), "the second filter answers otherwise");
    let book = Book::parse(book).expect("a good book");
    let table = plain_filter::close(&book).table.expect("a live book");
    [book.rows.len(), plain_filter::canonical_rows(&table).len()]
}

/// The mean over the books of the least time that each contender takes for one, in microseconds. The contenders take
/// turns at each book, and the books at each pass.
fn least_times(books: &[Vec<u8>]) -> [f64; 2] {
    let mut outputs = Outputs::new();
    let mut least = vec![[Duration::MAX; 2]; books.len()];
    for _ in 0..PASSES {
        for (book, least) in books.iter().zip(&mut least) {
            for (contender, least) in [CLOSE.proved, CANONICAL].iter().zip(least) {
                let begin = Instant::now();
                contender(book, &mut outputs);
                *least = begin.elapsed().min(*least);
            }
        }
    }
    [0, 1].map(|i| least.iter().map(|least| least[i].as_secs_f64() * 1e6).sum::<f64>() / books.len() as f64)
}

/// Prints the line of these books, and gives the ratio.
fn run_books(name: &str, books: &[Vec<u8>]) -> f64 {
    assert_same(&CLOSE, books);
    let rows: Vec<[usize; 2]> = books.iter().map(|book| rows(book)).collect();
    let [had, have] = [0, 1].map(|i| rows.iter().map(|rows| rows[i]).sum::<usize>());
    let refused = rows.iter().filter(|rows| rows[1] > 1024).count();
    let [close, canonical] = least_times(books);
    let ratio = canonical / close;
    println!("{name:18} {had:>8} {have:>15} {refused:>14} {close:>8.1} {canonical:>10.1} {ratio:>16.2}");
    ratio
}

fn print_head(books: &str) {
    println!("{books} in microseconds, and ratios");
    println!(
        "{:18} {:>8} {:>15} {:>14} {:>8} {:>10} {:>16}",
        "", "rows", "canonical rows", "refused by 19", "close", "canonical", "canonical/close"
    );
}

pub fn run() {
    print_head(&format!(
        "{BOOKS} tight live books of each size: all their rows, the mean of their least times"
    ));
    let mut random = Random::new(0x51ed_270b_9f3a_c84d);
    for size in SIZES {
        let books = random_tight_books(&mut random, size);
        run_books(&format!("canonical {}x{}", size.0, size.1), &books);
    }
}

pub fn run_files(folder: &str, names: &[String]) {
    print_head("books of files: rows, least times");
    let mut logs = 0.0;
    for name in names {
        let path = format!("{folder}/{name}.book");
        let book = fs::read(&path).unwrap_or_else(|error| panic!("{path}: {error}"));
        logs += run_books(name, &[book]).ln() / names.len() as f64;
    }
    println!("{:18} {:>76.2}", "geometric mean", logs.exp());
}
