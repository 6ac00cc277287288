//! Times `import_csv`: a text against one of half its length, both refused at their ends, so that every byte is looked
//! at and no book is written; and texts of the largest book against the plain second import.

use std::time::{Duration, Instant};

use nested_gcc::{import_csv_into, BOOK_BYTES};
use plain_filter::Book;
use random_books::{near_plan, plan, Random};

const PASSES: usize = 31;
const MIB: usize = 1 << 20;
const LINE_END: &str = "\r\n";

/// How the fields of a text are written.
#[derive(Clone, Copy)]
enum Fields {
    Bare,
    /// All quoted, and with five digits each.
    Longest,
    /// Some quoted, some with leading zeros.
    Mixed,
}

impl Fields {
    fn write(self, random: &mut Random, number: usize) -> String {
        let (quoted, width) = match self {
            Fields::Bare => (false, 1),
            Fields::Longest => (true, 5),
            Fields::Mixed => (random.below(2) == 0, random.between(1, 5)),
        };
        let quote = if quoted { "\"" } else { "" };
        format!("{quote}{number:0width$}{quote}")
    }
}

/// A book of 256 slots, 32 types and 1,024 rows around a plan.
fn largest_book(random: &mut Random) -> Book {
    let plan = plan(random, 256, 32, 4);
    let mut book = near_plan(random, &plan, 32, 1024, 3);
    for row in &mut book.rows {
        if random.below(4) == 0 {
            row.upper = None;
        }
    }
    book
}

/// The book's records, each with its line end; an upper that is none is empty.
fn records(random: &mut Random, book: &Book, fields: Fields) -> Vec<String> {
    let mut records = vec![[book.n, book.k].map(|number| fields.write(random, number)).join(",") + LINE_END];
    for row in &book.rows {
        let three = [row.board_type, row.end, row.lower].map(|number| fields.write(random, number)).join(",");
        let upper = row.upper.map_or(String::new(), |upper| fields.write(random, upper));
        records.push(three + "," + &upper + LINE_END);
    }
    records
}

/// The records over and over, as many as make at most so many bytes.
fn long_text(records: &[String], bytes: usize) -> String {
    let mut text = records[0].clone();
    for record in records[1..].iter().cycle() {
        if text.len() + record.len() > bytes {
            break;
        }
        text += record;
    }
    text
}

/// The least time of each, in nanoseconds; they take turns.
fn least_times(mut contenders: [&mut dyn FnMut(); 2]) -> [f64; 2] {
    let mut least = [Duration::MAX; 2];
    for _ in 0..PASSES {
        for (contender, least) in contenders.iter_mut().zip(&mut least) {
            let begin = Instant::now();
            contender();
            *least = begin.elapsed().min(*least);
        }
    }
    least.map(|time| time.as_secs_f64() * 1e9)
}

/// A text of 4 MiB against one of 2 MiB, both refused by the number.
fn run_long(name: &str, number: u32, texts: [String; 2]) {
    let import = |text: &str| {
        let answer = import_csv_into(text.as_bytes(), &mut [0; BOOK_BYTES]);
        assert_eq!(answer.map_err(|refusal| refusal.number()), Err(number));
    };
    for text in &texts {
        assert_eq!(plain_filter::import_csv(text.as_bytes(), BOOK_BYTES), Err(number));
    }
    let [short, long] = least_times([&mut || import(&texts[0]), &mut || import(&texts[1])]);
    let bytes = texts[1].len() as f64;
    println!("{:48} {:>8.2} {:>8.2}", format!("{name}, 4 MiB/2 MiB"), long / bytes, long / short);
}

/// A text of the largest book against the plain import.
fn run_largest(name: &str, book: &Book, text: &str) {
    let text = text.as_bytes();
    let (mut proved, mut plain) = (vec![0; BOOK_BYTES], Vec::new());
    let [proved_time, plain_time] =
        least_times([&mut || assert_eq!(import_csv_into(text, &mut proved), Ok(BOOK_BYTES)), &mut || {
            plain = plain_filter::import_csv(text, BOOK_BYTES).expect("a good text")
        }]);
    assert!(proved == plain && proved == random_books::bytes(book), "the contenders differ");
    let bytes = text.len() as f64;
    let ratio = proved_time / plain_time;
    println!("{:48} {:>8.2} {ratio:>8.2}", format!("{name}, proved/plain"), proved_time / bytes);
}

pub fn run() {
    let mut random = Random::new(0x3c6e_f372_fe94_f82b);
    println!("least times of {PASSES} runs: nanoseconds a byte of the text, and ratios");
    println!("{:48} {:>8} {:>8}", "", "proved", "ratio");
    for (name, fields) in [("bare", Fields::Bare), ("longest", Fields::Longest), ("mixed", Fields::Mixed)] {
        let book = largest_book(&mut random);
        let records = records(&mut random, &book, fields);
        // More than 1,024 rows.
        let texts = [2 * MIB, 4 * MIB].map(|bytes| long_text(&records, bytes));
        run_long(&format!("import, {name} fields"), 2, texts);
        run_largest(&format!("import, {name} fields"), &book, &records.concat());
    }
    let texts = [2 * MIB, 4 * MIB].map(|bytes| ",".repeat(bytes));
    run_long("import, one record of empty fields", 18, texts);
    let texts = [2 * MIB, 4 * MIB].map(|bytes| "\"".repeat(bytes));
    run_long("import, one field of quotes", 18, texts);
}
