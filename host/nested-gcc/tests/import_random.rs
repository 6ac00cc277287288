//! CSV texts, all the short ones and random ones, good and damaged: `import_csv` answers and writes as the plain second
//! import does, and touches nothing else. The book that it writes is the one that the records say.

mod lent;

use std::collections::BTreeMap;
use std::fmt;
use std::hint::black_box;

use lent::Lent;
use nested_gcc::{check, close, import_csv, import_csv_into, settle, BOOK_BYTES};
use plain_filter::{Book, Row};
use random_books::{bytes, every_type, near_plan, plan, Random};

/// What texts are made of: a digit, what has a part in fields and records, and another byte.
const ALPHABET: [u8; 6] = *b"1,\"\r\nx";
/// The same with all digits.
const WIDE_ALPHABET: [u8; 15] = *b"0123456789,\"\r\nx";
const TEXTS: usize = 60_000;
const ROUND_TRIPS: usize = 6_000;
/// How often each number comes up at least.
const LEAST: usize = 500;

/// A text as it is shown where it is at fault.
struct Shown<'a>(&'a [u8]);

impl fmt::Debug for Shown<'_> {
    fn fmt(&self, f: &mut fmt::Formatter<'_>) -> fmt::Result {
        write!(f, "b\"{}\"", self.0.escape_ascii())
    }
}

/// Imports the text into an output of that length: answer and output are those of the plain import, and the text
/// is kept. The number, 0 for a good text.
fn assert_imports(text: &[u8], length: usize, seed: usize) -> u32 {
    let (mut lent, mut book) = (Lent::new(text.len(), seed / 4), Lent::new(length, seed));
    lent.output().copy_from_slice(text);
    let answer = import_csv_into(lent.output(), book.output()).map_err(|refusal| refusal.number());
    let expected = plain_filter::import_csv(text, length);
    let case = (Shown(text), length);
    assert_eq!(answer, expected.as_ref().map(Vec::len).map_err(|&number| number), "{case:?}");
    book.assert_written(expected.as_deref().unwrap_or_default(), &case);
    // The bytes are read anew: a shared slice would let the compiler take them for unchanged.
    black_box(&mut lent).assert_written(text, &case);
    expected.err().unwrap_or(0)
}

/// How often each number came up.
#[derive(Default)]
struct Met(BTreeMap<u32, usize>);

impl Met {
    fn add(&mut self, number: u32) {
        *self.0.entry(number).or_default() += 1;
    }

    fn of(&self, number: u32) -> usize {
        self.0.get(&number).copied().unwrap_or(0)
    }

    fn all(&self) -> usize {
        self.0.values().sum()
    }
}

/// Every text of up to so many bytes of the alphabet.
fn every_text(most: usize) -> Vec<Vec<u8>> {
    let mut texts = vec![Vec::new()];
    let mut longest = texts.clone();
    for _ in 0..most {
        longest =
            longest.iter().flat_map(|text| ALPHABET.map(|byte| [&text[..], &[byte]].concat())).collect();
        texts.extend_from_slice(&longest);
    }
    texts
}

/// 1 + 6 + 36 + 216 + 1,296 + 7,776 texts.
///
/// Eight are good, for books without rows. With one slot, so 16 bytes: `1,1` bare, with a line end, with either field
/// quoted; and `1,11`. With 11 slots, so 56 bytes: `11,1` and `11,11`. With 111, so 456 bytes: `111,1`. And `1,111` has
/// too many types.
#[test]
fn every_short_text() {
    let texts = every_text(5);
    assert_eq!(texts.len(), 9_331);
    for (length, good) in
        [(0, 0), (15, 0), (16, 5), (23, 5), (24, 5), (40, 5), (64, 7), (456, 8), (BOOK_BYTES, 8)]
    {
        let mut met = Met::default();
        for (turn, text) in texts.iter().enumerate() {
            met.add(assert_imports(text, length, turn));
        }
        println!("{length} bytes, texts of each number: {:?}", met.0);
        assert_eq!((met.all(), met.of(0), met.of(9), met.of(2)), (9_331, good, 8 - good, 1));
        assert_eq!(met.of(17) + met.of(18), 9_331 - 8 - 1);
    }
}

/// One slot and one type, and a row cut after its end, which is 1: then each of 46,656 + 9,331 texts.
///
/// Such a text is good if it is a comma, a lower, a comma, an upper and perhaps a line end; 4 bytes are left beside
/// the commas. A lower of 1 leaves 3, of which an upper takes 0 to 3 in six ways (none, `""`, `1`, `11`, `111`,
/// `"1"`), or, before a line end, 0 or 1 in two. 11 leaves 2: four ways, or one before a line end. 111, and `"1"`,
/// leave 1: two ways each. `"11"` leaves 0: one way. So 8 + 5 + 2 + 2 + 1 are good. A lower of 1111 leaves 0: one
/// text is refused by 8.
///
/// More digits make the end too large. One leaves 3 bytes for the rest: five ways with a lower of 1, two with 11,
/// and one each with 111 and `"1"`. Two digits leave 2: two ways with 1, one with 11. Three leave 1: one way. So 13
/// are refused by 7.
#[test]
fn every_end_of_a_row() {
    let tails = every_text(6);
    assert_eq!(tails.len(), 55_987);
    for length in [23, 24, 31] {
        let mut met = Met::default();
        for (turn, tail) in tails.iter().enumerate() {
            met.add(assert_imports(&[b"1,1\r\n0,1", &tail[..]].concat(), length, turn));
        }
        println!("{length} bytes, texts of each number: {:?}", met.0);
        let good = if length < 24 { 0 } else { 18 };
        assert_eq!((met.all(), met.of(0), met.of(9), met.of(8), met.of(7)), (55_987, good, 18 - good, 1, 13));
        assert_eq!(met.of(17) + met.of(18), 55_987 - 18 - 1 - 13);
    }
}

/// Two rows, with fields bare and quoted, an upper and none, and a last line end: 31 bytes for a book of 40.
const GOOD: &[u8] = b"3,2\r\n\"0\",2,256,\r\n1,\"03\",0,\"2\"\r\n";

/// Each byte in turn replaced by each byte, or gone; and each byte put in at each place.
#[test]
fn a_good_text_damaged_at_one_place() {
    assert_eq!((GOOD.len(), assert_imports(GOOD, 40, 0), assert_imports(GOOD, 39, 0)), (31, 0, 9));
    let mut met = Met::default();
    for at in 0..=GOOD.len() {
        let (before, after) = GOOD.split_at(at);
        for byte in 0..=255 {
            met.add(assert_imports(&[before, &[byte], after].concat(), 64, at));
            if let Some(after) = after.get(1..) {
                met.add(assert_imports(&[before, &[byte], after].concat(), 64, at));
            }
        }
        if let Some(after) = after.get(1..) {
            met.add(assert_imports(&[before, after].concat(), 64, at));
        }
    }
    println!("texts of each number: {:?}", met.0);
    assert_eq!(met.all(), 32 * 256 + 31 * 256 + 31);
    for (number, least) in [(0, 100), (2, 5), (6, 5), (7, 5), (8, 5), (17, 100), (18, 100)] {
        assert!(met.of(number) >= least, "{number}: {} times", met.of(number));
    }
}

/// Each two bytes in turn replaced by each two of the wide alphabet: 31 * 30 / 2 places, 225 texts each.
#[test]
fn a_good_text_damaged_at_two_places() {
    let mut met = Met::default();
    let mut text = GOOD.to_vec();
    for first in 0..GOOD.len() {
        for second in first + 1..GOOD.len() {
            for a in WIDE_ALPHABET {
                for b in WIDE_ALPHABET {
                    (text[first], text[second]) = (a, b);
                    met.add(assert_imports(&text, 44, first + second));
                }
            }
            text[second] = GOOD[second];
        }
        text[first] = GOOD[first];
    }
    println!("texts of each number: {:?}", met.0);
    assert_eq!(met.all(), 104_625);
    for (number, least) in [(0, 1000), (2, 100), (6, 100), (7, 100), (8, 10), (17, 1000), (18, 1000)] {
        assert!(met.of(number) >= least, "{number}: {} times", met.of(number));
    }
}

/// What a text orders: numbers as they are to be written, in range or not.
#[derive(Clone, Debug)]
struct Orders {
    slots: usize,
    types: usize,
    /// Type, end, lower and upper.
    rows: Vec<([usize; 3], Option<usize>)>,
}

impl Orders {
    fn of(book: &Book) -> Orders {
        let rows = book.rows.iter().map(|row| ([row.board_type, row.end, row.lower], row.upper)).collect();
        Orders { slots: book.n, types: book.k, rows }
    }
}

/// A good book with every type in every slot. A large one has about 256 slots and 32 types, and up to 1,024 rows.
fn good_book(random: &mut Random, large: bool) -> Book {
    let (n, k) = match large {
        true => (random.between(250, 256), random.between(30, 32)),
        false => (random.between(1, 12), random.one_of(&[1, 2, 3, 4, 5, 31, 32])),
    };
    let rows = if large { random.one_of(&[0, 1_020, 1_023, 1_024]) } else { random.below(9) };
    let (stretch, slack) = (random.between(1, 3), random.below(4));
    let plan = plan(random, n, k, stretch);
    let mut book = near_plan(random, &plan, k, rows, slack);
    for row in &mut book.rows {
        match random.below(12) {
            0..=3 => row.upper = None,
            4 => row.lower = random.one_of(&[0, row.end, usize::min(row.end + 1, 256), 256]),
            5 => row.upper = random.one_of(&[Some(0), Some(row.end), Some(256)]),
            _ => {}
        }
    }
    book
}

/// One number set to a limit, or past it.
fn past_a_limit(random: &mut Random, orders: &mut Orders) {
    let Orders { slots, types, .. } = *orders;
    let counts = [0, 1, 255, 256, 257, 65_535, 65_536, 65_537, 65_792, 99_999];
    let at = random.below(orders.rows.len() + 1);
    match orders.rows.get_mut(at) {
        None if random.below(2) == 0 => orders.slots = random.one_of(&counts),
        None => orders.types = random.one_of(&[0, 1, 31, 32, 33, 256, 257, 288, 65_537]),
        Some((row, upper)) => match random.below(4) {
            0 => row[0] = random.one_of(&[0, types - 1, types, types + 1, 255, 256, 65_536, 99_999]),
            1 => row[1] = random.one_of(&[0, 1, slots, slots + 1, 256, 257, 65_536, 65_537, 99_999]),
            2 => row[2] = random.one_of(&counts),
            _ => *upper = Some(random.one_of(&[0, 256, 257, 65_534, 65_535, 65_536, 65_537, 99_999])),
        },
    }
}

/// How a text is written: in so many of eight cases a field is quoted, has leading zeros.
struct Style {
    quoted: usize,
    zeros: usize,
}

impl Style {
    fn new(random: &mut Random) -> Style {
        Style { quoted: random.one_of(&[0, 0, 1, 4, 8]), zeros: random.one_of(&[0, 0, 1, 4, 8]) }
    }

    fn field(&self, random: &mut Random, number: Option<usize>) -> String {
        let width = if random.below(8) < self.zeros { random.between(1, 5) } else { 1 };
        let content = number.map_or(String::new(), |number| format!("{number:0width$}"));
        if random.below(8) < self.quoted {
            format!("\"{content}\"")
        } else {
            content
        }
    }

    /// An upper that is none is mostly empty, else 65535.
    fn text(&self, random: &mut Random, orders: &Orders) -> Vec<u8> {
        let mut records = vec![vec![Some(orders.slots), Some(orders.types)]];
        for &(row, upper) in &orders.rows {
            let none = if random.below(4) == 0 { Some(65_535) } else { None };
            records.push(vec![Some(row[0]), Some(row[1]), Some(row[2]), upper.or(none)]);
        }
        let mut lines: Vec<String> = Vec::new();
        for record in records {
            let fields: Vec<String> = record.into_iter().map(|number| self.field(random, number)).collect();
            lines.push(fields.join(","));
        }
        if random.below(2) == 0 {
            lines.push(String::new());
        }
        lines.join("\r\n").into_bytes()
    }
}

/// A text changed at one place, mostly not for the better.
fn damage(random: &mut Random, text: &mut Vec<u8>) {
    let at = random.below(text.len() + 1);
    let stretch = at..usize::min(at + random.between(1, 8), text.len());
    let line_ends: Vec<usize> = (1..text.len()).filter(|&at| text[at - 1..=at] == *b"\r\n").collect();
    match random.below(9) {
        0 if at < text.len() => text[at] ^= 1 << random.below(8),
        1 if at < text.len() => text[at] = random.one_of(&WIDE_ALPHABET),
        2 => text.insert(at, random.one_of(&WIDE_ALPHABET)),
        3 => text.truncate(at),
        4 => drop(text.drain(stretch)),
        5 => {
            let again = text[stretch].to_vec();
            text.splice(at..at, again);
        }
        6 if !line_ends.is_empty() => {
            let end = random.one_of(&line_ends);
            let other =
                random.one_of(&["\n", "\r", "\n\r", "\r\r\n", "\r\n\n", "\r\n\r\n", "", ",", "\"\r\n\""]);
            text.splice(end - 1..=end, other.bytes());
        }
        7 => text.extend(random.one_of(&["\r\n", "\r", "\n", "\"", ",", "0", "\0", " "]).bytes()),
        _ => {
            let more =
                random.one_of(&["\"\"", "\"1\"", ",\"\",", "000", ",", "\"", " ", "\t", "\u{fc}", "\0"]);
            text.splice(at..at, more.bytes());
        }
    }
}

/// So many bytes of the wide alphabet, a line end for each carriage return in most cases.
fn random_text(random: &mut Random) -> Vec<u8> {
    let mut text = Vec::new();
    for _ in 0..random.below(24) {
        match random.one_of(&WIDE_ALPHABET) {
            b'\r' if random.below(4) > 0 => text.extend(b"\r\n"),
            byte => text.push(byte),
        }
    }
    text
}

/// The length of an output: that of the book, somewhat less or more, or that of the largest book.
fn output_length(random: &mut Random, text: &[u8]) -> usize {
    let needed = plain_filter::import_csv(text, BOOK_BYTES).map_or(40, |book| book.len());
    match random.below(8) {
        0 => needed - random.between(1, 12),
        1 => random.below(needed),
        2 => BOOK_BYTES,
        3 => needed + random.below(12),
        _ => needed,
    }
}

#[test]
fn random_texts() {
    let mut random = Random::new(0xa54f_f53a_5f1d_36f1);
    let mut met = Met::default();
    let (mut large_good, mut too_many_rows) = (0, 0);
    for turn in 0..TEXTS {
        let large = turn % 64 < 2;
        let mut orders = Orders::of(&good_book(&mut random, large));
        match random.below(8) {
            0..=2 => past_a_limit(&mut random, &mut orders),
            3 if large => {
                let row = orders.rows.first().copied().unwrap_or(([0, 1, 0], None));
                orders.rows = vec![row; random.between(1_023, 1_030)];
            }
            _ => {}
        }
        let mut text = Style::new(&mut random).text(&mut random, &orders);
        match random.below(16) {
            0..=6 => (0..random.one_of(&[1, 1, 1, 2, 4])).for_each(|_| damage(&mut random, &mut text)),
            7 => text = random_text(&mut random),
            _ => {}
        }
        let length = output_length(&mut random, &text);
        let number = assert_imports(&text, length, turn);
        met.add(number);
        large_good += usize::from(large && number == 0 && length >= 8_000);
        too_many_rows += usize::from(number == 2 && orders.rows.len() > 1_024);
    }
    println!("texts of each number: {:?}", met.0);
    println!("{large_good} good of 1,020 rows or so, {too_many_rows} of more than 1,024 rows");
    for number in [0, 2, 6, 7, 8, 9, 17, 18] {
        assert!(met.of(number) >= LEAST, "{number}: {} times", met.of(number));
    }
    assert_eq!(met.0.len(), 8);
    assert!(large_good >= LEAST / 5 && too_many_rows >= LEAST / 10, "{large_good}, {too_many_rows}");
}

/// The book of the orders, through the crate's own writer.
fn book_of(orders: &Orders) -> Vec<u8> {
    let book = nested_gcc::Book::new(orders.slots as u16, orders.types as u8);
    let with_row = |book: nested_gcc::Book,
                    &([board_type, end, lower], upper): &([usize; 3], Option<usize>)| {
        book.row(board_type as u8, end as u16, lower as u16, upper.map(|upper| upper as u16))
    };
    orders.rows.iter().fold(book, with_row).to_bytes()
}

/// What good orders say, however they are written: the imported book is that of the crate's own writer, and check,
/// close and settle answer on it as the plain filter does on the orders.
#[test]
fn round_trips() {
    let mut random = Random::new(0x510e_527f_ade6_82d1);
    let (mut met, mut without_rows, mut large) = ([[0; 2]; 2], 0, 0);
    for turn in 0..ROUND_TRIPS {
        let book = good_book(&mut random, turn % 200 == 1);
        assert_eq!(Book::parse(&bytes(&book)).as_ref(), Ok(&book), "the maker's book is a good one");
        let orders = Orders::of(&book);
        let text = Style::new(&mut random).text(&mut random, &orders);
        let imported = import_csv(&text).unwrap_or_else(|refusal| panic!("{:?}: {refusal}", Shown(&text)));
        assert_eq!(imported, book_of(&orders), "{:?}", Shown(&text));
        assert_eq!(imported, bytes(&book), "{:?}", Shown(&text));
        assert_eq!((book.idle, imported[3]), (None, 0));
        assert_eq!(book.masks, vec![every_type(book.k); book.n]);
        assert_eq!(check(&imported), Ok(()));

        let closed = plain_filter::close(&book).table;
        let table = close(&imported).expect("a good book");
        assert_eq!(table.is_some(), closed.is_some(), "{book:?}");
        for (table, closed) in table.iter().zip(&closed) {
            assert_eq!((table.slots(), table.types()), (book.n, book.k));
            for v in 0..book.k {
                let same = |line: &[u16], plain: &[i64]| {
                    line.iter().map(|&bound| i64::from(bound)).eq(plain.iter().copied())
                };
                assert!(
                    same(table.lowers(v), &closed.lower[v]) && same(table.uppers(v), &closed.upper[v]),
                    "{book:?}"
                );
            }
        }
        let settled = plain_filter::settle(&book).masks.ok();
        assert_eq!(settle(&imported).expect("a good book"), settled, "{book:?}");
        met[0][usize::from(closed.is_none())] += 1;
        met[1][usize::from(settled.is_none())] += 1;
        without_rows += usize::from(book.rows.is_empty());
        large += usize::from(book.rows.len() > 1_000);
    }
    println!(
        "live and dead in closing, then in settling: {met:?}; {without_rows} without rows, {large} large"
    );
    assert!(met.iter().flatten().all(|&books| books >= LEAST), "{met:?}");
    assert!(without_rows >= 100 && large >= 10, "{without_rows}, {large}");
}

/// A row says the same whichever way it is written.
#[test]
fn all_ways_to_write_a_row() {
    let row = Row { board_type: 2, end: 5, lower: 3, upper: None };
    let book = bytes(&Book { n: 5, k: 3, idle: None, masks: vec![7; 5], rows: vec![row] });
    let ways = |number: &str| -> Vec<String> {
        let contents = (number.len()..=5).map(|width| format!("{number:0>width$}"));
        contents.flat_map(|content| [format!("\"{content}\""), content]).collect()
    };
    let uppers: Vec<String> = [ways("65535"), vec![String::new(), "\"\"".to_string()]].concat();
    let mut texts = 0;
    for board_type in ways("2") {
        for end in ways("5") {
            for lower in ways("3") {
                for upper in &uppers {
                    for last in ["", "\r\n"] {
                        let text = format!("5,3\r\n{board_type},{end},{lower},{upper}{last}");
                        assert_eq!(import_csv(text.as_bytes()).as_ref(), Ok(&book), "{text:?}");
                        texts += 1;
                    }
                }
            }
        }
    }
    assert_eq!(texts, 10 * 10 * 10 * 4 * 2);
}
