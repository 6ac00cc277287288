//! The plain probes: on books and lists with every byte and number typed by hand; and on small random books by the
//! definition, that a pick dies where no stable list has the slot fixed to the type, and in no plan.

mod small_books;

use plain_filter::{close, probe, Book, Probes, Row};
use random_books::{bytes, Random};
use small_books::{plans, random_book, stable_lists};

fn row(board_type: usize, end: usize, lower: usize, upper: Option<usize>) -> Row {
    Row { board_type, end, lower, upper }
}

fn book(k: usize, masks: &[u32], rows: &[Row]) -> Book {
    Book { n: masks.len(), k, idle: None, masks: masks.to_vec(), rows: rows.to_vec() }
}

/// M8's book: type 0 end 2 lower 1.
fn m8() -> Book {
    book(2, &[3, 3, 3], &[row(0, 2, 1, None)])
}

/// Dead in closing.
fn m6() -> Book {
    book(2, &[3, 3], &[row(0, 1, 1, None), row(1, 1, 1, None)])
}

/// Two slots have only type 0, of which one is allowed: it closes, and does not settle.
fn unsettled() -> Book {
    book(2, &[1, 1], &[row(0, 2, 0, Some(1))])
}

/// An assign of each type to each slot, slot by slot.
fn every_pick(book: &Book) -> Vec<u8> {
    let picks = (0..book.n).flat_map(|slot| (0..book.k).map(move |v| [1, v as u8, slot as u8, 0]));
    picks.collect::<Vec<_>>().concat()
}

fn probed(live: bool, dead: &[u8]) -> Result<Probes, u32> {
    Ok(Probes { live, dead: dead.to_vec() })
}

/// Every pick of the book, with just the room for it.
fn assert_probes(book: &Book, live: bool, dead: &[u8]) {
    assert_eq!(probe(&bytes(book), &every_pick(book), book.n * book.k), probed(live, dead), "{book:?}");
}

#[test]
fn every_pick_of_a_book() {
    // Type 1 in slot 0 leaves type 0 for slot 1, and the other way round.
    assert_probes(&m8(), true, &[0, 0, 0, 0, 0, 0]);
    // Of type 0 one within 2 slots and at most one within 4: in slot 2 or 3 it takes the one from the first two.
    let in_front = book(2, &[3; 4], &[row(0, 2, 1, None), row(0, 4, 0, Some(1))]);
    assert_probes(&in_front, true, &[0, 0, 0, 0, 1, 0, 1, 0]);
    // None of type 0 within 2 slots: it is struck when the book opens.
    assert_probes(&book(2, &[3; 3], &[row(0, 2, 0, Some(0))]), true, &[1, 0, 1, 0, 0, 0]);
    // M7: slots 0 to 2 have the types 0 and 1, each once at most. One of them in one slot leaves the other for two.
    let m7 = book(4, &[3, 3, 3, 12], &[row(0, 4, 0, Some(1)), row(1, 4, 0, Some(1))]);
    assert_probes(&m7, true, &[1, 1, 1, 1, 1, 1, 1, 1, 1, 1, 1, 1, 1, 1, 0, 0]);
    assert_probes(&m6(), false, &[1, 1, 1, 1]);
    assert_probes(&unsettled(), false, &[1, 1, 1, 1]);
    assert_probes(&book(1, &[1], &[]), true, &[0]);
}

/// Type 1 in slot 0 and in slot 1, which die together: alone each lives, also a second time.
#[test]
fn each_call_alone() {
    let calls = [[1, 1, 0, 0], [1, 1, 1, 0], [1, 1, 0, 0]].concat();
    assert_eq!(probe(&bytes(&m8()), &calls, 3), probed(true, &[0, 0, 0]));
}

#[test]
fn lengths() {
    for (book, live) in [(m8(), true), (m6(), false), (unsettled(), false)] {
        let book = bytes(&book);
        let ones = u8::from(!live);
        assert_eq!(probe(&book, &[], 0), probed(live, &[]));
        assert_eq!(probe(&book, &[], 9), probed(live, &[]));
        assert_eq!(probe(&book, &[1, 0, 0, 0], 0), Err(9));
        assert_eq!(probe(&book, &[1, 0, 0, 0], 1), probed(live, &[ones]));
        assert_eq!(probe(&book, &[1, 0, 0, 0, 1, 1, 1, 0], 1), Err(9));
        assert_eq!(probe(&book, &[1, 0, 0, 0, 1, 1, 1, 0], 5), probed(live, &[ones, ones]));
        let most = [1, 0, 0, 0].repeat(4097);
        assert_eq!(probe(&book, &most[..16384], 4096), probed(live, &[ones; 4096]));
        assert_eq!(probe(&book, &most[..16384], 4095), Err(9));
        assert_eq!(probe(&book, &most, 4097), Err(10));
        for length in [1, 2, 3, 5, 16383, 16385] {
            assert_eq!(probe(&book, &most[..length], 5000), Err(10), "{length}");
        }
    }
}

/// The book's numbers, 10, for each call in turn 11, 12, 13, then 9; be the book live or dead.
#[test]
fn order_of_refusals() {
    let no_book = [3, 0, 2];
    assert_eq!(probe(&no_book, &[2, 2, 3, 0, 0], 0), Err(1));
    let mut no_row = bytes(&m8());
    no_row[24] = 2;
    assert_eq!(probe(&no_row, &[2, 2, 3, 0, 0], 0), Err(6));
    // Both dead books have 2 slots, M8's has 3; all have 2 types.
    for book in [m8(), m6(), unsettled()] {
        let (bytes, n) = (bytes(&book), book.n as u8);
        let refused = |calls: &[u8], number: u32| {
            for room in [0, 1, 2, 100] {
                assert_eq!(probe(&bytes, calls, room), Err(number), "{calls:?} on {book:?}");
            }
        };
        refused(&[2, 2, n, 0, 0], 10);
        for kind in (0..=255).filter(|&kind| kind != 1) {
            refused(&[kind, 2, n, 0], 11);
            refused(&[1, 0, 0, 0, kind, 0, 0, 0], 11);
        }
        refused(&[1, 2, n, 0], 12);
        refused(&[1, 1, 0, 1], 12);
        refused(&[1, 1, 255, 255], 12);
        refused(&[1, 2, n - 1, 0], 13);
        refused(&[1, 255, 0, 0], 13);
        // The first call that is refused gives the number.
        refused(&[1, 2, 0, 0, 0, 0, 0, 0], 13);
        refused(&[1, 0, n, 0, 0, 0, 0, 0], 12);
        refused(&[0, 0, 0, 0, 1, 2, 0, 0], 11);
    }
}

/// Each pick of the book by the definition: where no stable list within the masks has the slot fixed to the type.
fn defined(book: &Book) -> Vec<u8> {
    let lists = close(book).table.map_or(Vec::new(), |table| stable_lists(&table, &book.masks));
    let dies = |slot: usize, v: usize| !lists.iter().any(|masks| masks[slot] == 1 << v);
    (0..book.n).flat_map(|slot| (0..book.k).map(move |v| (slot, v))).map(|(s, v)| dies(s, v).into()).collect()
}

#[test]
fn random_books() {
    let mut random = Random::new(0x9b05_688c_2b3e_6c1f);
    let (mut live, mut dead, mut picks, mut dying, mut in_plans, mut unplanned) = (0, 0, 0, 0, 0, 0);
    for turn in 0..3000 {
        let (n, k) = [(1, 3), (2, 5), (3, 4), (4, 3), (5, 3), (6, 2)][turn % 6];
        let book = random_book(&mut random, n, k);
        let probes = probe(&bytes(&book), &every_pick(&book), n * k).expect("an accepted list");
        assert_eq!(probes.dead, defined(&book), "{book:?}");
        assert!(probes.live || probes.dead.iter().all(|&byte| byte == 1), "{book:?}");
        let plans = plans(&book);
        let in_a_plan = |slot: usize, v: usize| plans.iter().any(|plan| plan[slot] == 1 << v);
        for (pick, &byte) in probes.dead.iter().enumerate() {
            let planned = in_a_plan(pick / k, pick % k);
            assert!(byte == 0 || !planned, "slot {} has type {} in a plan of {book:?}", pick / k, pick % k);
            picks += 1;
            dying += usize::from(byte == 1 && probes.live);
            in_plans += usize::from(planned);
            unplanned += usize::from(byte == 0 && !planned);
        }
        live += usize::from(probes.live);
        dead += usize::from(!probes.live);
    }
    println!(
        "{live} books live, {dead} dead; of {picks} picks {dying} die on a live book, {in_plans} are in plans, \
         {unplanned} live and are in none"
    );
    assert!([live, dead, dying, in_plans].iter().all(|&count| count >= 300));
}
