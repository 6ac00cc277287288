//! The plain settling is that of `docs/SPECIFICATION.md`, section 4: on small books its masks are the largest of
//! all the stable lists within the book's masks, found by listing every list there is; and every plan lies within
//! them.

mod small_books;

use plain_filter::{close, settle, Book, Death, Row};
use random_books::Random;
use small_books::{plans, random_book, stable_lists};

/// Each mask of `inner` has only types of `outer`'s.
fn within(inner: &[u32], outer: &[u32]) -> bool {
    inner.iter().zip(outer).all(|(inner, outer)| inner & !outer == 0)
}

/// The stable list within the book's masks that has every other one within it; `None` if there is no stable
/// list.
fn largest(book: &Book) -> Option<Vec<u32>> {
    let lists = stable_lists(&close(book).table?, &book.masks);
    if lists.is_empty() {
        return None;
    }
    let largest = lists.iter().find(|largest| lists.iter().all(|masks| within(masks, largest)));
    Some(largest.expect("if there are stable lists, one is the largest").clone())
}

/// What the books were like.
#[derive(Debug, Default)]
struct Met {
    unchanged: usize,
    cut: usize,
    cut_by_both_rules: usize,
    many_passes: usize,
    dead_in_closing: usize,
    too_few: usize,
    too_many: usize,
}

/// Compares the plain settling with the definition, and every plan with the settled masks.
fn compare(book: &Book, met: &mut Met) {
    let settling = settle(book);
    assert_eq!(settling.masks.as_ref().ok(), largest(book).as_ref(), "{book:?}");
    let plans = plans(book);
    match &settling.masks {
        Ok(masks) => {
            for plan in &plans {
                assert!(within(plan, masks), "{book:?} loses the plan {plan:?}");
            }
            met.unchanged += usize::from(*masks == book.masks);
            met.cut += usize::from(*masks != book.masks);
            met.cut_by_both_rules += usize::from(settling.fixes > 0 && settling.strikes > 0);
            met.many_passes += usize::from(settling.passes > 2);
        }
        Err(death) => {
            assert!(plans.is_empty(), "{book:?} is dead and has a plan");
            match death {
                Death::Closing => met.dead_in_closing += 1,
                Death::TooFew => met.too_few += 1,
                Death::TooMany => met.too_many += 1,
            }
        }
    }
}

#[test]
fn random_books() {
    let mut random = Random::new(0x2545_f491_4f6c_dd1d);
    let mut met = Met::default();
    for turn in 0..9000 {
        let (n, k) = [(1, 3), (2, 5), (3, 4), (4, 3), (5, 3), (6, 2)][turn % 6];
        compare(&random_book(&mut random, n, k), &mut met);
    }
    println!("{met:?}");
    let Met { unchanged, cut, cut_by_both_rules, many_passes, .. } = met;
    assert!([unchanged, cut, cut_by_both_rules].iter().all(|&books| books >= 100), "{met:?}");
    assert!(many_passes >= 10, "{met:?}");
    assert!([met.dead_in_closing, met.too_few, met.too_many].iter().all(|&books| books >= 50), "{met:?}");
}

/// M7: n = 4, k = 4, masks 3 3 3 12, types 0 and 1 upper 1 at end 4: settles unchanged, though no plan
/// exists.
#[test]
fn m7_has_no_plan() {
    let row = |board_type| Row { board_type, end: 4, lower: 0, upper: Some(1) };
    let book = Book { n: 4, k: 4, idle: None, masks: vec![3, 3, 3, 12], rows: vec![row(0), row(1)] };
    assert_eq!(settle(&book).masks, Ok(vec![3, 3, 3, 12]));
    assert!(plans(&book).is_empty());
    compare(&book, &mut Met::default());
}

/// M4's rows: n = 5, k = 3, type 1 lower 2 and type 2 lower 1 at end 5.
#[test]
fn two_of_type_0_are_enough() {
    let row = |board_type, lower| Row { board_type, end: 5, lower, upper: None };
    let book = Book { n: 5, k: 3, idle: None, masks: vec![1, 1, 7, 7, 7], rows: vec![row(1, 2), row(2, 1)] };
    assert_eq!(settle(&book).masks, Ok(vec![1, 1, 6, 6, 6]));
    compare(&book, &mut Met::default());
}
