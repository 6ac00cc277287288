//! Random and damaged books: `check` answers as the plain second filter does, and writes nothing.

mod damaged;

use std::hint::black_box;

use nested_gcc::check;
use plain_filter::refusal;
use random_books::Random;

const BOOKS: usize = 100_000;
const GUARD: u8 = 0xc3;

/// The answer of `check` for a book that stands between guard bytes, which it must leave as they are.
fn guarded_number(bytes: &[u8], before: usize) -> u32 {
    let mut lent = vec![GUARD; before];
    lent.extend(bytes);
    lent.extend([GUARD; 32]);
    let copy = lent.clone();
    let answer = check(&lent[before..before + bytes.len()]);
    // The bytes are read anew: a shared slice would let the compiler take them for unchanged.
    let lent = black_box(lent);
    assert!(lent == copy, "check wrote to the book or beside it: {bytes:?}");
    answer.map_or_else(|refusal| refusal.number(), |()| 0)
}

#[test]
fn random_and_damaged_books() {
    let mut random = Random::new(0x9e37_79b9_7f4a_7c15);
    let mut met = [0; 9];
    let (mut idle, mut last_idle, mut past_k) = (0, 0, 0);
    for turn in 0..BOOKS {
        let bytes = damaged::book(&mut random, turn);
        let expected = refusal(&bytes);
        // The book begins at any place within 8 bytes.
        let number = guarded_number(&bytes, 32 + turn / 8 % 8);
        assert_eq!(number, expected, "book {turn}: {bytes:?}");
        met[expected as usize] += 1;
        idle += usize::from(expected == 0 && bytes[3] > 0);
        last_idle += usize::from(expected == 0 && bytes[3] == bytes[2]);
        past_k += usize::from(expected == 3 && bytes[3] == bytes[2] + 1);
    }
    println!("books of each number from 0 on: {met:?}");
    assert!(met.iter().all(|&count| count >= 100), "books of each number from 0 on: {met:?}");
    println!(
        "{idle} good with an idle type, {last_idle} with the last; {past_k} refused with byte 3 at k + 1"
    );
    assert!([idle, last_idle, past_k].iter().all(|&count| count >= 100));
}
