//! Random and damaged books, as bytes: good ones, and such as each of the refusals 1 to 8 is for.

use plain_filter::{Book, Row};
use random_books::{bytes, every_type, with_idle, Random};

/// The turn's book: of every eight one is good, and most of the others are not.
pub fn book(random: &mut Random, turn: usize) -> Vec<u8> {
    match turn % 8 {
        0 => good_book(random, turn),
        1 | 2 => flipped(random, turn),
        3 => truncated(random, turn),
        4 => extended(random, turn),
        5 => random_bytes(random),
        _ => book_near_the_limits(random, turn),
    }
}

/// A good book, mostly small. Its idle type, or none, is by the turn.
fn good_book(random: &mut Random, turn: usize) -> Vec<u8> {
    let (n, r) = match random.below(40) {
        0 => (random.one_of(&[255, 256]), random.one_of(&[0, 1023, 1024])),
        _ => (1 + random.below(8), random.below(6)),
    };
    let k = random.one_of(&[1, 2, 3, 7, 8, 31, 32]);
    let masks = (0..n)
        .map(|_| match random.bits() as u32 & every_type(k) {
            0 => every_type(k),
            mask => mask,
        })
        .collect();
    let rows = (0..r)
        .map(|_| {
            let board_type = random.below(k);
            let end = 1 + random.below(n);
            let lower = random.one_of(&[0, 1, 2, 255, 256]);
            let upper = random.one_of(&[Some(0), Some(1), Some(2), Some(255), Some(256), None]);
            Row { board_type, end, lower, upper }
        })
        .collect();
    bytes(&with_idle(Book { n, k, idle: None, masks, rows }, turn / 64))
}

/// A book whose counts and fields lie about their limits, byte 3 by the turn; offsets and length are those of
/// its counts.
fn book_near_the_limits(random: &mut Random, turn: usize) -> Vec<u8> {
    let n = random.one_of(&[0, 1, 1, 2, 2, 3, 256, 257]);
    let k = random.one_of(&[0, 1, 1, 2, 2, 8, 31, 32, 33]);
    let r = random.one_of(&[0, 1, 1, 2, 2, 3, 4, 1024, 1025]);
    let every_type = every_type(k.clamp(1, 32));
    let mut masks = vec![every_type; n];
    if random.below(8) == 0 && n > 0 {
        masks[random.below(n)] = random.one_of(&[0, every_type, every_type.wrapping_add(1), u32::MAX]);
    }
    let mut rows = vec![Row { board_type: 0, end: 1, lower: 0, upper: None }; r];
    for _ in 0..random.below(3) {
        if r > 0 {
            rows[random.below(r)] = Row {
                board_type: random.one_of(&[0, k.saturating_sub(1), k, k + 1]),
                end: random.one_of(&[0, 1, n, n + 1]),
                lower: random.one_of(&[0, 1, 255, 256, 257, 65535]),
                upper: random.one_of(&[Some(0), Some(1), Some(255), Some(256), Some(257), Some(65534), None]),
            };
        }
    }
    let byte_3: usize = [0, 0, 0, 0, 1, k, k + 1, 255][turn / 64 % 8];
    bytes(&Book { n, k, idle: byte_3.checked_sub(1), masks, rows })
}

/// A good book with one byte changed: anywhere, or in the first 12 bytes, or in its last rows.
fn flipped(random: &mut Random, turn: usize) -> Vec<u8> {
    let mut bytes = good_book(random, turn);
    let from_end = 1 + random.below(usize::min(16, bytes.len()));
    let at = match random.below(3) {
        0 => random.below(bytes.len()),
        1 => random.below(12),
        _ => bytes.len() - from_end,
    };
    bytes[at] = match random.below(2) {
        0 => bytes[at] ^ (1 << random.below(8)),
        _ => random.byte(),
    };
    bytes
}

fn truncated(random: &mut Random, turn: usize) -> Vec<u8> {
    let mut bytes = good_book(random, turn);
    let length = match random.below(2) {
        0 => random.below(bytes.len()),
        _ => random.below(16),
    };
    bytes.truncate(length);
    bytes
}

fn extended(random: &mut Random, turn: usize) -> Vec<u8> {
    let mut bytes = good_book(random, turn);
    for _ in 0..1 + random.below(9) {
        bytes.push(random.byte());
    }
    bytes
}

fn random_bytes(random: &mut Random) -> Vec<u8> {
    let length = random.below(64);
    (0..length).map(|_| random.byte()).collect()
}
