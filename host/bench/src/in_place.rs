//! A closing in plain Rust, written for speed in the layout of the entry: two tables of 16 bits, type by
//! type, closed in place with no other array. Each sweep takes each type's line forward and back with the
//! running bounds in registers, then goes across the types at each end with sums, until a sweep changes
//! nothing. A line or an end that keeps its rules is only read.

use plain_filter::refusal;

use crate::bounds::Bounds;

/// An entry is crossed.
struct Crossed;

/// Closes the book: its bounds, or `None` if it is dead, or the number of its refusal.
pub fn close(book: &[u8]) -> Result<Option<Bounds>, u32> {
    match refusal(book) {
        0 => Ok(close_good(book)),
        number => Err(number),
    }
}

fn close_good(book: &[u8]) -> Option<Bounds> {
    let (n, types) = (usize::from(two(book, 0)), usize::from(book[2]));
    let (mut lowers, mut uppers) = (vec![0; types * (n + 1)], vec![0; types * (n + 1)]);
    start(book, n, &mut lowers, &mut uppers);
    while sweep(&mut lowers, &mut uppers, n).ok()? {}
    Some(Bounds::new(n + 1, types, lowers, uppers))
}

fn two(bytes: &[u8], at: usize) -> u16 {
    u16::from_le_bytes([bytes[at], bytes[at + 1]])
}

/// Makes the starting table, where the lowers are all 0.
fn start(book: &[u8], n: usize, lowers: &mut [u16], uppers: &mut [u16]) {
    for line in uppers.chunks_exact_mut(n + 1) {
        for (t, upper) in line.iter_mut().enumerate() {
            *upper = t as u16;
        }
    }
    for row in book[12 + 4 * n..].chunks_exact(8) {
        let place = usize::from(row[0]) * (n + 1) + usize::from(two(row, 2));
        lowers[place] = lowers[place].max(two(row, 4));
        uppers[place] = uppers[place].min(two(row, 6));
    }
}

/// Whether an entry changed.
fn sweep(lowers: &mut [u16], uppers: &mut [u16], n: usize) -> Result<bool, Crossed> {
    let mut changed = false;
    for (lower, upper) in lowers.chunks_exact_mut(n + 1).zip(uppers.chunks_exact_mut(n + 1)) {
        if !keeps(lower, upper) {
            forward(lower, upper);
            backward(lower, upper)?;
            changed = true;
        }
    }
    for t in 0..=n {
        changed |= across(&mut lowers[t..], &mut uppers[t..], n, t as i32)?;
    }
    Ok(changed)
}

/// Whether a line keeps all rules between an end and the next and has no crossed entry: then no pass is made.
/// Vector instructions take several ends together.
fn keeps(lowers: &[u16], uppers: &[u16]) -> bool {
    let mut broken = uppers[0] < lowers[0];
    let pairs = lowers.iter().zip(&lowers[1..]).zip(uppers.iter().zip(&uppers[1..]));
    for ((lower, next_lower), (upper, next_upper)) in pairs {
        broken |= next_lower.wrapping_sub(*lower) > 1;
        broken |= next_upper.wrapping_sub(*upper) > 1;
        broken |= next_upper < next_lower;
    }
    !broken
}

/// One type's line, from its start to its end: a lower is at least the one before, an upper at most one more.
fn forward(lowers: &mut [u16], uppers: &mut [u16]) {
    let (mut least, mut most) = (0, 0);
    for (lower, upper) in lowers.iter_mut().zip(uppers) {
        least = least.max(*lower);
        most = most.min(*upper);
        *lower = least;
        *upper = most;
        most += 1;
    }
}

/// One type's line, from its end to its start: a lower is at least the one after less 1, an upper at most
/// that one.
fn backward(lowers: &mut [u16], uppers: &mut [u16]) -> Result<(), Crossed> {
    let mut crossed = false;
    let (mut least, mut most) = (0_u16, u16::MAX);
    for (lower, upper) in lowers.iter_mut().zip(uppers).rev() {
        least = least.saturating_sub(1).max(*lower);
        most = most.min(*upper);
        crossed |= most < least;
        *lower = least;
        *upper = most;
    }
    if crossed {
        return Err(Crossed);
    }
    Ok(())
}

/// The rules across the types at end t, whose entries stand n + 1 apart. A lower must rise, or an upper fall,
/// just where a gap between the two is wider than what one of the sums leaves.
fn across(lowers: &mut [u16], uppers: &mut [u16], n: usize, t: i32) -> Result<bool, Crossed> {
    let uppers = &mut uppers[..lowers.len()];
    let (mut lower_sum, mut upper_sum, mut widest) = (0, 0, 0);
    let mut place = 0;
    while place < lowers.len() {
        let (lower, upper) = (i32::from(lowers[place]), i32::from(uppers[place]));
        lower_sum += lower;
        upper_sum += upper;
        widest = widest.max(upper - lower);
        place += n + 1;
    }
    if lower_sum > t || upper_sum < t {
        return Err(Crossed);
    }
    if widest <= (upper_sum - t).min(t - lower_sum) {
        return Ok(false);
    }
    let mut place = 0;
    while place < lowers.len() {
        let (lower, upper) = (i32::from(lowers[place]), i32::from(uppers[place]));
        lowers[place] = lower.max(t - (upper_sum - upper)) as u16;
        uppers[place] = upper.min(t - (lower_sum - lower)) as u16;
        place += n + 1;
    }
    Ok(true)
}
