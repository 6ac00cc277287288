//! A closing in plain Rust, written for speed in a layout of its own: the types of one end stand side by side,
//! so that vector instructions take them together, and the tables are turned at the end.

use std::array;

use plain_filter::refusal;

use crate::bounds::Bounds;

const MOST_ENDS: usize = 257;

/// The bounds of all types at one end, in lanes of which the first k are used. The lanes past them have
/// bounds 0 and 0: these keep every rule that the used ones keep.
type Lanes<const L: usize> = [i16; L];

/// The bounds of all types. Entries are signed: a sum may fall below 0 on the way.
struct Table<const L: usize> {
    lowers: [Lanes<L>; MOST_ENDS],
    uppers: [Lanes<L>; MOST_ENDS],
}

/// An entry is crossed.
struct Crossed;

/// Closes the book: its bounds, or `None` if it is dead, or the number of its refusal.
pub fn close(book: &[u8]) -> Result<Option<Bounds>, u32> {
    match refusal(book) {
        0 => Ok(match book[2] {
            0..=8 => close_lanes::<8>(book),
            9..=16 => close_lanes::<16>(book),
            _ => close_lanes::<32>(book),
        }),
        number => Err(number),
    }
}

fn two(bytes: &[u8], at: usize) -> i16 {
    i16::from_le_bytes([bytes[at], bytes[at + 1]])
}

fn close_lanes<const L: usize>(book: &[u8]) -> Option<Bounds> {
    let (ends, types) = (two(book, 0) as usize + 1, usize::from(book[2]));
    let mut table = Table { lowers: [[0; L]; MOST_ENDS], uppers: [[0; L]; MOST_ENDS] };
    start(book, &mut table);
    while sweep(&mut table.lowers[..ends], &mut table.uppers[..ends]).ok()? {}
    let [lowers, uppers] = [&table.lowers, &table.uppers].map(|bounds| lines(&bounds[..ends], types));
    Some(Bounds::new(ends, types, lowers, uppers))
}

/// Makes the starting table of one that is all 0.
fn start<const L: usize>(book: &[u8], table: &mut Table<L>) {
    let n = two(book, 0) as usize;
    let k = usize::from(book[2]);
    for (t, uppers) in table.uppers[..=n].iter_mut().enumerate() {
        uppers[..k].fill(t as i16);
    }
    for row in book[12 + 4 * n..].chunks_exact(8) {
        let (board_type, end) = (usize::from(row[0]), two(row, 2) as usize);
        let lower = &mut table.lowers[end][board_type];
        *lower = (*lower).max(two(row, 4));
        // No upper bound is 65535, which is -1 in 16 signed bits.
        if two(row, 6) >= 0 {
            let upper = &mut table.uppers[end][board_type];
            *upper = (*upper).min(two(row, 6));
        }
    }
}

/// Each type's line forward, then back, and at each end on the way back across the types. Whether an entry
/// changed.
fn sweep<const L: usize>(lowers: &mut [Lanes<L>], uppers: &mut [Lanes<L>]) -> Result<bool, Crossed> {
    let mut changed = [0; L];
    let (mut least, mut most) = ([0; L], [0; L]);
    for (lower, upper) in lowers.iter_mut().zip(uppers.iter_mut()) {
        set(lower, &least, i16::max, &mut changed);
        set(upper, &most, i16::min, &mut changed);
        least = *lower;
        most = upper.map(|upper| upper + 1);
    }
    least = [0; L];
    for (t, (lower, upper)) in lowers.iter_mut().zip(uppers.iter_mut()).enumerate().rev() {
        set(lower, &least, i16::max, &mut changed);
        set(upper, &most, i16::min, &mut changed);
        across(t as i16, lower, upper, &mut changed);
        if (0..L).fold(0, |signs, v| signs | (upper[v] - lower[v])) < 0 {
            return Err(Crossed);
        }
        least = lower.map(|lower| lower - 1);
        most = *upper;
    }
    Ok(changed.iter().any(|&bits| bits != 0))
}

/// Sets each entry to the better of itself and the bound, and notes the bits that change.
fn set<const L: usize>(
    entry: &mut Lanes<L>,
    bound: &Lanes<L>,
    better: fn(i16, i16) -> i16,
    changed: &mut Lanes<L>,
) {
    let value = array::from_fn(|v| better(entry[v], bound[v]));
    for v in 0..L {
        changed[v] |= entry[v] ^ value[v];
    }
    *entry = value;
}

/// Each lower at least t less the other types' uppers, each upper at most t less the other types' lowers.
fn across<const L: usize>(t: i16, lower: &mut Lanes<L>, upper: &mut Lanes<L>, changed: &mut Lanes<L>) {
    let sum: i16 = upper.iter().sum();
    set(lower, &upper.map(|upper| t - (sum - upper)), i16::max, changed);
    let sum: i16 = lower.iter().sum();
    set(upper, &lower.map(|lower| t - (sum - lower)), i16::min, changed);
}

/// The bounds with a line for each type.
fn lines<const L: usize>(bounds: &[Lanes<L>], types: usize) -> Vec<u16> {
    let mut lines = vec![0; types * bounds.len()];
    for (v, line) in lines.chunks_exact_mut(bounds.len()).enumerate() {
        for (lanes, entry) in bounds.iter().zip(line) {
            *entry = lanes[v] as u16;
        }
    }
    lines
}
