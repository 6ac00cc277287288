//! A settling in plain Rust, written for speed: the bounds come from a closing; then each type
//! whose counts have changed is counted anew along its line, and what its last full or spent end asks for is cut.

use crate::bounds::{Bounds, Closing};

/// The masks while they settle.
struct Masks {
    masks: [u32; 256],
    /// The types whose counts have changed since they were counted, bit v for type v.
    changed: u32,
    /// For each type the end before which each slot that has it is fixed to it.
    done: [usize; 32],
}

/// No stable list lies within the masks.
struct Dead;

/// Settles the book into bytes, with the answers of `nested_gcc_settle`.
pub fn settle_into(closing: Closing, book: &[u8], output: &mut [u8]) -> u32 {
    let closed = match closing(book) {
        Ok(closed) => closed,
        Err(number) => return 256 + number,
    };
    let n = usize::from(u16::from_le_bytes([book[0], book[1]]));
    if output.len() / 4 < n {
        return 256 + 9;
    }
    let output = &mut output[..4 * n];
    let settled = closed.ok_or(Dead).and_then(|bounds| settle_within(book, n, &bounds));
    match settled {
        Err(Dead) => {
            output.fill(0);
            1
        }
        Ok(masks) => {
            for (mask, bytes) in masks.iter().zip(output.chunks_exact_mut(4)) {
                bytes.copy_from_slice(&mask.to_le_bytes());
            }
            0
        }
    }
}

fn settle_within(book: &[u8], n: usize, bounds: &Bounds) -> Result<[u32; 256], Dead> {
    let every_type = u32::MAX >> (32 - bounds.types());
    let mut list = Masks { masks: [0; 256], changed: every_type, done: [0; 32] };
    for (mask, bytes) in list.masks.iter_mut().zip(book[12..12 + 4 * n].chunks_exact(4)) {
        *mask = u32::from_le_bytes([bytes[0], bytes[1], bytes[2], bytes[3]]);
    }
    while list.changed != 0 {
        let v = list.changed.trailing_zeros() as usize;
        list.changed &= list.changed - 1;
        list.ask(v, n, bounds)?;
    }
    Ok(list.masks)
}

impl Masks {
    /// Counts type v along its line, and cuts what the last end with P = lower, or with B = upper, asks for.
    fn ask(&mut self, v: usize, n: usize, bounds: &Bounds) -> Result<(), Dead> {
        let (mut spent, mut full) = (0, 0);
        let (mut p, mut b) = (0, 0);
        let (lowers, uppers) = (&bounds.lowers(v)[1..], &bounds.uppers(v)[1..]);
        for (s, ((mask, lower), upper)) in self.masks[..n].iter().zip(lowers).zip(uppers).enumerate() {
            p += (mask >> v & 1) as u16;
            b += u16::from(*mask == 1 << v);
            if p < *lower || b > *upper {
                return Err(Dead);
            }
            spent = if p == *lower { s + 1 } else { spent };
            full = if b == *upper { s + 1 } else { full };
        }
        for s in self.done[v]..spent {
            self.fix(s, v);
        }
        for s in self.done[v].max(spent)..full {
            self.strike(s, v);
        }
        self.done[v] = self.done[v].max(spent).max(full);
        Ok(())
    }

    /// If slot s has v and others, it loses the others.
    fn fix(&mut self, s: usize, v: usize) {
        let mask = self.masks[s];
        if mask >> v & 1 == 1 && mask != 1 << v {
            self.masks[s] = 1 << v;
            self.changed |= mask;
        }
    }

    /// If slot s has v and others, it loses v.
    fn strike(&mut self, s: usize, v: usize) {
        let mask = self.masks[s];
        if mask >> v & 1 == 1 && mask != 1 << v {
            let rest = mask & !(1 << v);
            self.masks[s] = rest;
            self.changed |= 1 << v;
            if rest.is_power_of_two() {
                self.changed |= rest;
            }
        }
    }
}
