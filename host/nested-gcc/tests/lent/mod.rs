//! Outputs lent between guard bytes.

use std::fmt::Debug;

const GUARD: usize = 40;

/// An output that stands between guard bytes.
pub struct Lent {
    bytes: Vec<u8>,
    length: usize,
    /// Says what the bytes hold at first, and at which place within 4 the output begins.
    seed: usize,
}

impl Lent {
    pub fn new(length: usize, seed: usize) -> Lent {
        let bytes = (0..GUARD + length + GUARD).map(|at| (seed + 167 * at) as u8).collect();
        Lent { bytes, length, seed }
    }

    pub fn output(&mut self) -> &mut [u8] {
        let begin = GUARD - self.seed % 4;
        &mut self.bytes[begin..begin + self.length]
    }

    /// The output begins with `written`, and every other byte is as it was at first.
    pub fn assert_written(&self, written: &[u8], case: &impl Debug) {
        let mut expected = Lent::new(self.length, self.seed);
        expected.output()[..written.len()].copy_from_slice(written);
        assert!(self.bytes == expected.bytes, "{case:?}: {:?} and not {:?}", self.bytes, expected.bytes);
    }
}
