//! The functions of a kept session as another language calls them: five slices of memory, each between guard elements.

#![allow(dead_code)] // not every test uses all of it

// The crate has the archive linked.
use nested_gcc as _;

const GUARD: usize = 16;

/// How many elements each slice has: masks, cells, trail, heights, record.
pub const LENGTHS: [usize; 5] = [256, 16528, 25088, 256, 7];

#[repr(C)]
struct Words {
    first: u32,
    second: u32,
}

extern "C" {
    fn nested_gcc_open_in(
        book: *const u8,
        book_len: usize,
        masks: *mut u32,
        masks_len: usize,
        cells: *mut u16,
        cells_len: usize,
        trail: *mut u8,
        trail_len: usize,
        heights: *mut u16,
        heights_len: usize,
        record: *mut usize,
        record_len: usize,
    ) -> u32;
    fn nested_gcc_step_in(
        calls: *const u8,
        calls_len: usize,
        answers: *mut u32,
        answers_len: usize,
        masks: *mut u32,
        masks_len: usize,
        cells: *mut u16,
        cells_len: usize,
        trail: *mut u8,
        trail_len: usize,
        heights: *mut u16,
        heights_len: usize,
        record: *mut usize,
        record_len: usize,
    ) -> u32;
    fn nested_gcc_call_in(
        kind: u32,
        board_type: u32,
        slot: u32,
        masks: *mut u32,
        masks_len: usize,
        cells: *mut u16,
        cells_len: usize,
        trail: *mut u8,
        trail_len: usize,
        heights: *mut u16,
        heights_len: usize,
        record: *mut usize,
        record_len: usize,
    ) -> Words;
}

/// An element of a slice, made from a number.
pub trait Element: Copy + PartialEq {
    fn from_number(number: usize) -> Self;
}

impl Element for u8 {
    fn from_number(number: usize) -> u8 {
        number as u8
    }
}

impl Element for u16 {
    fn from_number(number: usize) -> u16 {
        number as u16
    }
}

impl Element for u32 {
    fn from_number(number: usize) -> u32 {
        number as u32
    }
}

impl Element for usize {
    fn from_number(number: usize) -> usize {
        number
    }
}

/// A slice between guard elements, all of them painted at first.
#[derive(Clone, PartialEq)]
pub struct Guarded<T> {
    elements: Vec<T>,
    length: usize,
    seed: usize,
}

impl<T: Element> Guarded<T> {
    pub fn new(length: usize, seed: usize) -> Guarded<T> {
        let elements = (0..length + 2 * GUARD).map(|at| painted(seed, at)).collect();
        Guarded { elements, length, seed }
    }

    pub fn slice(&self) -> &[T] {
        &self.elements[GUARD..GUARD + self.length]
    }

    pub fn slice_mut(&mut self) -> &mut [T] {
        &mut self.elements[GUARD..GUARD + self.length]
    }

    /// Every element from `written` on, and every guard, is as it was painted.
    pub fn assert_kept_from(&self, written: usize, what: &str) {
        for (at, &element) in self.elements.iter().enumerate() {
            let within = at >= GUARD && at < GUARD + written;
            assert!(within || element == painted(self.seed, at), "{what}: element {at} less {GUARD}");
        }
    }
}

fn painted<T: Element>(seed: usize, at: usize) -> T {
    T::from_number(usize::wrapping_mul(seed + 167 * at + 1, 0x9e37_79b9_7f4a_7c15))
}

/// The memory of a kept session. A clone lies elsewhere and holds the same.
#[derive(Clone, PartialEq)]
pub struct Memory {
    pub masks: Guarded<u32>,
    pub cells: Guarded<u16>,
    pub trail: Guarded<u8>,
    pub heights: Guarded<u16>,
    pub record: Guarded<usize>,
}

impl Memory {
    pub fn new(seed: usize) -> Memory {
        Memory::of_lengths(LENGTHS, seed)
    }

    pub fn of_lengths([masks, cells, trail, heights, record]: [usize; 5], seed: usize) -> Memory {
        Memory {
            masks: Guarded::new(masks, seed),
            cells: Guarded::new(cells, seed + 1),
            trail: Guarded::new(trail, seed + 2),
            heights: Guarded::new(heights, seed + 3),
            record: Guarded::new(record, seed + 4),
        }
    }

    /// `nested_gcc_open_in` on the whole slices.
    pub fn open(&mut self, book: &[u8]) -> u32 {
        let [masks, cells, trail, heights, record] = self.lengths();
        // SAFETY: each pointer has so many elements, apart from the others.
        unsafe {
            nested_gcc_open_in(
                book.as_ptr(),
                book.len(),
                self.masks.slice_mut().as_mut_ptr(),
                masks,
                self.cells.slice_mut().as_mut_ptr(),
                cells,
                self.trail.slice_mut().as_mut_ptr(),
                trail,
                self.heights.slice_mut().as_mut_ptr(),
                heights,
                self.record.slice_mut().as_mut_ptr(),
                record,
            )
        }
    }

    /// `nested_gcc_step_in`. The memory is opened, and of the right lengths.
    pub fn step(&mut self, calls: &[u8], answers: &mut [u32]) -> u32 {
        let [masks, cells, trail, heights, record] = self.lengths();
        // SAFETY: each pointer has so many elements, apart from the others; the tests keep the premise on the memory.
        unsafe {
            nested_gcc_step_in(
                calls.as_ptr(),
                calls.len(),
                answers.as_mut_ptr(),
                answers.len(),
                self.masks.slice_mut().as_mut_ptr(),
                masks,
                self.cells.slice_mut().as_mut_ptr(),
                cells,
                self.trail.slice_mut().as_mut_ptr(),
                trail,
                self.heights.slice_mut().as_mut_ptr(),
                heights,
                self.record.slice_mut().as_mut_ptr(),
                record,
            )
        }
    }

    /// `nested_gcc_call_in`. The memory is opened, and of the right lengths.
    pub fn call(&mut self, kind: u32, board_type: u32, slot: u32) -> [u32; 2] {
        let [masks, cells, trail, heights, record] = self.lengths();
        // SAFETY: each pointer has so many elements, apart from the others; the tests keep the premise on the memory.
        let words = unsafe {
            nested_gcc_call_in(
                kind,
                board_type,
                slot,
                self.masks.slice_mut().as_mut_ptr(),
                masks,
                self.cells.slice_mut().as_mut_ptr(),
                cells,
                self.trail.slice_mut().as_mut_ptr(),
                trail,
                self.heights.slice_mut().as_mut_ptr(),
                heights,
                self.record.slice_mut().as_mut_ptr(),
                record,
            )
        };
        [words.first, words.second]
    }

    fn lengths(&self) -> [usize; 5] {
        [self.masks.length, self.cells.length, self.trail.length, self.heights.length, self.record.length]
    }

    /// The record's numbers but the last: n, k, the calls made, the standing, the call it is dead since, the open marks.
    pub fn numbers(&self) -> [usize; 6] {
        self.record.slice()[..6].try_into().expect("a record has 7 numbers")
    }

    /// Every guard is as it was painted, and so is every mask past the n-th.
    pub fn assert_guards(&self, n: usize) {
        self.masks.assert_kept_from(n, "masks");
        self.cells.assert_kept_from(self.cells.length, "cells");
        self.trail.assert_kept_from(self.trail.length, "trail");
        self.heights.assert_kept_from(self.heights.length, "heights");
        self.record.assert_kept_from(self.record.length, "record");
    }

    /// Every element, and every guard, is as it was painted.
    pub fn assert_untouched(&self, case: &str) {
        self.masks.assert_kept_from(0, case);
        self.cells.assert_kept_from(0, case);
        self.trail.assert_kept_from(0, case);
        self.heights.assert_kept_from(0, case);
        self.record.assert_kept_from(0, case);
    }
}
