//! The functions of `include/nested_gcc.h`, each called once, from a safe function over slices or over a kept session's
//! memory.

use std::alloc::{alloc_zeroed, handle_alloc_error, Layout};
use std::mem::size_of;

use crate::{MARKS_MOST, SLOTS_MOST};

/// How many numbers the record of a kept session has.
const RECORD_NUMBERS: usize = 7;

/// How many cells the memory of a kept session has.
const CELLS: usize = 16528;

/// How many bytes the trail of a kept session has.
const TRAIL_BYTES: usize = 25088;

/// The memory of a kept session, `nested_gcc_state` of the header. It is only made by [`State::open`], so that it is
/// always what an open, a step or a call left, or a copy of that.
#[derive(Clone, Copy)]
#[repr(C)]
pub struct State {
    /// n, k, the calls made, the standing, the call that it is dead since, the open marks, and a number of the
    /// library's own.
    record: [usize; RECORD_NUMBERS],
    masks: [u32; SLOTS_MOST],
    cells: [u16; CELLS],
    heights: [u16; MARKS_MOST],
    trail: [u8; TRAIL_BYTES],
}

const _: () = assert!(size_of::<State>() == 59_736);

/// Two words of an answer to a call, `nested_gcc_words` of the header.
#[repr(C)]
struct Words {
    first: u32,
    second: u32,
}

extern "C" {
    fn nested_gcc_version() -> u32;
    fn nested_gcc_check(book: *const u8, book_len: usize) -> u32;
    fn nested_gcc_close(
        book: *const u8,
        book_len: usize,
        lowers: *mut u8,
        lowers_len: usize,
        uppers: *mut u8,
        uppers_len: usize,
    ) -> u32;
    fn nested_gcc_settle(book: *const u8, book_len: usize, masks: *mut u8, masks_len: usize) -> u32;
    fn nested_gcc_session(
        book: *const u8,
        book_len: usize,
        calls: *const u8,
        calls_len: usize,
        answers: *mut u8,
        answers_len: usize,
        masks: *mut u8,
        masks_len: usize,
    ) -> u32;
    fn nested_gcc_probe(
        book: *const u8,
        book_len: usize,
        calls: *const u8,
        calls_len: usize,
        dead: *mut u8,
        dead_len: usize,
    ) -> u32;
    fn nested_gcc_canonical(book: *const u8, book_len: usize, out: *mut u8, out_len: usize) -> u32;
    fn nested_gcc_import_csv(text: *const u8, text_len: usize, book: *mut u8, book_len: usize) -> u32;
    fn nested_gcc_open_in(
        book: *const u8,
        book_len: usize,
        masks: *mut u32,
        masks_len: usize,
        cells: *mut u16,
        cells_len: usize,
        trail: *mut u8,
        trail_len: usize,
        heights: *mut u16,
        heights_len: usize,
        record: *mut usize,
        record_len: usize,
    ) -> u32;
    fn nested_gcc_step_in(
        calls: *const u8,
        calls_len: usize,
        answers: *mut u32,
        answers_len: usize,
        masks: *mut u32,
        masks_len: usize,
        cells: *mut u16,
        cells_len: usize,
        trail: *mut u8,
        trail_len: usize,
        heights: *mut u16,
        heights_len: usize,
        record: *mut usize,
        record_len: usize,
    ) -> u32;
    fn nested_gcc_call_in(
        kind: u32,
        board_type: u32,
        slot: u32,
        masks: *mut u32,
        masks_len: usize,
        cells: *mut u16,
        cells_len: usize,
        trail: *mut u8,
        trail_len: usize,
        heights: *mut u16,
        heights_len: usize,
        record: *mut usize,
        record_len: usize,
    ) -> Words;
}

/// major * 65536 + minor * 256 + patch.
pub fn version() -> u32 {
    // SAFETY: nothing is passed.
    unsafe { nested_gcc_version() }
}

/// 0 for an accepted text, whose book is then in the front of `book`; else 256 + the refusal number.
pub fn import_csv(text: &[u8], book: &mut [u8]) -> u32 {
    // SAFETY: the pointers and the lengths are those of slices, so that no pointer is null; the text is readable and
    // unchanged during the call, which only reads it, and the book is writable and lies apart from the text.
    unsafe { nested_gcc_import_csv(text.as_ptr(), text.len(), book.as_mut_ptr(), book.len()) }
}

/// 0 for a good book, else 256 + the refusal number.
pub fn check(book: &[u8]) -> u32 {
    // SAFETY: the pointer and the length are those of a slice, so the pointer is not null and the bytes
    // are readable and unchanged during the call, which only reads them.
    unsafe { nested_gcc_check(book.as_ptr(), book.len()) }
}

/// 0 for a live book, 1 for a dead one, else 256 + the refusal number.
pub fn close(book: &[u8], lowers: &mut [u8], uppers: &mut [u8]) -> u32 {
    // SAFETY: as for `check`; the outputs are slices too, writable, and none of the three overlaps another,
    // since two of them are borrowed mutably.
    unsafe {
        nested_gcc_close(
            book.as_ptr(),
            book.len(),
            lowers.as_mut_ptr(),
            lowers.len(),
            uppers.as_mut_ptr(),
            uppers.len(),
        )
    }
}

/// 0 for a live book, 1 for a dead one, else 256 + the refusal number.
pub fn settle(book: &[u8], masks: &mut [u8]) -> u32 {
    // SAFETY: as for `check`; the output is a slice too, writable, and apart from the book, since it is
    // borrowed mutably.
    unsafe { nested_gcc_settle(book.as_ptr(), book.len(), masks.as_mut_ptr(), masks.len()) }
}

/// 0 for a session opened live, 1 for one opened dead, else 256 + the refusal number.
pub fn session(book: &[u8], calls: &[u8], answers: &mut [u8], masks: &mut [u8]) -> u32 {
    // SAFETY: as for `check`, also for the calls; the outputs are slices too, writable, and each apart from
    // the three others, since both are borrowed mutably.
    unsafe {
        nested_gcc_session(
            book.as_ptr(),
            book.len(),
            calls.as_ptr(),
            calls.len(),
            answers.as_mut_ptr(),
            answers.len(),
            masks.as_mut_ptr(),
            masks.len(),
        )
    }
}

/// 0 where a session on the book opens live, 1 where it opens dead, else 256 + the refusal number.
pub fn probe(book: &[u8], calls: &[u8], dead: &mut [u8]) -> u32 {
    // SAFETY: as for `check`, also for the calls; the output is a slice too, writable, and apart from the two others,
    // since it is borrowed mutably.
    unsafe {
        nested_gcc_probe(
            book.as_ptr(),
            book.len(),
            calls.as_ptr(),
            calls.len(),
            dead.as_mut_ptr(),
            dead.len(),
        )
    }
}

/// 0 for a live book, whose canonical book is then in the front of `out`; 1 for a dead one; else 256 + the refusal
/// number.
pub fn canonical(book: &[u8], out: &mut [u8]) -> u32 {
    // SAFETY: as for `check`; the output is a slice too, writable, and apart from the book, since it is borrowed
    // mutably.
    unsafe { nested_gcc_canonical(book.as_ptr(), book.len(), out.as_mut_ptr(), out.len()) }
}

impl State {
    /// A session opened on the book, with 0 where it is live and 1 where it is dead; else 256 + the refusal number.
    pub fn open(book: &[u8]) -> Result<(Box<State>, u32), u32> {
        let layout = Layout::new::<State>();
        // SAFETY: the layout is that of a State, whose size is not 0; bytes that are all 0 are one, since its fields are
        // arrays of integers; a Box of it is freed with that same layout. It is not on the stack on the way.
        let mut state = unsafe {
            let at = alloc_zeroed(layout).cast::<State>();
            if at.is_null() {
                handle_alloc_error(layout);
            }
            Box::from_raw(at)
        };
        let State { record, masks, cells, heights, trail } = &mut *state;
        // SAFETY: as for `check`; the memory is five arrays, writable, with their lengths, each apart from the others
        // and from the book.
        let answer = unsafe {
            nested_gcc_open_in(
                book.as_ptr(),
                book.len(),
                masks.as_mut_ptr(),
                masks.len(),
                cells.as_mut_ptr(),
                cells.len(),
                trail.as_mut_ptr(),
                trail.len(),
                heights.as_mut_ptr(),
                heights.len(),
                record.as_mut_ptr(),
                record.len(),
            )
        };
        if answer < 2 {
            Ok((state, answer))
        } else {
            Err(answer)
        }
    }

    /// Makes the calls: 0 where the session is live after them, 1 where it is dead; else 256 + the refusal number.
    pub fn step(&mut self, calls: &[u8], answers: &mut [u32]) -> u32 {
        let State { record, masks, cells, heights, trail } = self;
        // SAFETY: calls and answers are slices, and the memory is five arrays, each apart from the others. The memory is
        // what an open, a step or a call left, or a copy: a State is only made by `open`, where that did not refuse, and
        // by copying; its fields are private here, and nothing else writes to them.
        unsafe {
            nested_gcc_step_in(
                calls.as_ptr(),
                calls.len(),
                answers.as_mut_ptr(),
                answers.len(),
                masks.as_mut_ptr(),
                masks.len(),
                cells.as_mut_ptr(),
                cells.len(),
                trail.as_mut_ptr(),
                trail.len(),
                heights.as_mut_ptr(),
                heights.len(),
                record.as_mut_ptr(),
                record.len(),
            )
        }
    }

    /// Makes one call: its two words.
    pub fn call(&mut self, kind: u32, board_type: u32, slot: u32) -> [u32; 2] {
        let State { record, masks, cells, heights, trail } = self;
        // SAFETY: as for `step`.
        let words = unsafe {
            nested_gcc_call_in(
                kind,
                board_type,
                slot,
                masks.as_mut_ptr(),
                masks.len(),
                cells.as_mut_ptr(),
                cells.len(),
                trail.as_mut_ptr(),
                trail.len(),
                heights.as_mut_ptr(),
                heights.len(),
                record.as_mut_ptr(),
                record.len(),
            )
        };
        [words.first, words.second]
    }

    /// The masks of the n slots.
    pub fn masks(&self) -> &[u32] {
        &self.masks[..self.slots()]
    }

    /// n.
    pub fn slots(&self) -> usize {
        self.record[0]
    }

    /// k.
    pub fn types(&self) -> usize {
        self.record[1]
    }

    /// How many calls were made.
    pub fn made(&self) -> u64 {
        self.record[2] as u64
    }

    /// 0 live, 1 dead since a call, 2 opened dead; and that call's number, else 0.
    pub fn standing(&self) -> (usize, u64) {
        (self.record[3], self.record[4] as u64)
    }

    /// How many marks are open.
    pub fn marks(&self) -> usize {
        self.record[5]
    }
}
