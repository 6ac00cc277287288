//! The sizes and the refusals that `include/nested_gcc.h` names and those of this crate: every number is typed by hand.

mod defined;

use defined::{defined, text, HEADER};
use nested_gcc::{
    CallRefusal, Refusal, ANSWERS_BYTES, BOOK_BYTES, CALLS_BYTES, MARKS_MOST, MASKS_BYTES, NO_UPPER,
    PROBES_BYTES, ROWS_MOST, SLOTS_MOST, TABLE_BYTES, TYPES_MOST,
};

#[test]
fn the_sizes_are_the_same_in_the_header_and_here() {
    let sizes = [
        ("NESTED_GCC_SLOTS_MOST", SLOTS_MOST, 256),
        ("NESTED_GCC_TYPES_MOST", TYPES_MOST, 32),
        ("NESTED_GCC_ROWS_MOST", ROWS_MOST, 1024),
        ("NESTED_GCC_NO_UPPER", NO_UPPER.into(), 65535),
        ("NESTED_GCC_MARKS_MOST", MARKS_MOST, 256),
        ("NESTED_GCC_BOOK_BYTES", BOOK_BYTES, 9228),
        ("NESTED_GCC_TABLE_BYTES", TABLE_BYTES, 16448),
        ("NESTED_GCC_MASKS_BYTES", MASKS_BYTES, 1024),
        ("NESTED_GCC_CALLS_BYTES", CALLS_BYTES, 16384),
        ("NESTED_GCC_ANSWERS_BYTES", ANSWERS_BYTES, 32768),
        ("NESTED_GCC_PROBES_BYTES", PROBES_BYTES, 4096),
    ];
    for (name, here, typed) in sizes {
        assert_eq!((defined(name), here), (typed, typed), "{name}");
    }
}

#[test]
fn the_refusals_are_the_same_in_the_header_and_here() {
    let refusals = [
        ("TOO_SHORT", Refusal::TooShort.number(), 1),
        ("OUT_OF_RANGE", Refusal::OutOfRange.number(), 2),
        ("IDLE_TYPE", Refusal::IdleType.number(), 3),
        ("LAYOUT", Refusal::Layout.number(), 4),
        ("MASK", Refusal::Mask.number(), 5),
        ("ROW_TYPE", Refusal::RowType.number(), 6),
        ("ROW_END", Refusal::RowEnd.number(), 7),
        ("ROW_BOUND", Refusal::RowBound.number(), 8),
        ("OUTPUT_TOO_SHORT", Refusal::OutputTooShort.number(), 9),
        ("CALL_LIST", Refusal::CallList.number(), 10),
        ("CALL_KIND", CallRefusal::Kind.number(), 11),
        ("CALL_SLOT", CallRefusal::Slot.number(), 12),
        ("CALL_TYPE", CallRefusal::Type.number(), 13),
        // Those of a list to be probed are the same numbers.
        ("CALL_KIND", Refusal::CallKind.number(), 11),
        ("CALL_SLOT", Refusal::CallSlot.number(), 12),
        ("CALL_TYPE", Refusal::CallType.number(), 13),
        ("NO_OPEN_MARK", CallRefusal::NoOpenMark.number(), 14),
        ("WHILE_DEAD", CallRefusal::WhileDead.number(), 15),
        ("TOO_MANY_MARKS", CallRefusal::TooManyMarks.number(), 16),
        ("QUOTING", Refusal::Quoting.number(), 17),
        ("FIELD", Refusal::Field.number(), 18),
        ("TOO_MANY_ROWS", Refusal::TooManyRows.number(), 19),
    ];
    assert_eq!(defined("NESTED_GCC_REFUSED"), 256);
    for (name, here, typed) in refusals {
        let line = format!("\n#define NESTED_GCC_{name} (NESTED_GCC_REFUSED + {typed}u) ");
        assert_eq!((HEADER.matches(&line).count(), here), (1, typed), "{name}");
    }
    // The older name of number 3.
    assert_eq!(text("NESTED_GCC_RESERVED_BYTE"), "NESTED_GCC_IDLE_TYPE");
}

/// Those that only the header names: the sizes of a state, and how a session stands.
#[test]
fn the_numbers_of_a_kept_session() {
    let numbers = [
        ("NESTED_GCC_RECORD_NUMBERS", 7),
        ("NESTED_GCC_CELLS", 16528),
        ("NESTED_GCC_TRAIL_BYTES", 25088),
        ("NESTED_GCC_STANDING_LIVE", 0),
        ("NESTED_GCC_STANDING_DEAD", 1),
        ("NESTED_GCC_STANDING_OPENED_DEAD", 2),
    ];
    for (name, typed) in numbers {
        assert_eq!(defined(name), typed, "{name}");
    }
}
