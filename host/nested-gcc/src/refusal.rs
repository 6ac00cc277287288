use std::error::Error;
use std::fmt;

/// What an exported function adds to a refusal's number.
const REFUSED: u32 = 256;

/// Why a book, what was lent with it, or a text to import is refused. A single call of a session is refused with a
/// [`CallRefusal`]; one of a list to be probed refuses the list.
///
/// ```
/// use nested_gcc::Refusal;
///
/// assert_eq!(Refusal::RowEnd.number(), 7);
/// assert_eq!(Refusal::RowEnd.to_string(), "end 0 or above n");
/// ```
#[derive(Clone, Copy, Debug, PartialEq, Eq, Hash)]
#[non_exhaustive]
pub enum Refusal {
    /// 1: book under 12 bytes.
    TooShort,
    /// 2: n, k or r out of range.
    OutOfRange,
    /// 3: byte 3 above k: an idle type that the book does not have.
    IdleType,
    /// 4: an offset or length differs, or the lent length does.
    Layout,
    /// 5: mask 0, or a bit from k up.
    Mask,
    /// 6: row type k or more, or its second byte not 0.
    RowType,
    /// 7: end 0 or above n.
    RowEnd,
    /// 8: lower above 256; upper above 256, not 65535.
    RowBound,
    /// 9: a lent output too short.
    OutputTooShort,
    /// 10: call list not whole calls, or over 16,384 bytes; [`Live::run`](crate::Live::run) takes longer ones, up to 2^63
    /// calls of a session.
    CallList,
    /// 11: a call to be probed is of a kind other than 1. Only [`probe_into`](crate::probe_into) answers it.
    CallKind,
    /// 12: slot n or more. Only [`probe`](crate::probe), [`probe_into`](crate::probe_into) and [`menu`](crate::menu)
    /// answer it.
    CallSlot,
    /// 13: type k or more. Only [`probe`](crate::probe) and [`probe_into`](crate::probe_into) answer it.
    CallType,
    /// 17: quoting or a line end breaks RFC 4180. Line ends are CRLF.
    Quoting,
    /// 18: a record has the wrong number of fields, or a field, other than an empty upper, is not one to five digits.
    Field,
    /// 19: the canonical book would need more than 1,024 rows. Only [`canonical`](crate::canonical) and
    /// [`canonical_into`](crate::canonical_into) answer it.
    TooManyRows,
}

/// Each refusal with its number and its words.
const TABLE: [(Refusal, u32, &str); 16] = [
    (Refusal::TooShort, 1, "book under 12 bytes"),
    (Refusal::OutOfRange, 2, "n, k or r out of range"),
    (Refusal::IdleType, 3, "byte 3 above k"),
    (Refusal::Layout, 4, "an offset or length differs, or the lent length does"),
    (Refusal::Mask, 5, "mask 0, or a bit from k up"),
    (Refusal::RowType, 6, "row type k or more, or its second byte not 0"),
    (Refusal::RowEnd, 7, "end 0 or above n"),
    (Refusal::RowBound, 8, "lower above 256; upper above 256, not 65535"),
    (Refusal::OutputTooShort, 9, "a lent output too short"),
    (Refusal::CallList, 10, "call list not whole calls, or over 16,384 bytes"),
    (Refusal::CallKind, 11, "kind not 1"),
    (Refusal::CallSlot, 12, "slot n or more"),
    (Refusal::CallType, 13, "type k or more"),
    (Refusal::Quoting, 17, "quoting or a line end breaks RFC 4180"),
    (Refusal::Field, 18, "wrong number of fields, or a field not one to five digits"),
    (Refusal::TooManyRows, 19, "the canonical book needs more than 1,024 rows"),
];

impl Refusal {
    /// The older name of [`Refusal::IdleType`].
    #[deprecated(since = "1.3.0", note = "number 3 is `IdleType`")]
    #[allow(non_upper_case_globals)]
    pub const ReservedByte: Refusal = Refusal::IdleType;

    /// The refusal that an exported function answers as 256 + its number.
    pub(crate) fn from_answer(answer: u32) -> Option<Refusal> {
        TABLE.iter().find(|row| REFUSED + row.1 == answer).map(|row| row.0)
    }

    fn row(self) -> &'static (Refusal, u32, &'static str) {
        TABLE.iter().find(|row| row.0 == self).expect("each refusal has a row")
    }

    /// The refusal's number, from 1.
    pub fn number(self) -> u32 {
        self.row().1
    }
}

impl fmt::Display for Refusal {
    fn fmt(&self, f: &mut fmt::Formatter<'_>) -> fmt::Result {
        f.write_str(self.row().2)
    }
}

impl Error for Refusal {}

/// Why one call of a session is refused. Such a call changes nothing, and the list goes on.
///
/// Where several apply, it is the first in the order 11, 12, 13, 15, 14, 16: a slot or type out of range is told while
/// the session is dead too.
///
/// ```
/// use nested_gcc::CallRefusal;
///
/// assert_eq!(CallRefusal::NoOpenMark.number(), 14);
/// assert_eq!(CallRefusal::NoOpenMark.to_string(), "back with no open mark");
/// ```
#[derive(Clone, Copy, Debug, PartialEq, Eq, Hash)]
#[non_exhaustive]
pub enum CallRefusal {
    /// 11: kind 0 or from 8 up.
    Kind,
    /// 12: slot n or more.
    Slot,
    /// 13: type k or more.
    Type,
    /// 14: back with no open mark.
    NoOpenMark,
    /// 15: kind 1, 2 or 3 while dead.
    WhileDead,
    /// 16: mark with 256 open.
    TooManyMarks,
}

/// Each refusal of a call with its number and its words.
const CALL_TABLE: [(CallRefusal, u32, &str); 6] = [
    (CallRefusal::Kind, 11, "kind 0 or from 8 up"),
    (CallRefusal::Slot, 12, "slot n or more"),
    (CallRefusal::Type, 13, "type k or more"),
    (CallRefusal::NoOpenMark, 14, "back with no open mark"),
    (CallRefusal::WhileDead, 15, "kind 1, 2 or 3 while dead"),
    (CallRefusal::TooManyMarks, 16, "mark with 256 open"),
];

impl CallRefusal {
    /// The refusal that a call's first word gives as 256 + its number.
    pub(crate) fn from_word(word: u32) -> Option<CallRefusal> {
        CALL_TABLE.iter().find(|row| REFUSED + row.1 == word).map(|row| row.0)
    }

    fn row(self) -> &'static (CallRefusal, u32, &'static str) {
        CALL_TABLE.iter().find(|row| row.0 == self).expect("each refusal has a row")
    }

    /// The refusal's number, from 11.
    pub fn number(self) -> u32 {
        self.row().1
    }
}

impl fmt::Display for CallRefusal {
    fn fmt(&self, f: &mut fmt::Formatter<'_>) -> fmt::Result {
        f.write_str(self.row().2)
    }
}

impl Error for CallRefusal {}
