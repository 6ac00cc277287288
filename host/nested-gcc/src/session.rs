use crate::{slots, sys, verdict, words, CallRefusal, Refusal, Verdict, ANSWERS_BYTES, MASKS_BYTES};

/// What a list of calls led to.
#[derive(Clone, Debug, PartialEq, Eq, Hash)]
pub struct Session {
    /// Whether the session opened live. It may have died on the way.
    pub opened: Verdict,
    /// One for each call.
    pub answers: Vec<Answer>,
    /// The last masks, one for each slot: bit v says that the slot may still have type v. A decision that
    /// answers dead leaves them as they are. All are 0 if the session opened dead.
    pub masks: Vec<u32>,
}

/// The answer to a call.
#[derive(Clone, Copy, Debug, PartialEq, Eq, Hash)]
pub enum Answer {
    /// An assign or a remove: a stable list lies within the cut masks, and the largest is taken. `struck` is
    /// how many types the masks lost, the book's idle type left out.
    Live { struck: u32 },
    /// An assign or a remove: no stable list lies within the cut masks. The masks stay, and until a back the
    /// session is dead.
    Dead,
    /// A show or a count of walls: the mask, or how many.
    Value(u32),
    /// A mark or a back.
    Done,
    /// The call changed nothing.
    Refused(CallRefusal),
}

impl Answer {
    /// The two words that stand for the answer: live 0 and struck; dead 1 and 0; value 2 and the value; done 3
    /// and 0; a refusal 256 + its number and 0.
    ///
    /// ```
    /// use nested_gcc::{Answer, CallRefusal};
    ///
    /// assert_eq!(Answer::Live { struck: 5 }.words(), [0, 5]);
    /// assert_eq!(Answer::Refused(CallRefusal::WhileDead).words(), [271, 0]);
    /// ```
    pub fn words(self) -> [u32; 2] {
        match self {
            Answer::Live { struck } => [0, struck],
            Answer::Dead => [1, 0],
            Answer::Value(value) => [2, value],
            Answer::Done => [3, 0],
            Answer::Refused(refusal) => [256 + refusal.number(), 0],
        }
    }

    fn from_words(words: [u32; 2]) -> Option<Answer> {
        Some(match words {
            [0, struck] => Answer::Live { struck },
            [1, 0] => Answer::Dead,
            [2, value] => Answer::Value(value),
            [3, 0] => Answer::Done,
            [refused, 0] => Answer::Refused(CallRefusal::from_word(refused)?),
            _ => return None,
        })
    }
}

/// Settles the book and makes the calls, one after the other.
///
/// A call is 4 bytes, as [`Calls`](crate::Calls) writes them. An assign or a remove cuts the masks and settles
/// them anew; a mark saves them and a back restores them; the others only read. A refused call changes nothing,
/// and the list goes on. On a session opened dead every mask and every number of walls is 0.
///
/// Any bytes may be given. The refusals are those of [`check`](crate::check), then [`Refusal::CallList`] if the
/// calls are not whole calls or have more than [`CALLS_BYTES`](crate::CALLS_BYTES).
///
/// # Panics
///
/// If the linked archive answers a number that is none of this crate's: it is then another archive.
///
/// # Example
///
/// A list that tries two decisions and takes the first back. Each list opens the book anew: a search, which goes on from
/// where it stands, is for [`Live`](crate::Live).
///
/// ```
/// use nested_gcc::{session, Answer, Book, Calls, Refusal, Verdict};
///
/// // Three slots and two types; of type 0 at least one within the first two slots.
/// let book = Book::new(3, 2).row(0, 2, 1, None).to_bytes();
/// let mut calls = Calls::new();
/// calls.mark().assign(0, 1).show(1).back().remove(1, 0);
/// let ran = session(&book, calls.as_bytes())?;
/// assert_eq!(ran.opened, Verdict::Live);
/// let struck = Answer::Live { struck: 2 };
/// assert_eq!(ran.answers, [Answer::Done, struck, Answer::Value(0b01), Answer::Done, struck]);
/// assert_eq!(ran.masks, [0b01, 0b10, 0b11]);
/// # Ok::<(), Refusal>(())
/// ```
pub fn session(book: &[u8], calls: &[u8]) -> Result<Session, Refusal> {
    let mut answers = vec![0; ANSWERS_BYTES];
    let mut masks = [0; MASKS_BYTES];
    let opened = session_into(book, calls, &mut answers, &mut masks)?;
    let answers = words(&answers[..2 * calls.len()])
        .chunks_exact(2)
        .map(|words| answer("nested_gcc_session", [words[0], words[1]]))
        .collect();
    Ok(Session { opened, answers, masks: words(&masks[..4 * slots(book)]) })
}

/// Makes the calls into the caller's bytes: two elements of 32 bits for each call, as [`Answer::words`], and n
/// elements of 32 bits for the last masks; all little-endian.
///
/// Live or dead is how the session opened. What lies past the elements written stays as it is, also a
/// trailing part of an element. A refusal writes nothing. [`Refusal::OutputTooShort`] comes after the refusals
/// of [`session`]. No list needs more than [`ANSWERS_BYTES`] and [`MASKS_BYTES`].
///
/// # Panics
///
/// If the linked archive answers a number that is none of this crate's: it is then another archive.
///
/// ```
/// use nested_gcc::{session_into, Book, Calls, Refusal, Verdict};
///
/// // One slot and two types, of which one is removed. The ninth and the fifth byte stay.
/// let book = Book::new(1, 2).to_bytes();
/// let mut calls = Calls::new();
/// calls.remove(0, 1);
/// let (mut answers, mut masks) = ([7; 9], [7; 5]);
/// let opened = session_into(&book, calls.as_bytes(), &mut answers, &mut masks);
/// assert_eq!(opened, Ok(Verdict::Live));
/// assert_eq!(answers, [0, 0, 0, 0, 1, 0, 0, 0, 7]); // live, 1 struck
/// assert_eq!(masks, [0b01, 0, 0, 0, 7]);
///
/// let opened = session_into(&book, calls.as_bytes(), &mut answers[..7], &mut masks);
/// assert_eq!(opened, Err(Refusal::OutputTooShort));
/// ```
pub fn session_into(
    book: &[u8],
    calls: &[u8],
    answers: &mut [u8],
    masks: &mut [u8],
) -> Result<Verdict, Refusal> {
    verdict("nested_gcc_session", sys::session(book, calls, answers, masks))
}

/// The answer to a call for which `function` has these words.
pub(crate) fn answer(function: &str, words: [u32; 2]) -> Answer {
    match Answer::from_words(words) {
        Some(answer) => answer,
        None => panic!("{function} has the words {words:?}, which are no answer to a call"),
    }
}
