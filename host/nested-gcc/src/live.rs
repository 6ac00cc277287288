use std::fmt;

use crate::sys::State;
use crate::{answer, refusal, verdict, Answer, CallRefusal, Refusal, Verdict, CALLS_BYTES};

/// The most calls that a session makes.
const CALLS_MOST: u64 = 1 << 63;

/// A session that stays: opened once on a book, then stepped as a search goes, call by call or by lists, from where it
/// stands.
///
/// It answers as [`session`](crate::session) does: a list of calls, cut into pieces and run piece by piece, gets the
/// answers of the whole list, and the masks at the end are the same. A session makes up to 2^63 calls. The book is not
/// needed after the opening. The memory, 59,736 bytes, is on the heap; a clone is a second session that stands where the
/// first one does, for a search that tries two ways or runs in several threads.
///
/// The premise of `nested_gcc_step`, that the memory is what the last call left, is kept by this type.
///
/// # Example
///
/// A search for a plan, depth first.
///
/// ```
/// use nested_gcc::{Book, CallRefusal, Decided, Live, Standing};
///
/// /// Whether there is a plan; the masks then have one type each.
/// fn search(session: &mut Live) -> Result<bool, CallRefusal> {
///     let Some(slot) = session.masks().iter().position(|mask| mask.count_ones() != 1) else {
///         return Ok(true);
///     };
///     let lowest = session.masks()[slot].trailing_zeros() as u8;
///     session.mark()?;
///     if session.assign(slot as u16, lowest)? != Decided::Dead && search(session)? {
///         return Ok(true);
///     }
///     session.back()?;
///     Ok(session.remove(slot as u16, lowest)? != Decided::Dead && search(session)?)
/// }
///
/// // Four slots and three types: one of type 2 within the first two slots, two within all; at most one of type 0.
/// let book = Book::new(4, 3).row(2, 2, 1, Some(1)).row(2, 4, 2, Some(2)).row(0, 4, 0, Some(1)).to_bytes();
/// let mut session = Live::open(&book)?;
/// assert!(session.standing() == Standing::Live && search(&mut session)?);
/// assert_eq!(session.masks(), [0b001, 0b100, 0b010, 0b100]);
///
/// // Three slots have only the types 0 and 1, each at most once.
/// let book = Book::new(4, 4).mask(0, 3).mask(1, 3).mask(2, 3).row(0, 4, 0, Some(1)).row(1, 4, 0, Some(1));
/// let mut session = Live::open(&book.to_bytes())?;
/// assert!(session.standing() == Standing::Live && !search(&mut session)?);
/// # Ok::<(), Box<dyn std::error::Error>>(())
/// ```
#[derive(Clone)]
pub struct Live {
    state: Box<State>,
}

/// How a session stands.
#[derive(Clone, Copy, Debug, PartialEq, Eq, Hash)]
pub enum Standing {
    Live,
    /// It died of a call, and no back has made it live again. Calls are numbered from 0 since the opening, refused ones
    /// included.
    Dead {
        call: u64,
    },
    /// The book is dead. This stays so.
    OpenedDead,
}

/// What a decision, an assign or a remove, led to.
#[derive(Clone, Copy, Debug, PartialEq, Eq, Hash)]
#[must_use = "a decision may be dead"]
pub enum Decided {
    /// A stable list lies within the cut masks, and the largest is taken. `struck` is how many types the
    /// masks lost, the book's idle type left out.
    Live { struck: u32 },
    /// No stable list lies within the cut masks. The masks stay, and until a back the session is dead.
    Dead,
}

impl Live {
    /// Opens a session on the book, which is not needed afterwards.
    ///
    /// A session on a dead book is one too: its standing is [`Standing::OpenedDead`], and its masks are 0. Any bytes may
    /// be given; the refusals are those of [`check`](crate::check).
    ///
    /// # Panics
    ///
    /// If the linked archive answers a number that is none of this crate's: it is then another archive.
    ///
    /// ```
    /// use nested_gcc::{Book, Live, Refusal, Standing};
    ///
    /// let session = Live::open(&Book::new(3, 2).row(0, 2, 1, None).to_bytes())?;
    /// assert_eq!((session.standing(), session.masks()), (Standing::Live, &[3, 3, 3][..]));
    ///
    /// // Two of one type cannot be made in one slot.
    /// let session = Live::open(&Book::new(2, 2).row(0, 1, 2, None).to_bytes())?;
    /// assert_eq!((session.standing(), session.masks()), (Standing::OpenedDead, &[0, 0][..]));
    ///
    /// assert_eq!(Live::open(&[]).err(), Some(Refusal::TooShort));
    /// # Ok::<(), Refusal>(())
    /// ```
    pub fn open(book: &[u8]) -> Result<Live, Refusal> {
        match State::open(book) {
            Ok((state, _)) => Ok(Live { state }),
            Err(answer) => match refusal("nested_gcc_open_in", answer) {
                Refusal::OutputTooShort => panic!("the linked archive has a state of another size"),
                refusal => Err(refusal),
            },
        }
    }

    /// Cuts the slot to that type. A type that the slot lacks is dead.
    ///
    /// # Panics
    ///
    /// As every call here: if the session has made 2^63 calls, or the linked archive is another one.
    ///
    /// ```
    /// use nested_gcc::{Book, CallRefusal, Decided, Live, Standing};
    ///
    /// // At least one of type 0 within the first two slots.
    /// let mut session = Live::open(&Book::new(3, 2).row(0, 2, 1, None).to_bytes())?;
    /// session.mark()?;
    /// assert_eq!(session.assign(0, 1)?, Decided::Live { struck: 2 });
    /// assert_eq!(session.masks(), [0b10, 0b01, 0b11]);
    /// assert_eq!(session.assign(1, 1)?, Decided::Dead);
    /// assert_eq!(session.standing(), Standing::Dead { call: 2 });
    /// assert_eq!(session.assign(1, 0), Err(CallRefusal::WhileDead));
    /// assert_eq!(session.assign(3, 0), Err(CallRefusal::Slot));
    /// session.back()?;
    /// assert_eq!((session.standing(), session.masks()), (Standing::Live, &[3, 3, 3][..]));
    /// # Ok::<(), Box<dyn std::error::Error>>(())
    /// ```
    pub fn assign(&mut self, slot: u16, board_type: u8) -> Result<Decided, CallRefusal> {
        self.decide(1, slot, board_type)
    }

    /// Strikes that type from the slot. With a type that the slot lacks it is live with 0 struck.
    pub fn remove(&mut self, slot: u16, board_type: u8) -> Result<Decided, CallRefusal> {
        self.decide(2, slot, board_type)
    }

    /// Saves the masks.
    pub fn mark(&mut self) -> Result<(), CallRefusal> {
        self.done(3)
    }

    /// Restores the masks of the latest mark still open, which is then gone. A dead session gets live.
    pub fn back(&mut self) -> Result<(), CallRefusal> {
        self.done(4)
    }

    /// The slot's mask, made as a call, which has a number; [`masks`](Live::masks) reads without one.
    pub fn show(&mut self, slot: u16) -> Result<u32, CallRefusal> {
        self.value(5, slot, 0)
    }

    /// How many upper walls the type has.
    pub fn upper_walls(&mut self, board_type: u8) -> Result<u32, CallRefusal> {
        self.value(6, 0, board_type)
    }

    /// How many lower walls the type has.
    pub fn lower_walls(&mut self, board_type: u8) -> Result<u32, CallRefusal> {
        self.value(7, 0, board_type)
    }

    /// Makes a list of calls, as [`Calls`](crate::Calls) writes them, of any length: one that is longer than
    /// [`CALLS_BYTES`] is made in several steps.
    ///
    /// A refused call changes nothing, and the list goes on. [`Refusal::CallList`] if the list is not whole calls, or if
    /// the session would come to more than 2^63 calls; no call is made then.
    ///
    /// # Panics
    ///
    /// If the linked archive answers a number that is none of this crate's: it is then another archive.
    ///
    /// ```
    /// use nested_gcc::{Answer, Book, Calls, Live, Refusal};
    ///
    /// let mut session = Live::open(&Book::new(3, 2).row(0, 2, 1, None).to_bytes())?;
    /// let mut calls = Calls::new();
    /// calls.mark().assign(0, 1).show(1).back();
    /// let answers = session.run(calls.as_bytes())?;
    /// assert_eq!(answers, [Answer::Done, Answer::Live { struck: 2 }, Answer::Value(1), Answer::Done]);
    /// assert_eq!(session.run(&calls.as_bytes()[1..]), Err(Refusal::CallList));
    /// assert_eq!(session.calls_made(), 4);
    /// # Ok::<(), Refusal>(())
    /// ```
    pub fn run(&mut self, calls: &[u8]) -> Result<Vec<Answer>, Refusal> {
        let mut words = vec![0; calls.len() / 2];
        self.run_into(calls, &mut words)?;
        Ok(words.chunks_exact(2).map(|words| answer("nested_gcc_step_in", [words[0], words[1]])).collect())
    }

    /// Makes a list of calls of any length into the caller's words: two for each call, as [`Answer::words`].
    ///
    /// Live or dead is how the session stands after the list. Words past those written stay as they are. The refusals
    /// are those of [`run`](Live::run), then [`Refusal::OutputTooShort`] if there are fewer than two words a call; a
    /// refusal makes no call and writes nothing.
    ///
    /// # Panics
    ///
    /// If the linked archive answers a number that is none of this crate's: it is then another archive.
    ///
    /// ```
    /// use nested_gcc::{Book, Calls, Live, Refusal, Verdict};
    ///
    /// let mut session = Live::open(&Book::new(1, 2).to_bytes())?;
    /// let mut calls = Calls::new();
    /// calls.remove(0, 1).assign(0, 1);
    /// let mut words = [7; 5];
    /// assert_eq!(session.run_into(calls.as_bytes(), &mut words), Ok(Verdict::Dead));
    /// assert_eq!(words, [0, 1, 1, 0, 7]); // live, 1 struck; dead
    /// assert_eq!(session.run_into(calls.as_bytes(), &mut words[..3]), Err(Refusal::OutputTooShort));
    /// # Ok::<(), Refusal>(())
    /// ```
    pub fn run_into(&mut self, calls: &[u8], answers: &mut [u32]) -> Result<Verdict, Refusal> {
        if calls.len() % 4 != 0 || self.calls_made() + (calls.len() / 4) as u64 > CALLS_MOST {
            return Err(Refusal::CallList);
        }
        if answers.len() < calls.len() / 2 {
            return Err(Refusal::OutputTooShort);
        }
        for (calls, answers) in calls.chunks(CALLS_BYTES).zip(answers.chunks_mut(CALLS_BYTES / 2)) {
            verdict("nested_gcc_step_in", self.state.step(calls, answers))?;
        }
        Ok(match self.standing() {
            Standing::Live => Verdict::Live,
            Standing::Dead { .. } | Standing::OpenedDead => Verdict::Dead,
        })
    }

    /// The masks, one for each slot: bit v says that the slot may still have type v. A decision that is dead leaves them
    /// as they are. All are 0 if the session opened dead.
    pub fn masks(&self) -> &[u32] {
        self.state.masks()
    }

    /// How the session stands.
    pub fn standing(&self) -> Standing {
        match self.state.standing() {
            (0, _) => Standing::Live,
            (1, call) => Standing::Dead { call },
            _ => Standing::OpenedDead,
        }
    }

    /// How many marks are open, at most [`MARKS_MOST`](crate::MARKS_MOST).
    pub fn open_marks(&self) -> usize {
        self.state.marks()
    }

    /// How many calls were made since the opening, refused ones included: the number of the next call.
    pub fn calls_made(&self) -> u64 {
        self.state.made()
    }

    /// n, the number of slots.
    pub fn slots(&self) -> usize {
        self.state.slots()
    }

    /// k, the number of types.
    pub fn types(&self) -> usize {
        self.state.types()
    }

    fn call(&mut self, kind: u32, slot: u16, board_type: u8) -> Result<Answer, CallRefusal> {
        assert!(self.calls_made() < CALLS_MOST, "a session makes at most 2^63 calls");
        match answer("nested_gcc_call_in", self.state.call(kind, board_type.into(), slot.into())) {
            Answer::Refused(refusal) => Err(refusal),
            answer => Ok(answer),
        }
    }

    fn decide(&mut self, kind: u32, slot: u16, board_type: u8) -> Result<Decided, CallRefusal> {
        match self.call(kind, slot, board_type)? {
            Answer::Live { struck } => Ok(Decided::Live { struck }),
            Answer::Dead => Ok(Decided::Dead),
            other => panic!("nested_gcc_call_in answered a decision by {other:?}"),
        }
    }

    fn done(&mut self, kind: u32) -> Result<(), CallRefusal> {
        match self.call(kind, 0, 0)? {
            Answer::Done => Ok(()),
            other => panic!("nested_gcc_call_in answered a mark or a back by {other:?}"),
        }
    }

    fn value(&mut self, kind: u32, slot: u16, board_type: u8) -> Result<u32, CallRefusal> {
        match self.call(kind, slot, board_type)? {
            Answer::Value(value) => Ok(value),
            other => panic!("nested_gcc_call_in answered a question by {other:?}"),
        }
    }
}

impl fmt::Debug for Live {
    fn fmt(&self, f: &mut fmt::Formatter<'_>) -> fmt::Result {
        f.debug_struct("Live")
            .field("slots", &self.slots())
            .field("types", &self.types())
            .field("calls_made", &self.calls_made())
            .field("open_marks", &self.open_marks())
            .field("standing", &self.standing())
            .finish_non_exhaustive()
    }
}
