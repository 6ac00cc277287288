//! Random sessions: `session` answers and writes as the plain machine does, call by call, and touches nothing
//! else.

mod lent;
mod makers;

use std::collections::BTreeMap;
use std::hint::black_box;

use lent::Lent;
use makers::{random_book, random_call, Habit, HABITS};
use nested_gcc::{session_into, Refusal, Verdict};
use plain_filter::{close, Book, Machine};
use random_books::{bytes, masks_around, near_plan, plan, with_idle, Random};

const SESSIONS: usize = 5_000;
/// How often each kind of case comes up at least.
const LEAST: usize = 100;
/// The most calls in a list.
const CALLS: usize = 4096;

/// How often each kind of case came up.
#[derive(Default)]
struct Met(BTreeMap<String, usize>);

impl Met {
    fn count(&mut self, case: &str) {
        *self.0.entry(case.to_string()).or_default() += 1;
    }

    fn count_if(&mut self, is: bool, case: &str) {
        if is {
            self.count(case);
        }
    }

    /// A decision that is live, where a type is idle: whether that type, and another, is struck.
    fn decision(&mut self, idle: usize, before: &Machine, after: &Machine) {
        let struck: Vec<u32> = before.masks.iter().zip(&after.masks).map(|(old, new)| old & !new).collect();
        let is_idle = struck.iter().any(|mask| mask >> idle & 1 == 1);
        let is_other = struck.iter().any(|mask| mask & !(1 << idle) != 0);
        self.count(match (is_idle, is_other) {
            (true, true) => "live, the idle type struck and others",
            (true, false) => "live, the idle type struck alone",
            (false, true) => "live, others than the idle type struck",
            (false, false) => "live, none struck, a type idle",
        });
    }

    /// A call made on the machine `before`, and its words.
    fn call(&mut self, before: &Machine, [kind, ..]: [u8; 4], words: [u32; 2]) {
        let depth = before.pile.len();
        let what = if before.dead { "dead" } else { "live" };
        match words {
            [0, 0] => self.count("live with 0 struck"),
            [0, 1] => self.count("live with 1 struck"),
            [0, 2..=9] => self.count("live with 2 to 9 struck"),
            [0, _] => self.count("live with 10 or more struck"),
            [1, _] => self.count(if kind == 1 { "dead by an assign" } else { "dead by a remove" }),
            [2, value] if kind >= 6 => {
                let value = if value > 2 { "3 or more".to_string() } else { value.to_string() };
                self.count(&format!("{value} walls of kind {kind}"));
                self.count(&format!("walls of kind {kind} while {what}"));
            }
            [2, _] => self.count(&format!("show while {what}")),
            [3, _] if kind == 3 => {
                self.count("mark");
                self.count_if(depth >= 10, "mark, 10 open before");
                self.count_if(depth == 255, "the 256th mark");
            }
            [3, _] => {
                self.count(&format!("back while {what}"));
                self.count_if(depth >= 10, "back, 10 open before");
                self.count_if(before.masks != before.pile[depth - 1], "back to other masks");
            }
            [refused, _] => {
                self.count(&format!("refused {}", refused - 256));
                self.count_if(refused == 267, &format!("kind {kind}"));
                self.count_if(
                    refused != 267 && refused != 270,
                    &format!("refused {} of kind {kind}", refused - 256),
                );
                self.count_if(
                    refused != 271 && kind < 3,
                    &format!("refused {} of kind {kind} while {what}", refused - 256),
                );
            }
        }
    }
}

/// A list of calls with the words that the plain machine answers, and its last masks.
struct Run {
    opened: Verdict,
    calls: Vec<u8>,
    answers: Vec<u8>,
    masks: Vec<u8>,
}

/// Makes random calls until there are `length`; then, if the list is not empty, asks for the walls of each type
/// as long as a list may have more calls.
fn run(random: &mut Random, book: &Book, length: usize, habit: &Habit, met: &mut Met) -> Run {
    let mut machine = Machine::open(book);
    let opened = if machine.dead { Verdict::Dead } else { Verdict::Live };
    let (mut calls, mut answers) = (Vec::new(), Vec::new());
    let walls = if length == 0 { 0 } else { usize::min(2 * book.k, CALLS - length) };
    for at in 0..length + walls {
        let call = match at.checked_sub(length) {
            None => random_call(random, habit, &machine, book.k),
            Some(wall) => [6 + (wall % 2) as u8, (wall / 2) as u8, random.byte(), random.byte()],
        };
        let before = machine.clone();
        let words = machine.call(call);
        met.call(&before, call, words);
        if let (Some(idle), [0, _]) = (book.idle, words) {
            met.decision(idle, &before, &machine);
        }
        calls.extend(call);
        answers.extend(words.iter().flat_map(|word| word.to_le_bytes()));
    }
    let closes = close(book).table.is_some();
    met.count(match opened {
        Verdict::Live if machine.dead => "opened live, ended dead",
        Verdict::Live => "opened live, ended live",
        Verdict::Dead if closes => "opened dead in settling",
        Verdict::Dead => "opened dead in closing",
    });
    met.count_if(length == 0, "no calls");
    met.count_if(length >= 100, "100 calls or more");
    met.count_if(book.idle.is_none(), "no idle type");
    met.count_if(book.idle == Some(0), "the first type idle");
    met.count_if(book.idle == Some(book.k - 1), "the last type idle");
    let masks = machine.masks.iter().flat_map(|mask| mask.to_le_bytes()).collect();
    Run { opened, calls, answers, masks }
}

/// Outputs of lengths that will do: `session` answers and writes as the plain machine does.
fn assert_runs(random: &mut Random, book: &Book, run: &Run) {
    let mut answers = Lent::new(run.answers.len() + random.below(20), random.below(256));
    let mut masks = Lent::new(run.masks.len() + random.below(12), random.below(256));
    let (book_bytes, calls) = (bytes(book), run.calls.clone());
    let opened = session_into(&book_bytes, &calls, answers.output(), masks.output());
    assert_eq!(opened, Ok(run.opened), "{book:?}");
    for (at, call) in calls.chunks_exact(4).enumerate() {
        let (got, expected) = (&answers.output()[8 * at..][..8], &run.answers[8 * at..][..8]);
        assert_eq!(got, expected, "call {at}, {call:?}, of {calls:?} on {book:?}");
    }
    answers.assert_written(&run.answers, book);
    masks.assert_written(&run.masks, book);
    // The bytes are read anew: a shared slice would let the compiler take them for unchanged.
    assert!(black_box(book_bytes) == bytes(book), "session wrote to {book:?}");
    assert!(black_box(calls) == run.calls, "session wrote to its calls on {book:?}");
}

/// One output too short, or both: `session` refuses and writes nothing.
fn assert_too_short(random: &mut Random, book: &Book, run: &Run) {
    let (enough_answers, enough_masks) = (run.answers.len(), run.masks.len());
    let which = if run.calls.is_empty() { 0 } else { random.below(3) };
    let answers = if which == 0 { enough_answers } else { random.below(enough_answers) };
    let masks = if which == 1 { enough_masks } else { random.below(enough_masks) };
    assert_refused(random, book, &run.calls, (answers, masks), Refusal::OutputTooShort);
}

/// A list that ends within a call: `session` refuses and writes nothing, be the outputs long enough or not.
fn assert_cut_list(random: &mut Random, book: &Book, run: &Run) {
    let mut calls = run.calls.clone();
    calls.extend(vec![random.byte(); random.between(1, 3)]);
    let lengths = random.one_of(&[(0, 0), (run.answers.len() + 8, run.masks.len())]);
    assert_refused(random, book, &calls, lengths, Refusal::CallList);
}

fn assert_refused(random: &mut Random, book: &Book, calls: &[u8], lengths: (usize, usize), refusal: Refusal) {
    let mut answers = Lent::new(lengths.0, random.below(256));
    let mut masks = Lent::new(lengths.1, random.below(256));
    let answer = session_into(&bytes(book), calls, answers.output(), masks.output());
    assert_eq!(answer, Err(refusal), "{lengths:?}, {calls:?} on {book:?}");
    answers.assert_written(&[], book);
    masks.assert_written(&[], book);
}

/// Each kind of case that has to come up.
fn cases() -> Vec<String> {
    let fixed = [
        "live with 0 struck",
        "live with 1 struck",
        "live with 2 to 9 struck",
        "live with 10 or more struck",
        "live, the idle type struck and others",
        "live, the idle type struck alone",
        "live, others than the idle type struck",
        "live, none struck, a type idle",
        "dead by an assign",
        "dead by a remove",
        "show while live",
        "show while dead",
        "mark",
        "mark, 10 open before",
        "the 256th mark",
        "back while live",
        "back while dead",
        "back, 10 open before",
        "back to other masks",
        "opened live, ended dead",
        "opened live, ended live",
        "opened dead in settling",
        "opened dead in closing",
        "no calls",
        "100 calls or more",
        "no idle type",
        "the first type idle",
        "the last type idle",
        "refused 12 of kind 1",
        "refused 12 of kind 2",
        "refused 12 of kind 5",
        "refused 13 of kind 1",
        "refused 13 of kind 2",
        "refused 13 of kind 6",
        "refused 13 of kind 7",
        "refused 15 of kind 1",
        "refused 15 of kind 2",
        "refused 15 of kind 3",
    ];
    let walls = [6, 7].into_iter().flat_map(|kind| {
        let counts = ["0", "1", "2", "3 or more"].map(|count| format!("{count} walls of kind {kind}"));
        let states = ["live", "dead"].map(|state| format!("walls of kind {kind} while {state}"));
        counts.into_iter().chain(states)
    });
    let decisions = ["live", "dead"].into_iter().flat_map(|state| {
        [(12, 1), (12, 2), (13, 1), (13, 2)]
            .map(|(number, kind)| format!("refused {number} of kind {kind} while {state}"))
    });
    let refused = (11..=16).map(|number| format!("refused {number}"));
    let kinds = [0, 8, 9, 127, 128, 129, 255].map(|kind| format!("kind {kind}"));
    fixed.into_iter().map(String::from).chain(walls).chain(decisions).chain(refused).chain(kinds).collect()
}

#[test]
fn random_sessions() {
    let mut random = Random::new(0x510e_527f_ade6_82d1);
    let mut met = Met::default();
    for turn in 0..SESSIONS {
        // Lengths and habits go by the turn modulo 40: each of them meets each idle type.
        let book = with_idle(random_book(&mut random), turn / 40);
        assert_eq!(Book::parse(&bytes(&book)).as_ref(), Ok(&book), "the maker's book is a good one");
        let habit = &HABITS[turn % HABITS.len()];
        let length = match turn % 40 {
            // The maker of many marks.
            2 | 22 => 450,
            11 | 33 => 0,
            12 => 400,
            _ => random.between(1, 120),
        };
        let run = run(&mut random, &book, length, habit, &mut met);
        assert_runs(&mut random, &book, &run);
        assert_too_short(&mut random, &book, &run);
        assert_cut_list(&mut random, &book, &run);
    }
    for (case, times) in &met.0 {
        println!("{times:7} {case}");
    }
    for case in cases() {
        let times = met.0.get(&case).copied().unwrap_or(0);
        assert!(times >= LEAST, "{times} times: {case}");
    }
}

/// Lists of as many calls as there may be, on 256 slots: with 3 types, and with 32; the first without an idle
/// type.
#[test]
fn longest_lists() {
    let mut random = Random::new(0x1f83_d9ab_fb41_bd6b);
    let mut met = Met::default();
    let cases =
        [(3, None, 100, 4, 0), (3, Some(2), 200, 2, 1), (32, Some(0), 800, 1, 0), (32, Some(31), 400, 2, 2)];
    for (k, idle, rows, slack, habit) in cases {
        let plan = plan(&mut random, 256, k, 3);
        let mut book = Book { idle, ..near_plan(&mut random, &plan, k, rows, slack) };
        book.masks = masks_around(&mut random, &plan, k, 4);
        let run = run(&mut random, &book, CALLS, &HABITS[habit], &mut met);
        assert_eq!((run.opened, run.calls.len()), (Verdict::Live, 16384));
        assert_runs(&mut random, &book, &run);
        assert_too_short(&mut random, &book, &run);
    }
    for (case, times) in &met.0 {
        println!("{times:7} {case}");
    }
    let cases = [
        "live with 2 to 9 struck",
        "live with 10 or more struck",
        "live, the idle type struck and others",
        "back to other masks",
    ];
    for case in cases {
        assert!(met.0[case] >= LEAST, "{case}");
    }
}
