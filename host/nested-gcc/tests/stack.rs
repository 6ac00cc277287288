//! The stack that a call needs: measured on a thread whose stack is painted beforehand. `-- --nocapture` prints the
//! figures.

mod chains;

use std::ffi::c_void;
use std::fmt::Debug;
use std::ops::Range;
use std::ptr;
use std::thread;

use nested_gcc::{
    canonical_into, check, close_into, import_csv_into, probe_into, session_into, settle_into, Book,
    CallRefusal, Calls, Decided, Live, Refusal, Standing, Verdict, ANSWERS_BYTES, BOOK_BYTES, MASKS_BYTES,
    PROBES_BYTES, TABLE_BYTES,
};
use random_books::{bytes, masks_around, near_plan, plan, with_idle, Random};

/// How many random books are measured.
const BOOKS: usize = 1_000;

// What include/nested_gcc.h says that this test holds.
const CHECK: usize = 4 * 1024;
const IMPORT: usize = 4 * 1024;
const CLOSE: usize = 48 * 1024;
const CANONICAL: usize = 48 * 1024;
const SETTLE: usize = 320 * 1024;
const SESSION: usize = 512 * 1024;
const PROBE: usize = 320 * 1024;
const OPEN: usize = 256 * 1024;
const STEP: usize = 256 * 1024;

/// What some C libraries give a thread by default. It suffices for a kept session on the random books.
const SMALL_THREAD: usize = 128 * 1024;

const STACK: usize = 1024 * 1024;
const PAINT: u8 = 0xa5;

/// Space for a `pthread_attr_t`, which has 56 bytes on x86-64 Linux.
#[repr(C, align(16))]
struct Attributes([u8; 128]);

extern "C" {
    fn pthread_attr_init(attributes: *mut Attributes) -> i32;
    fn pthread_attr_setstack(attributes: *mut Attributes, stack: *mut c_void, size: usize) -> i32;
    fn pthread_attr_destroy(attributes: *mut Attributes) -> i32;
    fn pthread_create(
        thread: *mut usize,
        attributes: *const Attributes,
        start: extern "C" fn(*mut c_void) -> *mut c_void,
        argument: *mut c_void,
    ) -> i32;
    fn pthread_join(thread: usize, result: *mut *mut c_void) -> i32;
}

/// A page-aligned stack for a thread.
#[repr(C, align(4096))]
struct Stack([u8; STACK]);

/// What a thread is given, and what it leaves.
struct Task<'a> {
    call: &'a mut (dyn FnMut() + 'a),
    /// Where the frame of the caller of `call` lies.
    frame: usize,
}

extern "C" fn run(argument: *mut c_void) -> *mut c_void {
    // SAFETY: `bytes_needed` passes a task that only this thread uses until it is joined.
    let task = unsafe { &mut *argument.cast::<Task>() };
    let mark = 0u8;
    task.frame = ptr::from_ref(&mark) as usize;
    (task.call)();
    ptr::null_mut()
}

/// Bytes of a thread's stack.
#[derive(Clone, Copy, Default)]
struct Needed {
    /// From the frame of the caller down to the lowest byte that the call wrote. The few bytes of the caller below
    /// its mark are counted too.
    call: usize,
    /// From the top of the stack: with the frames that start the thread and what the C library keeps there.
    thread: usize,
}

/// How far down `call` writes.
fn bytes_needed(call: &mut dyn FnMut()) -> Needed {
    let mut stack = Box::new(Stack([PAINT; STACK]));
    let mut task = Task { call, frame: 0 };
    let mut attributes = Attributes([0; 128]);
    let mut thread = 0;
    // SAFETY: the stack, the attributes and the task outlive the thread, which is joined here.
    unsafe {
        assert_eq!(pthread_attr_init(&mut attributes), 0);
        assert_eq!(pthread_attr_setstack(&mut attributes, ptr::from_mut(&mut *stack).cast(), STACK), 0);
        let argument = ptr::from_mut(&mut task).cast();
        assert_eq!(pthread_create(&mut thread, &attributes, run, argument), 0);
        assert_eq!(pthread_join(thread, ptr::null_mut()), 0);
        assert_eq!(pthread_attr_destroy(&mut attributes), 0);
    }
    let bottom = stack.0.as_ptr() as usize;
    let untouched = stack.0.iter().take_while(|&&byte| byte == PAINT).count();
    assert!(untouched > 0, "the thread used its whole stack");
    Needed { call: task.frame - (bottom + untouched), thread: STACK - untouched }
}

/// Runs `call` on each book, or text: it answers what is expected, and needs no more stack than is promised.
fn measure<T: PartialEq + Debug>(
    promised: usize,
    mut call: impl FnMut(&[u8]) -> T,
    books: &[(&str, Vec<u8>, T)],
) {
    for (name, book, expected) in books {
        let mut answer = None;
        let needed = bytes_needed(&mut || answer = Some(call(book)));
        println!("{name}: {} bytes of stack, {} of the thread", needed.call, needed.thread);
        assert_eq!(answer.as_ref(), Some(expected), "{name}");
        assert!(needed.call <= promised, "{name}: {} bytes of stack", needed.call);
    }
}

/// 256 slots, 32 types, the last of them idle, and 1023 rows: with one more row it is as long as a good book
/// can be.
fn almost_longest() -> Book {
    let mut book = Book::new(256, 32).idle(31);
    for row in 0..1023 {
        book = book.row((row % 32) as u8, 256, 8, None);
    }
    book
}

#[test]
fn check_needs_at_most_the_promised_stack() {
    let longest = almost_longest().row(31, 256, 8, None);
    let late_fault = almost_longest().row(31, 256, 257, None);
    let books = [
        ("the longest book", longest.to_bytes(), Ok(())),
        ("a fault in the last row", late_fault.to_bytes(), Err(Refusal::RowBound)),
        ("the shortest book", Book::new(1, 1).to_bytes(), Ok(())),
        ("no bytes", Vec::new(), Err(Refusal::TooShort)),
    ];
    measure(CHECK, check, &books);
}

/// The text of 256 slots, 32 types and 1023 rows, each field of five digits in quotes, and then of `last`.
fn almost_longest_text(last: &str) -> Vec<u8> {
    let row = "\"00031\",\"00256\",\"00008\",\"00256\"\r\n";
    format!("\"00256\",\"00032\"\r\n{}{last}", row.repeat(1023)).into_bytes()
}

#[test]
fn import_csv_needs_at_most_the_promised_stack() {
    let row = "31,256,8,\r\n";
    let texts = [
        ("import: the longest book", almost_longest_text(row), Ok(9228)),
        ("import: a fault in the last row", almost_longest_text("31,256,257,"), Err(Refusal::RowBound)),
        ("import: a row too many", almost_longest_text(&row.repeat(2)), Err(Refusal::OutOfRange)),
        (
            "import: 100,000 rows too many",
            almost_longest_text(&row.repeat(100_001)),
            Err(Refusal::OutOfRange),
        ),
        ("import: 100,000 fields", vec![b','; 99_999], Err(Refusal::Field)),
        ("import: a field of 100,000 quotes", vec![b'"'; 100_000], Err(Refusal::Field)),
        ("import: a field of 99,999 quotes", vec![b'"'; 99_999], Err(Refusal::Quoting)),
        ("import: 100,000 line ends", b"\r\n".repeat(100_000), Err(Refusal::Field)),
        ("import: the shortest text", b"1,1".to_vec(), Ok(16)),
        ("import: no bytes", Vec::new(), Err(Refusal::Field)),
    ];
    let mut book = vec![0; BOOK_BYTES];
    measure(IMPORT, |text| import_csv_into(text, &mut book), &texts);
    let short = [("import: an output too short", almost_longest_text(row), Err(Refusal::OutputTooShort))];
    measure(IMPORT, |text| import_csv_into(text, &mut book[1..]), &short);
}

#[test]
fn close_needs_at_most_the_promised_stack() {
    let longest = almost_longest().row(31, 256, 8, None);
    let late_fault = almost_longest().row(31, 256, 257, None);
    // 32 types with at least 8 each in 256 slots leave no room for a ninth.
    let dead = almost_longest().row(31, 256, 9, None);
    let books = [
        ("the longest book", longest.to_bytes(), Ok(Verdict::Live)),
        ("a dead book", dead.to_bytes(), Ok(Verdict::Dead)),
        ("a fault in the last row", late_fault.to_bytes(), Err(Refusal::RowBound)),
        ("the shortest book", Book::new(1, 1).to_bytes(), Ok(Verdict::Live)),
        ("no bytes", Vec::new(), Err(Refusal::TooShort)),
    ];
    let mut lowers = vec![0; TABLE_BYTES];
    let mut uppers = vec![0; TABLE_BYTES];
    measure(CLOSE, |book| close_into(book, &mut lowers, &mut uppers), &books);
    let short = [("an output too short", longest.to_bytes(), Err(Refusal::OutputTooShort))];
    measure(CLOSE, |book| close_into(book, &mut lowers, &mut uppers[1..]), &short);
}

/// 256 slots and 32 types; of type 0 one within 2 slots, two within 4, and so on: a corner of each type at each of
/// these ends.
fn staircase(steps: u16) -> Book {
    (1..=steps).fold(Book::new(256, 32), |book, step| book.row(0, 2 * step, step, None))
}

#[test]
fn canonical_needs_at_most_the_promised_stack() {
    let longest = almost_longest().row(31, 256, 8, None);
    let late_fault = almost_longest().row(31, 256, 257, None);
    // 32 types with at least 8 each in 256 slots leave no room for a ninth.
    let dead = almost_longest().row(31, 256, 9, None);
    let books = [
        // Just 8 of each of 32 types: a row for each.
        ("canonical: the longest book", longest.to_bytes(), Ok(Some(12 + 4 * 256 + 8 * 32))),
        ("canonical: 1,024 rows", staircase(32).to_bytes(), Ok(Some(BOOK_BYTES))),
        ("canonical: 1,056 rows", staircase(33).to_bytes(), Err(Refusal::TooManyRows)),
        ("canonical: 4,096 rows", staircase(128).to_bytes(), Err(Refusal::TooManyRows)),
        ("canonical: a dead book", dead.to_bytes(), Ok(None)),
        ("canonical: a fault in the last row", late_fault.to_bytes(), Err(Refusal::RowBound)),
        ("canonical: the shortest book", Book::new(1, 1).to_bytes(), Ok(Some(24))),
        ("canonical: no bytes", Vec::new(), Err(Refusal::TooShort)),
    ];
    let mut out = vec![0; BOOK_BYTES];
    measure(CANONICAL, |book| canonical_into(book, &mut out), &books);
    let short = [("canonical: an output too short", staircase(32).to_bytes(), Err(Refusal::OutputTooShort))];
    measure(CANONICAL, |book| canonical_into(book, &mut out[1..]), &short);
}

#[test]
fn settle_needs_at_most_the_promised_stack() {
    let longest = almost_longest().row(31, 256, 8, None);
    let late_fault = almost_longest().row(31, 256, 257, None);
    // 32 types with at least 8 each in 256 slots leave no room for a ninth.
    let dead = almost_longest().row(31, 256, 9, None);
    let books = [
        ("the longest book", longest.to_bytes(), Ok(Verdict::Live)),
        ("a dead book", dead.to_bytes(), Ok(Verdict::Dead)),
        ("a chain of strikes", chains::strikes().to_bytes(), Ok(Verdict::Live)),
        ("a chain of fixes", chains::fixes().to_bytes(), Ok(Verdict::Live)),
        ("a chain that ends dead", chains::strikes().mask(255, 1 << 30).to_bytes(), Ok(Verdict::Dead)),
        ("a fault in the last row", late_fault.to_bytes(), Err(Refusal::RowBound)),
        ("the shortest book", Book::new(1, 1).to_bytes(), Ok(Verdict::Live)),
        ("no bytes", Vec::new(), Err(Refusal::TooShort)),
    ];
    let mut masks = [0; MASKS_BYTES];
    measure(SETTLE, |book| settle_into(book, &mut masks), &books);
    let short = [("an output too short", longest.to_bytes(), Err(Refusal::OutputTooShort))];
    measure(SETTLE, |book| settle_into(book, &mut masks[1..]), &short);
}

#[test]
fn session_needs_at_most_the_promised_stack() {
    let longest = almost_longest().row(31, 256, 8, None);
    let late_fault = almost_longest().row(31, 256, 257, None);
    // 32 types with at least 8 each in 256 slots leave no room for a ninth.
    let dead = almost_longest().row(31, 256, 9, None);
    // With types 0 and 1 in slot 0 the chain begins where the slot is assigned type 0.
    let strikes = chains::strikes().mask(0, 3);
    let fixes = chains::fixes().mask(0, 3);
    let books = [
        ("the longest book", longest.to_bytes(), Ok(Verdict::Live)),
        ("a dead book", dead.to_bytes(), Ok(Verdict::Dead)),
        ("a chain of strikes", strikes.to_bytes(), Ok(Verdict::Live)),
        ("a chain of fixes", fixes.to_bytes(), Ok(Verdict::Live)),
        ("a chain of strikes at the opening", chains::strikes().to_bytes(), Ok(Verdict::Live)),
        ("a fault in the last row", late_fault.to_bytes(), Err(Refusal::RowBound)),
        ("the shortest book", Book::new(1, 1).to_bytes(), Ok(Verdict::Live)),
        ("no bytes", Vec::new(), Err(Refusal::TooShort)),
    ];
    // The chains are begun and taken back; then as many marks as there may be, each with a decision, and a back
    // for each with each kind of question.
    let mut calls = Calls::new();
    for _ in 0..256 {
        calls.mark().assign(0, 0).back();
    }
    for slot in 0..256 {
        calls.mark().remove(slot, 31);
    }
    for _ in 0..256 {
        calls.back().show(0).upper_walls(0).lower_walls(0);
    }
    let mut answers = vec![0; ANSWERS_BYTES];
    let mut masks = [0; MASKS_BYTES];
    measure(SESSION, |book| session_into(book, calls.as_bytes(), &mut answers, &mut masks), &books);
    let short = [("an output too short", longest.to_bytes(), Err(Refusal::OutputTooShort))];
    measure(SESSION, |book| session_into(book, calls.as_bytes(), &mut answers, &mut masks[1..]), &short);
}

/// Assigns of each type to each of the slots.
fn every_pick(slots: Range<u16>, types: u8) -> Calls {
    let mut calls = Calls::new();
    for slot in slots {
        for board_type in 0..types {
            calls.assign(slot, board_type);
        }
    }
    calls
}

#[test]
fn probe_needs_at_most_the_promised_stack() {
    let longest = almost_longest().row(31, 256, 8, None);
    let late_fault = almost_longest().row(31, 256, 257, None);
    // 32 types with at least 8 each in 256 slots leave no room for a ninth.
    let dead = almost_longest().row(31, 256, 9, None);
    // With types 0 and 1 in slot 0 the chain begins where that slot is probed.
    let strikes = chains::strikes().mask(0, 3);
    let fixes = chains::fixes().mask(0, 3);
    let ends_dead = strikes.clone().mask(255, 1 << 30);
    let books = [
        ("probe: the longest book", longest.to_bytes(), Ok(Verdict::Live)),
        ("probe: a dead book", dead.to_bytes(), Ok(Verdict::Dead)),
        ("probe: a chain of strikes", strikes.to_bytes(), Ok(Verdict::Live)),
        ("probe: a chain of fixes", fixes.to_bytes(), Ok(Verdict::Live)),
        ("probe: a chain that ends dead", ends_dead.to_bytes(), Ok(Verdict::Live)),
        ("probe: a chain of strikes at the opening", chains::strikes().to_bytes(), Ok(Verdict::Live)),
        ("probe: a chain of fixes at the opening", chains::fixes().to_bytes(), Ok(Verdict::Live)),
        ("probe: a fault in the last row", late_fault.to_bytes(), Err(Refusal::RowBound)),
        ("probe: no bytes", Vec::new(), Err(Refusal::TooShort)),
    ];
    let mut bytes = [0; PROBES_BYTES];
    for slots in [0..128, 128..256] {
        let calls = every_pick(slots, 32);
        measure(PROBE, |book| probe_into(book, calls.as_bytes(), &mut bytes), &books);
    }
    let calls = every_pick(0..1, 1);
    let shortest = [("probe: the shortest book", Book::new(1, 1).to_bytes(), Ok(Verdict::Live))];
    measure(PROBE, |book| probe_into(book, calls.as_bytes(), &mut bytes), &shortest);
    let calls = every_pick(0..128, 32);
    let short = [("probe: an output too short", longest.to_bytes(), Err(Refusal::OutputTooShort))];
    measure(PROBE, |book| probe_into(book, calls.as_bytes(), &mut bytes[1..]), &short);
    let calls = every_pick(0..1, 33);
    let bad = [("probe: a call that is refused", longest.to_bytes(), Err(Refusal::CallType))];
    measure(PROBE, |book| probe_into(book, calls.as_bytes(), &mut bytes), &bad);
}

/// The opening of a kept session. What the Rust crate does beside calling the library, an allocation, is counted too.
#[test]
fn open_needs_at_most_the_promised_stack() {
    let longest = almost_longest().row(31, 256, 8, None);
    let late_fault = almost_longest().row(31, 256, 257, None);
    // 32 types with at least 8 each in 256 slots leave no room for a ninth.
    let dead = almost_longest().row(31, 256, 9, None);
    let books = [
        ("open: the longest book", longest.to_bytes(), Ok(Standing::Live)),
        ("open: a dead book", dead.to_bytes(), Ok(Standing::OpenedDead)),
        ("open: a chain of strikes", chains::strikes().to_bytes(), Ok(Standing::Live)),
        ("open: a chain of fixes", chains::fixes().to_bytes(), Ok(Standing::Live)),
        ("open: a fault in the last row", late_fault.to_bytes(), Err(Refusal::RowBound)),
        ("open: the shortest book", Book::new(1, 1).to_bytes(), Ok(Standing::Live)),
        ("open: no bytes", Vec::new(), Err(Refusal::TooShort)),
    ];
    measure(OPEN, |book| Live::open(book).map(|session| session.standing()), &books);
}

/// As `session_needs_at_most_the_promised_stack`, in steps and in calls on a session that is kept.
#[test]
fn steps_and_calls_need_at_most_the_promised_stack() {
    // 32 types with at least 8 each in 256 slots leave no room for a ninth.
    let dead = almost_longest().row(31, 256, 9, None);
    let books = [
        ("the longest book", almost_longest().row(31, 256, 8, None)),
        ("a dead book", dead),
        ("a chain of strikes", chains::strikes().mask(0, 3)),
        ("a chain of fixes", chains::fixes().mask(0, 3)),
        ("the shortest book", Book::new(1, 2)),
    ];
    let mut calls = Calls::new();
    for _ in 0..256 {
        calls.mark().assign(0, 0).back();
    }
    for slot in 0..256 {
        calls.mark().remove(slot, 31);
    }
    for _ in 0..256 {
        calls.back().show(0).upper_walls(0).lower_walls(0);
    }
    let mut answers = vec![0; 2 * calls.len()];
    for (name, book) in books {
        let mut session = Live::open(&book.to_bytes()).expect("a good book");
        let live = session.standing() == Standing::Live;
        let mut answer = None;
        let needed = bytes_needed(&mut || answer = Some(session.run_into(calls.as_bytes(), &mut answers)));
        assert_eq!(answer, Some(Ok(if live { Verdict::Live } else { Verdict::Dead })), "{name}");
        assert_step(&format!("step: {name}"), needed);
        let mut decided = None;
        let needed = bytes_needed(&mut || decided = Some(session.assign(0, 0)));
        if live {
            assert!(matches!(decided, Some(Ok(Decided::Live { .. }))), "{name}: {decided:?}");
        } else {
            assert_eq!(decided, Some(Err(CallRefusal::WhileDead)), "{name}");
        }
        assert_step(&format!("call: {name}"), needed);
    }
}

fn assert_step(name: &str, needed: Needed) {
    println!("{name}: {} bytes of stack, {} of the thread", needed.call, needed.thread);
    assert!(needed.call <= STEP, "{name}: {} bytes of stack", needed.call);
}

/// A book of 256 slots and 2 to 32 types around a plan, which it keeps, and a list of up to 400 decisions, marks and
/// backs. The length of the list says which type is idle.
fn random_book_and_calls(random: &mut Random) -> (Vec<u8>, Calls) {
    let k = random.one_of(&[2, 3, 4, 6, 8, 16, 32]);
    let (longest, rows, slack) = (random.between(1, 4), random.between(32, 1024), random.below(3));
    let plan = plan(random, 256, k, longest);
    let mut book = near_plan(random, &plan, k, rows, slack);
    if random.below(3) > 0 {
        let eighths = random.between(1, 8);
        book.masks = masks_around(random, &plan, k, eighths);
    }
    let mut calls = Calls::new();
    for _ in 0..random.between(1, 400) {
        let slot = random.below(256);
        match random.below(6) {
            0 => calls.mark(),
            1 => calls.back(),
            2 => calls.assign(slot as u16, plan[slot] as u8),
            3 => calls.assign(slot as u16, random.below(k) as u8),
            _ => calls.remove(slot as u16, random.below(k) as u8),
        };
    }
    (bytes(&with_idle(book, calls.len())), calls)
}

/// Each decision of the list as an assign.
fn picks(calls: &Calls) -> Vec<u8> {
    let decisions = calls.as_bytes().chunks_exact(4).filter(|call| [1, 2].contains(&call[0]));
    decisions.flat_map(|call| [1, call[1], call[2], call[3]]).collect()
}

#[test]
fn random_books_need_at_most_the_promised_stack() {
    let mut random = Random::new(1_234_567);
    let mut answers = vec![0; ANSWERS_BYTES];
    let mut masks = [0; MASKS_BYTES];
    let (mut settling, mut session, mut probes, mut opening, mut steps) =
        (Vec::new(), Vec::new(), Vec::new(), Vec::new(), Vec::new());
    let mut words = vec![0; ANSWERS_BYTES / 4];
    let mut dead = [0; PROBES_BYTES];
    for _ in 0..BOOKS {
        let (book, calls) = random_book_and_calls(&mut random);
        let mut answer = None;
        settling.push(bytes_needed(&mut || answer = Some(settle_into(&book, &mut masks))));
        assert_eq!(answer, Some(Ok(Verdict::Live)));
        session.push(bytes_needed(&mut || {
            answer = Some(session_into(&book, calls.as_bytes(), &mut answers, &mut masks));
        }));
        assert_eq!(answer, Some(Ok(Verdict::Live)));
        let picks = picks(&calls);
        probes.push(bytes_needed(&mut || answer = Some(probe_into(&book, &picks, &mut dead))));
        assert_eq!(answer, Some(Ok(Verdict::Live)));
        let mut kept = None;
        opening.push(bytes_needed(&mut || kept = Live::open(&book).ok()));
        let mut kept = kept.expect("a good book");
        let mut ran = None;
        steps.push(bytes_needed(&mut || ran = Some(kept.run_into(calls.as_bytes(), &mut words))));
        assert!(ran.is_some_and(|ran| ran.is_ok()));
    }
    let measured = [
        ("settle", settling, SETTLE),
        ("session", session, SESSION),
        ("probe", probes, PROBE),
        ("open", opening, OPEN),
        ("step", steps, STEP),
    ];
    for (name, needed, promised) in measured {
        let mut calls: Vec<usize> = needed.iter().map(|needed| needed.call).collect();
        calls.sort();
        let (least, middle, most) = (calls[0], calls[BOOKS / 2], calls[BOOKS - 1]);
        let thread = needed.iter().map(|needed| needed.thread).max().unwrap_or(0);
        println!("{name} on random books: {least}, {middle}, {most} bytes of stack, {thread} of the thread");
        assert!(most <= promised, "{name}: {most} bytes of stack");
        if ["open", "step"].contains(&name) {
            assert!(thread < SMALL_THREAD, "{name}: {thread} bytes of a thread's stack");
        }
    }
}

/// A kept session lives in a thread of 128 KiB, on random books.
#[test]
fn small_threads() {
    let mut random = Random::new(7_654_321);
    for _ in 0..BOOKS / 10 {
        let (book, calls) = random_book_and_calls(&mut random);
        let search = move || {
            let mut session = Live::open(&book).expect("a good book");
            let answers = session.run(calls.as_bytes()).expect("an accepted list");
            assert_eq!(answers.len(), calls.len());
        };
        let thread = thread::Builder::new().stack_size(SMALL_THREAD).spawn(search);
        thread.expect("a thread").join().expect("the search ends");
    }
}
