//! The plain machine on runs with every word typed by hand: M8, also with an idle type, what a dead opening
//! answers, each refusal, and walls.

use plain_filter::{Book, Machine, Row, Walls};

fn row(board_type: usize, end: usize, lower: usize, upper: Option<usize>) -> Row {
    Row { board_type, end, lower, upper }
}

fn book(k: usize, masks: &[u32], rows: &[Row]) -> Book {
    Book { n: masks.len(), k, idle: None, masks: masks.to_vec(), rows: rows.to_vec() }
}

/// M8's book: type 0 end 2 lower 1.
fn m8() -> Book {
    book(2, &[3, 3, 3], &[row(0, 2, 1, None)])
}

/// Makes the calls in turn; each has its two words.
fn assert_run(machine: &mut Machine, run: &[([u8; 4], [u32; 2])]) {
    for &(call, words) in run {
        assert_eq!(machine.call(call), words, "{call:?}");
    }
}

#[test]
fn m8_run() {
    let mut machine = Machine::open(&m8());
    assert!(!machine.dead);
    assert_run(
        &mut machine,
        &[
            ([3, 0, 0, 0], [3, 0]),
            ([1, 1, 0, 0], [0, 2]),
            ([6, 1, 0, 0], [2, 0]),
            ([4, 0, 0, 0], [3, 0]),
            ([6, 1, 0, 0], [2, 1]),
            ([2, 0, 1, 0], [0, 2]),
            ([5, 0, 0, 0], [2, 1]),
            ([1, 1, 0, 0], [1, 0]),
            ([1, 0, 2, 0], [271, 0]),
        ],
    );
    assert_eq!(machine.masks, [1, 2, 3]);
}

/// Each decision of M8's run takes one of either type: an idle type leaves one of the two.
#[test]
fn m8_run_with_an_idle_type() {
    for idle in [0, 1] {
        let mut machine = Machine::open(&Book { idle: Some(idle), ..m8() });
        assert!(!machine.dead);
        assert_run(
            &mut machine,
            &[
                ([3, 0, 0, 0], [3, 0]),
                ([1, 1, 0, 0], [0, 1]),
                ([6, 1, 0, 0], [2, 0]),
                ([4, 0, 0, 0], [3, 0]),
                ([6, 1, 0, 0], [2, 1]),
                ([2, 0, 1, 0], [0, 1]),
                ([5, 0, 0, 0], [2, 1]),
                ([1, 1, 0, 0], [1, 0]),
                ([1, 0, 2, 0], [271, 0]),
            ],
        );
        assert_eq!(machine.masks, [1, 2, 3]);
    }
}

/// Slot 2 loses type 1, and no other slot loses a type.
#[test]
fn one_type_struck() {
    for (idle, words) in [(None, [0, 1]), (Some(0), [0, 1]), (Some(1), [0, 0])] {
        let mut machine = Machine::open(&Book { idle, ..m8() });
        assert_run(&mut machine, &[([1, 0, 2, 0], words)]);
        assert_eq!(machine.masks, [3, 3, 1]);
    }
}

/// Slot 1 keeps type 31 alone, and slot 0 loses type 0.
#[test]
fn the_idle_type_of_32() {
    for (idle, assigned, removed) in [(None, 31, 1), (Some(0), 30, 0), (Some(1), 30, 1), (Some(31), 31, 1)] {
        let mut machine = Machine::open(&Book { idle, ..book(32, &[u32::MAX; 2], &[]) });
        assert_run(&mut machine, &[([1, 31, 1, 0], [0, assigned]), ([2, 0, 0, 0], [0, removed])]);
        assert_eq!(machine.masks, [0xffff_fffe, 0x8000_0000]);
    }
}

/// Dead in closing, and dead in settling: masks 0, no walls, nothing to go back to.
#[test]
fn opened_dead() {
    let dead_in_closing = book(2, &[3, 3], &[row(0, 1, 2, None)]);
    // On masks 0 the formula would find an upper wall of type 0 at end 2.
    let dead_in_settling = book(2, &[1, 1], &[row(0, 2, 0, Some(1))]);
    for book in [dead_in_closing, dead_in_settling] {
        let mut machine = Machine::open(&book);
        assert!(machine.dead);
        assert_eq!(machine.masks, [0, 0]);
        assert_run(
            &mut machine,
            &[
                ([4, 0, 0, 0], [270, 0]),
                ([3, 0, 0, 0], [271, 0]),
                ([1, 0, 0, 0], [271, 0]),
                ([2, 9, 9, 9], [268, 0]),
                ([5, 0, 1, 0], [2, 0]),
                ([6, 0, 0, 0], [2, 0]),
                ([7, 1, 0, 0], [2, 0]),
            ],
        );
    }
}

#[test]
fn refusals() {
    let mut machine = Machine::open(&m8());
    assert_run(
        &mut machine,
        &[
            ([0, 0, 0, 0], [267, 0]),
            ([8, 9, 9, 9], [267, 0]),
            ([1, 9, 3, 0], [268, 0]),
            ([1, 2, 2, 0], [269, 0]),
            ([5, 9, 0, 1], [268, 0]),
            ([5, 9, 2, 0], [2, 3]),
            ([6, 2, 0, 0], [269, 0]),
            ([7, 1, 9, 9], [2, 0]),
            ([4, 9, 9, 9], [270, 0]),
        ],
    );
    for _ in 0..256 {
        assert_run(&mut machine, &[([3, 9, 9, 9], [3, 0])]);
    }
    // An absent type is assigned: dead. Then a mark is refused for that, and the masks stay.
    assert_run(
        &mut machine,
        &[
            ([3, 0, 0, 0], [272, 0]),
            ([2, 1, 2, 0], [0, 1]),
            ([2, 1, 2, 0], [0, 0]),
            ([1, 1, 2, 0], [1, 0]),
            ([3, 0, 0, 0], [271, 0]),
            ([5, 0, 2, 0], [2, 1]),
            ([4, 0, 0, 0], [3, 0]),
            ([3, 0, 0, 0], [3, 0]),
        ],
    );
    assert_eq!(machine.masks, [3, 3, 3]);
}

/// Every later corner counts, also one of slack 0: type 0 may have 1 at end 2 and 2 at end 4, and the slots 2
/// and 3 have no other type.
#[test]
fn a_later_corner_of_slack_0() {
    let rows = [row(0, 2, 0, Some(1)), row(0, 4, 0, Some(2))];
    // The slack at end 2 is 1 - 0, that at end 4 is 2 - 0.
    assert_eq!(Machine::open(&book(2, &[3; 4], &rows)).walls(Walls::Upper, 0), 2);
    // At end 4 it is 2 - 2, so that slots 0 and 1 lose type 0.
    let machine = Machine::open(&book(2, &[3, 3, 1, 1], &rows));
    assert_eq!(machine.masks, [2, 2, 1, 1]);
    assert_eq!(machine.walls(Walls::Upper, 0), 0);
    // At end 4 it is 2 - 1, as at end 2: only the later wall stands.
    assert_eq!(Machine::open(&book(2, &[3, 3, 3, 1], &rows)).walls(Walls::Upper, 0), 1);
}

/// Type 0 needs 1 within 3 slots and 2 within 5; type 1 then has uppers.
#[test]
fn lower_walls() {
    let rows = [row(0, 3, 1, None), row(0, 5, 2, None)];
    // lower 0 0 0 1 1 2: the slack at end 3 is 3 - 1, that at end 5 is 5 - 2.
    let machine = Machine::open(&book(2, &[3; 5], &rows));
    assert_eq!(machine.walls(Walls::Lower, 0), 2);
    assert_eq!(machine.walls(Walls::Lower, 1), 0);
    // upper 0 1 2 2 3 3: the slacks are 2 and 3.
    assert_eq!(machine.walls(Walls::Upper, 1), 2);
    assert_eq!(machine.walls(Walls::Upper, 0), 0);
    // With one slot less that has type 0, both slacks are 2: only the later wall stands.
    assert_eq!(Machine::open(&book(2, &[3, 3, 3, 2, 3], &rows)).walls(Walls::Lower, 0), 1);
    assert_eq!(Machine::open(&book(2, &[3, 3, 3, 3, 2], &rows)).walls(Walls::Lower, 0), 1);
}
