//! The plain kept session on runs typed by hand: the numbers of calls go on from step to step, and the standing with them.

use plain_filter::{Book, Kept, Row, Standing};

/// n = 3, k = 2, masks 3 3 3, one row: type 0, end 2, lower 1, no upper.
fn m8() -> Book {
    let row = Row { board_type: 0, end: 2, lower: 1, upper: None };
    Book { n: 3, k: 2, idle: None, masks: vec![3, 3, 3], rows: vec![row] }
}

#[test]
fn m8_in_steps() {
    let mut kept = Kept::open(&m8());
    assert_eq!((kept.made, kept.standing), (0, Standing::Live));
    assert_eq!(kept.step(&[3, 0, 0, 0, 1, 1, 0, 0], 4), Ok(vec![3, 0, 0, 2]));
    assert_eq!((kept.made, kept.standing, &kept.machine.masks[..]), (2, Standing::Live, &[2, 1, 3][..]));
    assert_eq!(kept.step(&[], 0), Ok(vec![]));
    // Refused, dead, refused.
    assert_eq!(kept.step(&[0, 0, 0, 0, 1, 1, 1, 0, 3, 0, 0, 0], 6), Ok(vec![267, 0, 1, 0, 271, 0]));
    assert_eq!((kept.made, kept.standing, &kept.machine.masks[..]), (5, Standing::Dead(3), &[2, 1, 3][..]));
    assert_eq!(kept.call([5, 0, 0, 0]), [2, 2]);
    assert_eq!((kept.made, kept.standing), (6, Standing::Dead(3)));
    assert_eq!(kept.call([4, 0, 0, 0]), [3, 0]);
    assert_eq!((kept.made, kept.standing, &kept.machine.masks[..]), (7, Standing::Live, &[3, 3, 3][..]));
}

/// As `m8_in_steps`: of the two types struck one is idle.
#[test]
fn m8_in_steps_with_an_idle_type() {
    for idle in [0, 1] {
        let mut kept = Kept::open(&Book { idle: Some(idle), ..m8() });
        assert_eq!(kept.step(&[3, 0, 0, 0, 1, 1, 0, 0], 4), Ok(vec![3, 0, 0, 1]));
        assert_eq!((kept.made, kept.standing, &kept.machine.masks[..]), (2, Standing::Live, &[2, 1, 3][..]));
        // Slot 2 loses type 1.
        assert_eq!(kept.clone().call([1, 0, 2, 0]), [0, if idle == 1 { 0 } else { 1 }]);
        assert_eq!(kept.step(&[1, 1, 1, 0, 5, 0, 0, 0, 4, 0, 0, 0], 6), Ok(vec![1, 0, 2, 2, 3, 0]));
        assert_eq!(kept.call([2, 0, 1, 0]), [0, 1]);
        assert_eq!((kept.made, kept.standing, &kept.machine.masks[..]), (6, Standing::Live, &[1, 2, 3][..]));
    }
}

#[test]
fn refusals_change_nothing() {
    let mut kept = Kept::open(&m8());
    assert_eq!(kept.step(&[3, 0, 0], 100), Err(10));
    assert_eq!(kept.step(&[3; 16388], 10000), Err(10));
    assert_eq!(kept.step(&[3, 0, 0], 0), Err(10));
    assert_eq!(kept.step(&[3, 0, 0, 0], 1), Err(9));
    assert_eq!((kept.made, kept.machine.pile.len()), (0, 0));
}

#[test]
fn opened_dead() {
    let mut book = m8();
    book.rows.push(Row { board_type: 0, end: 2, lower: 0, upper: Some(0) });
    let mut kept = Kept::open(&book);
    assert_eq!(kept.step(&[1, 0, 0, 0, 4, 0, 0, 0, 5, 0, 0, 0], 6), Ok(vec![271, 0, 270, 0, 2, 0]));
    assert_eq!((kept.made, kept.standing), (3, Standing::OpenedDead));
}
