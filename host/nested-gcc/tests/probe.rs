//! `probe`, `probe_into` and `menu` on books and lists with every expected byte and number typed by hand; what is
//! written, and what is left, for lengths about the least that will do.

mod chains;
mod lent;

use lent::Lent;
use nested_gcc::{
    menu, probe, probe_into, session, Answer, Book, CallRefusal, Calls, Refusal, Verdict, PROBES_BYTES,
};

/// n = 3, k = 2, masks 3 3 3, one row: type 0, end 2, lower 1, no upper. Type 1 in slot 0 leaves type 0 for slot 1, and
/// the other way round: no pick dies.
fn m8() -> Book {
    Book::new(3, 2).row(0, 2, 1, None)
}

/// n = 2, k = 2, lower 1 at end 1 for types 0 and 1: dead in closing.
fn m6() -> Book {
    Book::new(2, 2).row(0, 1, 1, None).row(1, 1, 1, None)
}

/// n = 2, k = 2; the slots have only type 0, of which one is allowed: it closes, and does not settle.
fn unsettled() -> Book {
    Book::new(2, 2).mask(0, 1).mask(1, 1).row(0, 2, 0, Some(1))
}

/// n = 4, k = 2; of type 0 at least one within 2 slots, and at most one within 4. Every slot keeps both types. In slot
/// 2 or 3 type 0 dies: it is struck from the first two slots, which need it.
fn in_front() -> Book {
    Book::new(4, 2).row(0, 2, 1, None).row(0, 4, 0, Some(1))
}

/// n = 4, k = 4, masks 3 3 3 12; types 0 and 1 at most once each. It settles unchanged. One of the two in slot 0, 1 or
/// 2 leaves the other alone for two slots.
fn m7() -> Book {
    Book::new(4, 4).mask(0, 3).mask(1, 3).mask(2, 3).mask(3, 12).row(0, 4, 0, Some(1)).row(1, 4, 0, Some(1))
}

/// Each type in each slot, slot by slot.
fn every_pick(slots: u16, types: u8) -> Vec<(u16, u8)> {
    (0..slots).flat_map(|slot| (0..types).map(move |board_type| (slot, board_type))).collect()
}

fn assigns(picks: &[(u16, u8)]) -> Vec<u8> {
    let mut calls = Calls::new();
    for &(slot, board_type) in picks {
        calls.assign(slot, board_type);
    }
    calls.as_bytes().to_vec()
}

fn bytes(dies: &[bool]) -> Vec<u8> {
    dies.iter().map(|&dies| dies.into()).collect()
}

/// Every pick of the book: `dead` has a list for each slot, with a byte for each type.
fn assert_probes<const K: usize>(book: &Book, opened: Verdict, dead: &[[u8; K]]) {
    let picks = every_pick(dead.len() as u16, K as u8);
    let mut output = vec![7; picks.len()];
    assert_eq!(probe_into(&book.to_bytes(), &assigns(&picks), &mut output), Ok(opened), "{book:?}");
    for (slot, (got, expected)) in output.chunks_exact(K).zip(dead).enumerate() {
        assert_eq!(got, expected, "slot {slot} of {book:?}");
    }
    let typed = probe(&book.to_bytes(), &picks).expect("an accepted list");
    assert_eq!(bytes(&typed), dead.concat(), "{book:?}");
    for (slot, dead) in dead.iter().enumerate() {
        let living = (0..K).filter(|&v| dead[v] == 0).fold(0, |mask, v| mask | 1 << v);
        assert_eq!(menu(&book.to_bytes(), slot as u16), Ok(living), "slot {slot} of {book:?}");
    }
}

#[test]
fn every_pick_of_a_book() {
    assert_probes(&m8(), Verdict::Live, &[[0, 0], [0, 0], [0, 0]]);
    assert_probes(&in_front(), Verdict::Live, &[[0, 0], [0, 0], [1, 0], [1, 0]]);
    assert_probes(&m7(), Verdict::Live, &[[1, 1, 1, 1], [1, 1, 1, 1], [1, 1, 1, 1], [1, 1, 0, 0]]);
    // None of type 0 within 2 slots: it is struck when the book opens.
    assert_probes(&Book::new(3, 2).row(0, 2, 0, Some(0)), Verdict::Live, &[[1, 0], [1, 0], [0, 0]]);
    // Two of type 1 and one of type 2 within 5 slots, so at most two of type 0, which slots 0 and 1 are. Type 2 in one
    // of the others leaves type 1 for the rest.
    let m4 = Book::new(5, 3).mask(0, 1).mask(1, 1).row(1, 5, 2, None).row(2, 5, 1, None);
    assert_probes(&m4, Verdict::Live, &[[0, 1, 1], [0, 1, 1], [1, 0, 0], [1, 0, 0], [1, 0, 0]]);
    // Each of three types once: the masks leave slot 0 the types 0 and 1, and slot 1 too; so slot 2 has type 2. That is
    // not seen when the book opens. Type 0 in slot 2 leaves slots 0 and 1 only type 1.
    let two_in_two = Book::new(3, 3).mask(0, 3).mask(1, 3);
    let two_in_two = (0..3).fold(two_in_two, |book, v| book.row(v, 3, 1, Some(1)));
    assert_probes(&two_in_two, Verdict::Live, &[[0, 0, 1], [0, 0, 1], [1, 1, 0]]);
}

#[test]
fn every_pick_of_a_dead_book() {
    assert_probes(&m6(), Verdict::Dead, &[[1, 1], [1, 1]]);
    assert_probes(&unsettled(), Verdict::Dead, &[[1, 1], [1, 1]]);
    // One slot and one type, of which two are asked for, or none allowed.
    assert_probes(&Book::new(1, 1).row(0, 1, 2, None), Verdict::Dead, &[[1]]);
    assert_probes(&Book::new(1, 1).row(0, 1, 0, Some(0)), Verdict::Dead, &[[1]]);
    // Of three types in 256 slots at most 85 each.
    let dead = (0..3).fold(Book::new(256, 3), |book, v| book.row(v, 256, 0, Some(85)));
    assert_probes(&dead, Verdict::Dead, &[[1; 3]; 256]);
    // With one more of type 2 there is a plan, and each type may stand in each slot.
    let live = (0..3).fold(Book::new(256, 3), |book, v| book.row(v, 256, 0, Some(85 + u16::from(v == 2))));
    assert_probes(&live, Verdict::Live, &[[0; 3]; 256]);
}

#[test]
fn smallest_and_largest_sizes() {
    assert_probes(&Book::new(1, 1), Verdict::Live, &[[0]]);
    assert_probes(&Book::new(1, 2).mask(0, 1), Verdict::Live, &[[0, 1]]);
    assert_probes(&Book::new(256, 1), Verdict::Live, &[[0]; 256]);
    let mut first_and_last = [1; 32];
    (first_and_last[0], first_and_last[31]) = (0, 0);
    assert_probes(&Book::new(1, 32).mask(0, 0x8000_0001), Verdict::Live, &[first_and_last]);
    // 32 types each once within 32 slots: any may stand anywhere.
    let each_once = (0..32).fold(Book::new(32, 32), |book, v| book.row(v, 32, 1, Some(1)));
    assert_probes(&each_once, Verdict::Live, &[[0; 32]; 32]);
}

/// 8192 picks, in two lists as long as there may be: none of type 31, and none of type 0 in slot 0.
#[test]
fn every_pick_of_256_slots_and_32_types() {
    let book = Book::new(256, 32).row(31, 256, 0, Some(0)).row(0, 1, 0, Some(0)).to_bytes();
    let picks = every_pick(256, 32);
    for picks in picks.chunks_exact(4096) {
        let dead: Vec<u8> = picks.iter().map(|&pick| u8::from(pick == (0, 0) || pick.1 == 31)).collect();
        let mut output = Lent::new(PROBES_BYTES, 0);
        assert_eq!(probe_into(&book, &assigns(picks), output.output()), Ok(Verdict::Live));
        output.assert_written(&dead, &"4096 picks");
        assert_eq!(probe(&book, picks).map(|dies| bytes(&dies)), Ok(dead));
    }
    assert_eq!(menu(&book, 0), Ok(0x7fff_fffe));
    assert_eq!(menu(&book, 1), Ok(0x7fff_ffff));
    assert_eq!(menu(&book, 255), Ok(0x7fff_ffff));
    assert_eq!(menu(&book, 256), Err(Refusal::CallSlot));
}

/// A pick changes nothing for the next one, be it live or dead, and the same pick gets the same byte.
#[test]
fn each_pick_alone() {
    let both = [(0, 1), (1, 1)];
    assert_eq!(probe(&m8().to_bytes(), &both), Ok(vec![false, false]));
    let ran = session(&m8().to_bytes(), &assigns(&both)).expect("an accepted list");
    assert_eq!(ran.answers, [Answer::Live { struck: 2 }, Answer::Dead]);

    // Type 0 in slot 2 dies, type 1 in slot 2 lives; type 0 in slot 0 and in slot 1 lives.
    let (dies, lives) = ((2, 0), [(2, 1), (0, 0), (1, 0)]);
    for living in lives {
        let picks = [dies, living, dies, dies, living, living, dies];
        let expected = vec![true, false, true, true, false, false, true];
        assert_eq!(probe(&in_front().to_bytes(), &picks), Ok(expected), "{living:?}");
    }
    // Every pick in four orders, and three times over.
    let dead = [
        ((0, 0), 0),
        ((0, 1), 0),
        ((1, 0), 0),
        ((1, 1), 0),
        ((2, 0), 1),
        ((2, 1), 0),
        ((3, 0), 1),
        ((3, 1), 0),
    ];
    let orders = [
        [0, 1, 2, 3, 4, 5, 6, 7],
        [7, 6, 5, 4, 3, 2, 1, 0],
        [4, 6, 0, 1, 2, 3, 5, 7],
        [3, 6, 1, 4, 7, 2, 5, 0],
    ];
    for order in orders {
        let turned: Vec<((u16, u8), u8)> = order.iter().map(|&at| dead[at]).collect::<Vec<_>>().repeat(3);
        let picks: Vec<(u16, u8)> = turned.iter().map(|&(pick, _)| pick).collect();
        let expected: Vec<u8> = turned.iter().map(|&(_, byte)| byte).collect();
        assert_eq!(probe(&in_front().to_bytes(), &picks).map(|dies| bytes(&dies)), Ok(expected));
    }
}

/// An idle type is a type as the others are.
#[test]
fn an_idle_type_changes_nothing() {
    for idle in [0, 1] {
        assert_probes(&in_front().idle(idle), Verdict::Live, &[[0, 0], [0, 0], [1, 0], [1, 0]]);
        assert_probes(&unsettled().idle(idle), Verdict::Dead, &[[1, 1], [1, 1]]);
    }
}

/// Slot s has the types s - 1 and s modulo 32, and slot 0 the types 0 and 1. Up to slot v + 1 type v may come once, up
/// to slot v + 33 twice, and so on. With slot 0 or slot 1 fixed, slot 2 has only type 2, slot 3 then only type 3, and
/// so on up to slot 255, which lives. With slot s, from 2 to 32, fixed to type s - 1, slot s - 1 has only type s - 2,
/// and so on down to slots 0 and 1, which both have only type 0, and that dies.
#[test]
fn chains_of_256_slots() {
    let book = chains::strikes().mask(0, 3);
    let picks = [
        ((0, 0), 0),
        ((0, 1), 0),
        ((1, 0), 0),
        ((1, 1), 0),
        ((2, 1), 1),
        ((2, 2), 0),
        ((0, 0), 0),
        ((32, 31), 1),
        ((32, 0), 0),
        ((0, 2), 1),
        ((255, 0), 1),
        ((255, 31), 0),
        ((0, 0), 0),
    ];
    let expected: Vec<u8> = picks.iter().map(|&(_, byte)| byte).collect();
    let picks: Vec<(u16, u8)> = picks.iter().map(|&(pick, _)| pick).collect();
    assert_eq!(probe(&book.to_bytes(), &picks).map(|dies| bytes(&dies)), Ok(expected));
    // The chain from slot 0 fixes slot 254 to type 30, of which 8 are allowed and this is the eighth. Slot 255 has no
    // other type.
    let ends_dead = book.mask(255, 1 << 30);
    assert_eq!(
        probe(&ends_dead.to_bytes(), &[(0, 0), (255, 30), (0, 1), (255, 31)]),
        Ok(vec![true, false, true, true])
    );
    assert_eq!(menu(&ends_dead.to_bytes(), 0), Ok(0));
}

/// A list of one call for each pick, and one list of them all.
#[test]
fn sessions_of_one_call() {
    let chain = chains::strikes().mask(0, 3);
    let books = [
        (m8(), 3, 2, 0),
        (in_front(), 4, 2, 2),
        (m7(), 4, 4, 14),
        // 30 types of each slot are not in its mask, and slots 2 to 32 die with the type before theirs.
        (chain.clone(), 40, 32, 40 * 30 + 31),
        (chain.mask(255, 1 << 30), 2, 32, 64),
    ];
    for (book, slots, types, dying) in books {
        let (book, picks) = (book.to_bytes(), every_pick(slots, types));
        let alone: Vec<bool> = picks
            .iter()
            .map(|&pick| match session(&book, &assigns(&[pick])).expect("an accepted list").answers[..] {
                [Answer::Dead] => true,
                [Answer::Live { .. }] => false,
                ref other => panic!("{other:?}"),
            })
            .collect();
        assert_eq!(alone.iter().filter(|&&dies| dies).count(), dying);
        assert_eq!(probe(&book, &picks), Ok(alone));
    }
}

/// Probes into an output of this length: the answer is the expected one, an accepted list writes these bytes and
/// nothing else, and a refusal writes nothing.
fn assert_probe_into(
    book: &[u8],
    calls: &[u8],
    length: usize,
    expected: Result<Verdict, Refusal>,
    written: &[u8],
) {
    for seed in [0, 1, 2, 3, 252, 253, 254, 255] {
        let case = (length, seed);
        let mut output = Lent::new(length, seed);
        assert_eq!(probe_into(book, calls, output.output()), expected, "{case:?}");
        output.assert_written(if expected.is_ok() { written } else { &[] }, &case);
    }
}

/// The list is refused by this whatever the length of the output.
fn assert_refused(book: &[u8], calls: &[u8], refusal: Refusal) {
    let count = calls.len() / 4;
    for length in [0, 1, count.saturating_sub(1), count, count + 1, 5000] {
        assert_probe_into(book, calls, length, Err(refusal), &[]);
    }
}

/// Each length of the output about the number of calls, and far past it.
fn assert_lengths(book: &[u8], calls: &[u8], opened: Verdict, written: &[u8]) {
    let needed = written.len();
    for length in (0..=4).chain(needed.saturating_sub(9)..=needed + 9).chain([4096, 65536, 65539]) {
        let expected = if length >= needed { Ok(opened) } else { Err(Refusal::OutputTooShort) };
        assert_probe_into(book, calls, length, expected, written);
    }
}

#[test]
fn lengths_of_outputs() {
    let calls = assigns(&[(2, 0), (2, 1), (3, 0), (0, 0), (1, 1)]);
    assert_lengths(&in_front().to_bytes(), &calls, Verdict::Live, &[1, 0, 1, 0, 0]);
    let calls = assigns(&every_pick(2, 2));
    assert_lengths(&m6().to_bytes(), &calls, Verdict::Dead, &[1, 1, 1, 1]);
    assert_lengths(&unsettled().to_bytes(), &calls, Verdict::Dead, &[1, 1, 1, 1]);
    assert_lengths(&m8().to_bytes(), &calls[..4], Verdict::Live, &[0]);
    assert_lengths(&m6().to_bytes(), &calls[..4], Verdict::Dead, &[1]);
    // The longest list.
    let calls = assigns(&[(0, 0), (2, 0), (2, 1), (3, 0)].repeat(1024));
    assert_lengths(&in_front().to_bytes(), &calls, Verdict::Live, &[0, 1, 0, 1].repeat(1024));
    assert_lengths(&m6().to_bytes(), &assigns(&[(1, 1); 4096]), Verdict::Dead, &[1; 4096]);
}

/// A list without calls answers how the book opens, and writes nothing.
#[test]
fn no_calls() {
    for (book, opened) in [(m8(), Verdict::Live), (m6(), Verdict::Dead), (unsettled(), Verdict::Dead)] {
        assert_lengths(&book.to_bytes(), &[], opened, &[]);
        assert_eq!(probe(&book.to_bytes(), &[]), Ok(vec![]));
    }
}

/// 16,384 bytes are 4096 calls; 4 bytes more, or any that are no whole call, are refused, be the calls good or not.
#[test]
fn lengths_of_call_lists() {
    let calls = assigns(&[(0, 1); 8192]);
    for (book, opened, byte) in [(m8(), Verdict::Live, 0), (m6(), Verdict::Dead, 1)] {
        let book = book.to_bytes();
        for count in [1, 2, 4095, 4096] {
            assert_probe_into(&book, &calls[..4 * count], count, Ok(opened), &vec![byte; count]);
        }
        for length in [1, 2, 3, 5, 6, 7, 16381, 16382, 16383, 16385, 16386, 16387, 16388, 16392, 32768] {
            assert_refused(&book, &calls[..length], Refusal::CallList);
        }
        for length in [65536, 65540, 131072, 262144, 262145] {
            let mut output = Lent::new(70000, 3);
            let list = vec![1; length];
            assert_eq!(probe_into(&book, &list, output.output()), Err(Refusal::CallList), "{length}");
            output.assert_written(&[], &length);
        }
        assert_eq!(probe(&book, &[(0, 1); 4096]), Ok(vec![byte == 1; 4096]));
        for picks in [4097, 8192, 70000] {
            assert_eq!(probe(&book, &vec![(0, 1); picks]), Err(Refusal::CallList), "{picks}");
            assert_eq!(probe(&book, &vec![(9, 9); picks]), Err(Refusal::CallList), "{picks}");
        }
    }
}

/// Every kind but 1, be the other fields good or not.
#[test]
fn kinds_other_than_assign() {
    for book in [m8(), m6(), unsettled()] {
        let book = book.to_bytes();
        for kind in (0..=255).filter(|&kind| kind != 1) {
            for call in [[kind, 0, 0, 0], [kind, 1, 1, 0], [kind, 2, 0, 0], [kind, 0, 3, 0], [kind; 4]] {
                let mut output = Lent::new(3, kind.into());
                let lists = [call.to_vec(), [call, [1, 0, 0, 0]].concat(), [[1, 0, 0, 0], call].concat()];
                for list in lists {
                    assert_eq!(probe_into(&book, &list, output.output()), Err(Refusal::CallKind), "{list:?}");
                    output.assert_written(&[], &list);
                }
            }
        }
    }
}

/// Slots are 2 bytes: slot 256 + 1 is not slot 1.
#[test]
fn slot_n_or_more() {
    for (book, slots) in
        [(m8(), 3), (m6(), 2), (unsettled(), 2), (Book::new(256, 2), 256), (Book::new(1, 2), 1)]
    {
        let book = book.to_bytes();
        let others =
            [256, 257, 511, 512, 4096, 32768, 65280, 65535].into_iter().filter(|&slot| slot >= slots);
        for slot in (slots..slots + 4).chain(others) {
            assert_refused(&book, &assigns(&[(slot, 0)]), Refusal::CallSlot);
            assert_eq!(probe(&book, &[(slots - 1, 1), (slot, 1)]), Err(Refusal::CallSlot), "{slot}");
            assert_eq!(menu(&book, slot), Err(Refusal::CallSlot), "{slot}");
        }
        assert!(probe(&book, &[(slots - 1, 0), (0, 1)]).is_ok());
        assert!(menu(&book, slots - 1).is_ok());
    }
}

#[test]
fn type_k_or_more() {
    for (book, types) in [(m8(), 2), (m6(), 2), (m7(), 4), (Book::new(2, 1), 1), (Book::new(2, 32), 32)] {
        let book = book.to_bytes();
        for board_type in types..=255 {
            assert_eq!(probe(&book, &[(0, board_type)]), Err(Refusal::CallType), "{board_type}");
            assert_eq!(
                probe(&book, &[(1, types - 1), (1, board_type)]),
                Err(Refusal::CallType),
                "{board_type}"
            );
        }
        assert_refused(&book, &assigns(&[(0, types)]), Refusal::CallType);
        assert!(probe(&book, &[(1, types - 1)]).is_ok());
    }
}

/// First the book's numbers; then 10; then for each call in turn 11, 12, 13; then 9; then whether the book is live.
#[test]
fn order_of_refusals() {
    let with = |at: usize, byte: u8| {
        let mut bytes = m8().to_bytes();
        bytes[at] = byte;
        bytes
    };
    // n = 3: the masks are at 12, the row at 24; 32 bytes.
    let bad_books = [
        (with(0, 3)[..11].to_vec(), Refusal::TooShort),
        (with(1, 2), Refusal::OutOfRange),
        (with(3, 3), Refusal::IdleType),
        (with(8, 25), Refusal::Layout),
        (with(20, 0), Refusal::Mask),
        (with(24, 2), Refusal::RowType),
        (with(26, 4), Refusal::RowEnd),
        (with(29, 1), Refusal::RowBound),
    ];
    let lists = [
        vec![],
        vec![1, 0, 0, 0],
        vec![1, 0, 0, 0, 1],
        vec![1; 16388],
        vec![2, 0, 0, 0],
        vec![1, 0, 3, 0],
        vec![1, 2, 0, 0],
    ];
    for (book, refusal) in &bad_books {
        for calls in &lists {
            assert_refused(book, calls, *refusal);
        }
    }
    // All three have 2 types, and no slot 3.
    for book in [m8(), m6(), unsettled()] {
        let book = book.to_bytes();
        // 10, and in the whole calls 11, 12, 13.
        assert_refused(&book, &[2, 2, 3, 0, 1], Refusal::CallList);
        assert_refused(&book, &[1, 0, 3, 0, 1, 0], Refusal::CallList);
        assert_refused(&book, &[1, 2, 0, 0, 1, 0, 0], Refusal::CallList);
        assert_refused(&book, &[2; 16388], Refusal::CallList);
        assert_refused(&book, &[1, 2, 0, 0].repeat(4097), Refusal::CallList);
        // One call with 11, 12 and 13; with 11 and 12; 11 and 13; 12 and 13.
        assert_refused(&book, &[0, 2, 3, 0], Refusal::CallKind);
        assert_refused(&book, &[2, 1, 3, 0], Refusal::CallKind);
        assert_refused(&book, &[255, 2, 0, 0], Refusal::CallKind);
        assert_refused(&book, &[1, 2, 3, 0], Refusal::CallSlot);
        assert_refused(&book, &[1, 255, 255, 255], Refusal::CallSlot);
        // Of two bad calls the first.
        let (kind, slot, board_type) = ([5, 0, 0, 0], [1, 0, 0, 1], [1, 32, 0, 0]);
        let pairs = [
            (kind, slot, Refusal::CallKind),
            (kind, board_type, Refusal::CallKind),
            (slot, kind, Refusal::CallSlot),
            (slot, board_type, Refusal::CallSlot),
            (board_type, kind, Refusal::CallType),
            (board_type, slot, Refusal::CallType),
        ];
        for (first, second, refusal) in pairs {
            assert_refused(&book, &[first, second].concat(), refusal);
            assert_refused(&book, &[[1, 0, 0, 0], first, [1, 1, 1, 0], second].concat(), refusal);
        }
        // The last of 4096 calls is looked at.
        for (bad, refusal) in
            [(kind, Refusal::CallKind), (slot, Refusal::CallSlot), (board_type, Refusal::CallType)]
        {
            let calls = [[1, 0, 0, 0].repeat(4095), bad.to_vec()].concat();
            assert_refused(&book, &calls, refusal);
        }
        // 9, be the book live or dead.
        for length in [0, 1] {
            let calls = assigns(&[(0, 0), (1, 1)]);
            assert_probe_into(&book, &calls, length, Err(Refusal::OutputTooShort), &[]);
        }
    }
}

/// The typed list: as `order_of_refusals`.
#[test]
fn order_of_refusals_of_picks() {
    let too_many = vec![(9, 9); 4097];
    for picks in [&[][..], &[(0, 0)], &[(3, 0)], &[(0, 2)], &too_many] {
        assert_eq!(probe(&[], picks), Err(Refusal::TooShort));
        assert_eq!(probe(&m8().to_bytes()[..31], picks), Err(Refusal::Layout));
        assert_eq!(probe(&m8().mask(1, 4).to_bytes(), picks), Err(Refusal::Mask));
    }
    for book in [m8(), m6(), unsettled()] {
        let book = book.to_bytes();
        assert_eq!(probe(&book, &too_many), Err(Refusal::CallList));
        assert_eq!(probe(&book, &[(3, 2)]), Err(Refusal::CallSlot));
        assert_eq!(probe(&book, &[(0, 2), (3, 0)]), Err(Refusal::CallType));
        assert_eq!(probe(&book, &[(1, 1), (3, 0), (0, 2)]), Err(Refusal::CallSlot));
    }
}

/// The numbers and the words of the three refusals; but for the first the words are those of a session's calls.
#[test]
fn words_of_refusals() {
    let refusals = [
        (Refusal::CallKind, CallRefusal::Kind, 11, "kind not 1"),
        (Refusal::CallSlot, CallRefusal::Slot, 12, "slot n or more"),
        (Refusal::CallType, CallRefusal::Type, 13, "type k or more"),
    ];
    for (refusal, of_a_call, number, words) in refusals {
        assert_eq!((refusal.number(), of_a_call.number(), &refusal.to_string()[..]), (number, number, words));
        assert!(number == 11 || of_a_call.to_string() == words);
    }
}

/// Any bytes as a book: the refusal is that of `check`, whatever the slot.
#[test]
fn menus_of_bad_books() {
    let good = m8().to_bytes();
    for slot in [0, 2, 3, 256, 65535] {
        for length in 0..32 {
            let refusal = if length < 12 { Refusal::TooShort } else { Refusal::Layout };
            assert_eq!(menu(&good[..length], slot), Err(refusal), "{length}");
        }
        let longer = [&good[..], &[0]].concat();
        assert_eq!(menu(&longer, slot), Err(Refusal::Layout));
        for types in [0].into_iter().chain(33..=255) {
            let mut book = good.clone();
            book[2] = types;
            assert_eq!(menu(&book, slot), Err(Refusal::OutOfRange), "k = {types}");
            assert_eq!(menu(&book[..12], slot), Err(Refusal::OutOfRange), "k = {types}");
        }
        // k = 1, with a bit of type 1 in the masks; k = 3 to 32 is good.
        let mut book = good.clone();
        book[2] = 1;
        assert_eq!(menu(&book, slot), Err(Refusal::Mask));
        for types in 3..=32 {
            book[2] = types;
            let expected = if slot < 3 { Ok(3) } else { Err(Refusal::CallSlot) };
            assert_eq!(menu(&book, slot), expected, "k = {types}");
        }
        assert_eq!(menu(&m8().idle(2).to_bytes(), slot), Err(Refusal::IdleType));
        assert_eq!(menu(&m8().row(1, 4, 0, None).to_bytes(), slot), Err(Refusal::RowEnd));
        assert_eq!(menu(&[255; 64], slot), Err(Refusal::OutOfRange));
        assert_eq!(menu(&[0; 64], slot), Err(Refusal::OutOfRange));
    }
}

#[test]
fn menus_of_dead_books() {
    for book in [m6(), unsettled()] {
        let book = book.to_bytes();
        assert_eq!((menu(&book, 0), menu(&book, 1)), (Ok(0), Ok(0)));
        assert_eq!(menu(&book, 2), Err(Refusal::CallSlot));
    }
}
