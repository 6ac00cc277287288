//! The files of data are the generator's, and are what their names say.

use std::collections::BTreeMap;
use std::fs;
use std::path::Path;

/// The files of data/books: each name, without `.bin`, with its bytes.
fn bundled() -> BTreeMap<String, Vec<u8>> {
    files("books")
}

/// The files of a folder in data.
fn files(folder: &str) -> BTreeMap<String, Vec<u8>> {
    let folder = Path::new(env!("CARGO_MANIFEST_DIR")).join("../../data").join(folder);
    let mut files = BTreeMap::new();
    for entry in fs::read_dir(&folder).expect("the folder can be listed") {
        let path = entry.expect("the folder can be listed").path();
        let name = path.file_name().unwrap().to_str().unwrap();
        let name = name.strip_suffix(".bin").expect("each file is a .bin");
        files.insert(name.to_string(), fs::read(&path).expect("each file can be read"));
    }
    files
}

#[test]
fn files_are_the_generators() {
    for (folder, made) in [("books", sample_books::samples()), ("M8", sample_books::m8_run())] {
        let made: BTreeMap<_, _> = made.into_iter().map(|s| (s.name.to_string(), s.bytes)).collect();
        assert!(files(folder) == made, "write them anew: cargo run -p sample-books -- ../data");
    }
}

/// The good books typed byte by byte: n, k, no idle type, r, masks at, rows at, length; then the
/// masks; then for each row type, 0, end, lower, upper.
#[test]
fn good_books_have_these_bytes() {
    let files = bundled();
    let m1 = [1, 0, 1, 0, 0, 0, 12, 0, 16, 0, 16, 0, 1, 0, 0, 0];
    let m2 = [
        5, 0, 2, 0, 1, 0, 12, 0, 32, 0, 40, 0, //
        3, 0, 0, 0, 3, 0, 0, 0, 3, 0, 0, 0, 3, 0, 0, 0, 3, 0, 0, 0, //
        0, 0, 4, 0, 2, 0, 255, 255,
    ];
    let m3 = [
        5, 0, 2, 0, 1, 0, 12, 0, 32, 0, 40, 0, //
        3, 0, 0, 0, 3, 0, 0, 0, 3, 0, 0, 0, 3, 0, 0, 0, 3, 0, 0, 0, //
        0, 0, 4, 0, 0, 0, 2, 0,
    ];
    let m4 = [
        5, 0, 3, 0, 2, 0, 12, 0, 32, 0, 48, 0, //
        7, 0, 0, 0, 7, 0, 0, 0, 7, 0, 0, 0, 7, 0, 0, 0, 7, 0, 0, 0, //
        1, 0, 5, 0, 2, 0, 255, 255, //
        2, 0, 5, 0, 1, 0, 255, 255,
    ];
    let m4_two_slots_fixed = [
        5, 0, 3, 0, 2, 0, 12, 0, 32, 0, 48, 0, //
        1, 0, 0, 0, 1, 0, 0, 0, 7, 0, 0, 0, 7, 0, 0, 0, 7, 0, 0, 0, //
        1, 0, 5, 0, 2, 0, 255, 255, //
        2, 0, 5, 0, 1, 0, 255, 255,
    ];
    let m5 = [
        2, 0, 2, 0, 1, 0, 12, 0, 20, 0, 28, 0, //
        3, 0, 0, 0, 3, 0, 0, 0, //
        0, 0, 1, 0, 2, 0, 255, 255,
    ];
    let m6 = [
        2, 0, 2, 0, 2, 0, 12, 0, 20, 0, 36, 0, //
        3, 0, 0, 0, 3, 0, 0, 0, //
        0, 0, 1, 0, 1, 0, 255, 255, //
        1, 0, 1, 0, 1, 0, 255, 255,
    ];
    let m7 = [
        4, 0, 4, 0, 2, 0, 12, 0, 28, 0, 44, 0, //
        3, 0, 0, 0, 3, 0, 0, 0, 3, 0, 0, 0, 12, 0, 0, 0, //
        0, 0, 4, 0, 0, 0, 1, 0, //
        1, 0, 4, 0, 0, 0, 1, 0,
    ];
    let m8 = [
        3, 0, 2, 0, 1, 0, 12, 0, 24, 0, 32, 0, //
        3, 0, 0, 0, 3, 0, 0, 0, 3, 0, 0, 0, //
        0, 0, 2, 0, 1, 0, 255, 255,
    ];
    assert_eq!(files["M1"], m1);
    assert_eq!(files["M2"], m2);
    assert_eq!(files["M3"], m3);
    assert_eq!(files["M4"], m4);
    assert_eq!(files["M4_two_slots_fixed"], m4_two_slots_fixed);
    assert_eq!(files["M5"], m5);
    assert_eq!(files["M6"], m6);
    assert_eq!(files["M7"], m7);
    assert_eq!(files["M8"], m8);
}

/// Each bad book is refused with the number in its name, and the others are good.
#[test]
fn files_are_what_their_names_say() {
    let mut numbers = Vec::new();
    for (name, bytes) in bundled() {
        let expected = match name.strip_prefix("bad_") {
            Some(rest) => rest[..1].parse().unwrap(),
            None => 0,
        };
        let number = nested_gcc::check(&bytes).map_or_else(|refusal| refusal.number(), |()| 0);
        assert_eq!(number, expected, "{name}");
        numbers.push(number);
    }
    assert_eq!(numbers, [0, 0, 0, 0, 0, 0, 0, 0, 0, 1, 2, 3, 4, 5, 6, 7, 8]);
}

/// M8's run typed byte by byte: the book of data/books; for each call kind, type, slot.
#[test]
fn m8_run_has_these_bytes() {
    let files = files("M8");
    let calls = [
        3, 0, 0, 0, // mark
        1, 1, 0, 0, // assign slot 0 type 1
        6, 1, 0, 0, // kind 6 type 1
        4, 0, 0, 0, // back
        6, 1, 0, 0, // kind 6 type 1
        2, 0, 1, 0, // remove type 0 from slot 1
        5, 0, 0, 0, // show 0
        1, 1, 0, 0, // assign slot 0 type 1
        1, 0, 2, 0, // assign slot 2 type 0
    ];
    assert_eq!(files["book"], bundled()["M8"]);
    assert_eq!(files["calls"], calls);
    assert_eq!(files.len(), 2);
}
