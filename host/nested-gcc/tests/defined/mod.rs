//! What `include/nested_gcc.h` defines.

pub const HEADER: &str = include_str!("../../../../include/nested_gcc.h");

/// What the header defines the name as, up to a blank.
pub fn text(name: &str) -> &'static str {
    let texts: Vec<&str> = HEADER
        .lines()
        .filter_map(|line| line.strip_prefix("#define ")?.strip_prefix(name)?.strip_prefix(' '))
        .filter_map(|rest| rest.split_whitespace().next())
        .collect();
    assert_eq!(texts.len(), 1, "the header defines {name} once");
    texts[0]
}

/// The number that the header defines the name as.
pub fn defined(name: &str) -> usize {
    let digits = text(name).strip_suffix('u').expect("an unsigned number");
    digits.parse().expect("a number")
}
