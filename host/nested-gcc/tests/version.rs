//! One version everywhere: the archive, the header's text and numbers, the Rust crate, the newest heading of CHANGELOG.md,
//! and README.

mod defined;

use nested_gcc::{version, Version};

const CHANGELOG: &str = include_str!("../../../CHANGELOG.md");
const README: &str = include_str!("../../../README.md");

extern "C" {
    fn nested_gcc_version() -> u32;
}

#[test]
fn the_versions_agree() {
    let crates = env!("CARGO_PKG_VERSION");
    let parts: Vec<u32> = crates.split('.').map(|part| part.parse().expect("a number")).collect();
    let [major, minor, patch] = parts[..] else { panic!("{crates} has three numbers") };
    assert!(minor < 256 && patch < 256, "{crates}");
    // SAFETY: nothing is passed.
    assert_eq!(unsafe { nested_gcc_version() }, major * 65536 + minor * 256 + patch);
    assert_eq!(version(), Version { major: major as u16, minor: minor as u8, patch: patch as u8 });
    assert_eq!(version().to_string(), crates);
    assert_eq!(defined::text("NESTED_GCC_VERSION"), format!("\"{crates}\""));
    for (name, number) in [("MAJOR", major), ("MINOR", minor), ("PATCH", patch)] {
        assert_eq!(defined::defined(&format!("NESTED_GCC_VERSION_{name}")), number as usize, "{name}");
    }
    // examples/version.c compares NESTED_GCC_VERSION_NUMBER with nested_gcc_version().
    let heading = CHANGELOG.lines().find_map(|line| line.strip_prefix("## ")).expect("a heading");
    assert_eq!(heading.split_whitespace().next(), Some(crates), "the newest heading of CHANGELOG.md");
    assert!(README.contains(&format!("\n| Version | {crates} ")), "the version in README");
}

#[test]
fn versions_are_ordered() {
    let of = |major, minor, patch| Version { major, minor, patch };
    assert!(of(1, 0, 255) < of(1, 1, 0) && of(1, 255, 255) < of(2, 0, 0));
    assert_eq!(of(12, 3, 40).to_string(), "12.3.40");
}
