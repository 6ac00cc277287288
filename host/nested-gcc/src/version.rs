use std::fmt;

use crate::sys;

/// A version: major counts up when a signature changes, or what a good input was answered; minor when an entry is added,
/// or what was refused is accepted or refused by another number; patch else. `CHANGELOG.md` of the repository tells them.
#[derive(Clone, Copy, Debug, PartialEq, Eq, PartialOrd, Ord, Hash)]
pub struct Version {
    pub major: u16,
    pub minor: u8,
    pub patch: u8,
}

impl fmt::Display for Version {
    fn fmt(&self, f: &mut fmt::Formatter<'_>) -> fmt::Result {
        write!(f, "{}.{}.{}", self.major, self.minor, self.patch)
    }
}

/// The version of the linked archive. That of this crate is the same; a test holds them together.
///
/// ```
/// use nested_gcc::version;
///
/// assert_eq!(version().to_string(), "1.6.0");
/// assert_eq!((version().major, version().minor), (1, 6));
/// ```
pub fn version() -> Version {
    let number = sys::version();
    let [patch, minor, ..] = number.to_le_bytes();
    Version { major: (number >> 16) as u16, minor, patch }
}
