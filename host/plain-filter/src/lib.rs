//! A plain second filter of order books, for tests: what `docs/SPECIFICATION.md` says, written to be read,
//! with no care for speed. It shares nothing with the proved code.
//!
//! - [`refusal`]: 0 for a good book, else the number of its refusal.
//! - [`Book`]: a good book, taken apart.
//! - [`start`]: the starting table of a book.
//! - [`close`]: the loosest closed table, or dead.
//! - [`settle`]: the largest stable list, or dead.
//! - [`Machine`]: the plain machine of sessions, call by call.
//! - [`Kept`]: a kept session, the plain machine with the number of calls made and the standing.
//! - [`probe`]: which of a list of assigns die, each alone on the opened book, or the number of the list's refusal.
//! - [`fill`]: a starting table after closing's first two rules alone.
//! - [`canonical_rows`]: one row for each type and end where a closed table has a corner.
//! - [`canonical`]: the canonical book, or dead, or the number of the refusal.
//! - [`import_csv`]: the book that a CSV text orders, or the number of its refusal.

mod book;
mod canonical;
mod closing;
mod csv;
mod kept;
mod machine;
mod probes;
mod settling;

pub use book::{refusal, Book, Row};
pub use canonical::{canonical, canonical_rows, fill};
pub use closing::{close, start, Closing, Table};
pub use csv::import_csv;
pub use kept::{Kept, Standing};
pub use machine::{Machine, Walls};
pub use probes::{probe, Probes};
pub use settling::{settle, Death, Settling};
