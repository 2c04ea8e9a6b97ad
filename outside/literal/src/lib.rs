//! The pairing certificate checker, written from the document's words.
//! Plain rather than fast: terms are trees, places are paths.

pub mod atom;
pub mod block;
pub mod hats;
pub mod judge;
pub mod loaders;
pub mod numbers;
pub mod read;
pub mod share;
#[cfg(test)]
pub mod slip;
pub mod term;
pub mod verdict;

pub use block::seal;
pub use judge::verdict;
pub use loaders::{check, LoaderCounts, Tally};
pub use share::{common_instance, shares, Filling};
pub use term::{decode, encode, matches, Term};
pub use verdict::{line, packed, print_line, refused_part, Counts, Refusal, Verdict};
