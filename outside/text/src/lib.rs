//! Certificates as text: assembling into sealed blocks, and printing.

mod assemble;
mod atoms;
pub mod document;
mod encoding;
mod error;
mod hints;
mod letters;
pub mod level;
mod lines;
mod names;
mod nearest;
mod origin;
mod pointed;
mod print;
mod reader;
pub mod sorts;
mod terms;
mod tokens;

pub use assemble::{assemble, assembled};
pub use encoding::{text_of, LONGEST_TEXT};
pub use error::Error;
pub use origin::{Assembled, BlockOrigin, Span};
pub use pointed::pointed;
pub use print::{print, print_entries};
