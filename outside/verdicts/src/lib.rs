//! The proved archive of the judging layer: whole verdicts held against known
//! answers and against the outside reference.

pub mod calls;
pub mod cases;
pub mod compare;
pub mod hashes;
pub mod known;
pub mod lent;
pub mod loaders;
pub mod marked_bad;
pub mod more_atoms;
pub mod nonce_variables;
pub mod open_secrets;
pub mod proved;
pub mod seals;
pub mod tally;

use std::fmt::{self, Display};

/// The functions that are compared. Tests put wrong ones in their place.
#[derive(Clone, Copy)]
pub struct Checker {
    /// File.
    pub check: fn(&[u8]) -> u32,
    /// File, line buffer.
    pub line: fn(&[u8], &mut [u8]) -> u32,
    /// File, verdict, buffer for the part.
    pub part: fn(&[u8], Spot, &mut [u8]) -> u32,
    /// File, loader, counts.
    pub tally: fn(&[u8], u32, &mut [u32]) -> u32,
    /// Block.
    pub seal: fn(&mut [u8]) -> u32,
}

/// A verdict as numbers. Number 0 is acceptance; the archive takes any other one
/// as a refusal, also where no verdict has it.
#[derive(Clone, Copy, Debug, PartialEq, Eq)]
pub struct Spot {
    pub number: u32,
    pub block: u8,
    pub place: u8,
}

impl Spot {
    /// number x 65,536 + block x 256 + place.
    pub fn packed(&self) -> u32 {
        failed(self.number) + self.block as u32 * 256 + self.place as u32
    }
}

/// The answer of a call that fails with this number.
pub fn failed(number: u32) -> u32 {
    number * 65_536
}

/// An answer that is not as it should be.
pub struct Difference {
    pub question: String,
    pub expected: String,
    pub found: String,
}

impl Difference {
    /// None if the two are the same.
    pub fn between<T: Display>(question: &str, expected: T, found: T) -> Option<Difference> {
        let (expected, found) = (expected.to_string(), found.to_string());
        (expected != found).then(|| Difference {
            question: question.to_string(),
            expected,
            found,
        })
    }
}

impl Display for Difference {
    fn fmt(&self, f: &mut fmt::Formatter<'_>) -> fmt::Result {
        write!(
            f,
            "{}: expected {}, the archive says {}",
            self.question, self.expected, self.found
        )
    }
}
