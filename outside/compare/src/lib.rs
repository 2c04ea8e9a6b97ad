//! The proved archive of the term layer, held against known answers and
//! against the outside reference.

pub mod atoms;
pub mod chains;
pub mod large;
pub mod no_terms;
pub mod ordinary;
pub mod outside;
pub mod proved;
pub mod vectors;
pub mod words;

use std::fmt;

/// What is said of two terms.
#[derive(Clone, Copy, Debug, PartialEq, Eq)]
pub enum Answer {
    Yes,
    No,
    /// One of the two is no term.
    NoTerm,
}

impl Answer {
    pub fn of(yes: bool) -> Answer {
        if yes {
            Answer::Yes
        } else {
            Answer::No
        }
    }
}

impl fmt::Display for Answer {
    fn fmt(&self, f: &mut fmt::Formatter<'_>) -> fmt::Result {
        f.write_str(match self {
            Answer::Yes => "yes",
            Answer::No => "no",
            Answer::NoTerm => "no term",
        })
    }
}

#[derive(Clone, Copy, Debug, PartialEq, Eq)]
pub enum Question {
    Shares,
    /// The first of the two is the pattern.
    Matches,
    Same,
}

pub const QUESTIONS: [Question; 3] = [Question::Shares, Question::Matches, Question::Same];

impl fmt::Display for Question {
    fn fmt(&self, f: &mut fmt::Formatter<'_>) -> fmt::Result {
        f.write_str(match self {
            Question::Shares => "shares",
            Question::Matches => "matches",
            Question::Same => "same",
        })
    }
}

/// The line for an answer that is not as it should be.
pub fn disagreement(
    question: Question,
    atoms: &[u8],
    s: &[u8],
    t: &[u8],
    expected: Answer,
    found: Answer,
) -> String {
    let asked = words::asked(question, atoms, s, t);
    format!("{asked}: expected {expected}, the archive says {found}")
}
