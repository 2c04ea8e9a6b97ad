//! What is wrong with a text, and where.

use crate::origin::Span;
use crate::pointed::pointed;
use std::fmt;

#[derive(Clone, Debug, PartialEq, Eq)]
pub struct Error {
    pub at: Span,
    pub expected: String,
    pub found: String,
    pub hint: Option<String>,
}

impl Error {
    pub(crate) fn new(at: Span, expected: &str, found: &str) -> Error {
        Error {
            at,
            expected: expected.to_string(),
            found: found.to_string(),
            hint: None,
        }
    }

    /// With this hint, if it has none yet.
    pub(crate) fn or_hint(self, hint: &str) -> Error {
        self.or_maybe(Some(hint.to_string()))
    }

    /// With this hint, if there is one and it has none yet.
    pub(crate) fn or_maybe(mut self, hint: Option<String>) -> Error {
        self.hint = self.hint.or(hint);
        self
    }

    /// The error in lines of its own: where and what, the line of the text with
    /// the piece marked if there is one, and the hint.
    pub fn told(&self, file: &str, text: &str) -> String {
        let mut told = format!("{file}:{}", self.said());
        if self.at.width > 0 {
            told += &format!("\n{}", pointed(text, self.at));
        }
        if let Some(hint) = &self.hint {
            told += &format!("\nhint: {hint}");
        }
        told
    }

    /// Where and what, without the hint.
    fn said(&self) -> String {
        let Span { line, column, .. } = self.at;
        let Error {
            expected, found, ..
        } = self;
        format!("{line}:{column}: expected {expected}, found {found}")
    }
}

impl fmt::Display for Error {
    fn fmt(&self, f: &mut fmt::Formatter<'_>) -> fmt::Result {
        f.write_str(&self.said())?;
        match &self.hint {
            Some(hint) => write!(f, "; {hint}"),
            None => Ok(()),
        }
    }
}
