//! The lines of a text that are not empty.

use crate::encoding::lone_return;
use crate::error::Error;
use crate::hints;
use crate::origin::Span;
use crate::reader::Reader;
use crate::tokens::{words, Word};
use literal::numbers::kind;

/// The first words of lines, and the kinds of block that these are for.
pub const KEYWORDS: [(&str, u8); 5] = [
    ("atom", kind::ATOMS),
    ("secret", kind::SECRET),
    ("good", kind::GOOD),
    ("bad", kind::BAD),
    ("rule", kind::RULE),
];

pub struct Line {
    pub kind: u8,
    /// At least one.
    pub words: Vec<Word>,
}

impl Line {
    fn of(words: Vec<Word>) -> Result<Line, Error> {
        let kind = Reader::of(&words).one_of(&KEYWORDS)?;
        Ok(Line { kind, words })
    }

    /// The line without its comment and outer spaces.
    pub fn span(&self) -> Span {
        let last = self.words[self.words.len() - 1].at;
        self.words[0].at.up_to(last)
    }

    /// Its words behind the first.
    pub fn reader(&self) -> Reader<'_> {
        let mut reader = Reader::of(&self.words);
        reader.skip();
        reader
    }
}

pub fn lines(text: &str) -> Result<Vec<Line>, Error> {
    if let Some(error) = lone_return(text) {
        return Err(error);
    }
    let numbered = (1..).zip(text.lines());
    let words = numbered.map(|(number, line)| words(number, line));
    let not_empty = words.filter(|words| !words.is_empty());
    not_empty.map(Line::of).collect()
}

/// The atom lines, and the lines after them.
pub fn split(lines: &[Line]) -> Result<(&[Line], &[Line]), Error> {
    let is_atom = |line: &Line| line.kind == kind::ATOMS;
    let end = lines.iter().position(|line| !is_atom(line));
    let (atoms, others) = lines.split_at(end.unwrap_or(lines.len()));
    match others.iter().find(|line| is_atom(line)) {
        Some(late) => {
            let expected = "`secret`, `good`, `bad` or `rule`";
            let error = Error::new(late.words[0].at, expected, "`atom`");
            Err(error.or_hint(hints::ATOMS_FIRST))
        }
        None => Ok((atoms, others)),
    }
}
