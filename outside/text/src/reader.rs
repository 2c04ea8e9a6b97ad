//! The words of a line, read one after the other.

use crate::error::Error;
use crate::hints;
use crate::letters::told_name;
use crate::nearest::did_you_mean;
use crate::origin::Span;
use crate::tokens::{Token, Word};

pub struct Reader<'a> {
    line: &'a [Word],
    /// How many words are read.
    read: usize,
}

impl<'a> Reader<'a> {
    /// Of the words of a line, at least one.
    pub fn of(line: &'a [Word]) -> Reader<'a> {
        Reader { line, read: 0 }
    }

    /// The next token.
    pub fn peek(&self) -> Option<&'a Token> {
        self.line.get(self.read).map(|word| &word.token)
    }

    /// The token read last.
    pub fn before(&self) -> Option<&'a Token> {
        self.line[..self.read].last().map(|word| &word.token)
    }

    /// Reads the next word, which is there.
    pub fn skip(&mut self) {
        self.read += 1;
    }

    /// Reads a name.
    pub fn name(&mut self, expected: &str) -> Result<(&'a str, Span), Error> {
        match self.line.get(self.read) {
            Some(Word {
                token: Token::Name(name),
                at,
            }) => {
                self.read += 1;
                Ok((name, *at))
            }
            _ => Err(self.error(expected)),
        }
    }

    /// Reads one of these names, and answers what it stands for.
    pub fn one_of(&mut self, choices: &[(&'static str, u8)]) -> Result<u8, Error> {
        let words = choices.iter().map(|(word, _)| *word);
        let expected = listed(&words.clone().collect::<Vec<_>>());
        let Some(Token::Name(name)) = self.peek() else {
            return Err(self.error(&expected));
        };
        match choices.iter().find(|(word, _)| word == name) {
            Some((_, meaning)) => {
                self.read += 1;
                Ok(*meaning)
            }
            None => {
                let error = Error::new(self.at(), &expected, &told_name(name));
                Err(error.or_maybe(did_you_mean(name, words)))
            }
        }
    }

    pub fn end(&self) -> Result<(), Error> {
        match self.peek() {
            None => Ok(()),
            Some(_) => Err(self.error("the end of the line")),
        }
    }

    /// That something else stands next.
    pub fn error(&self, expected: &str) -> Error {
        let Some(found) = self.peek() else {
            return Error::new(self.at(), expected, "the end of the line");
        };
        let hint = match found {
            Token::Strange(sign) => hints::on_sign(sign),
            _ => None,
        };
        Error::new(self.at(), expected, &found.shown()).or_maybe(hint)
    }

    /// Where the next word stands, or the column behind the last one.
    pub fn at(&self) -> Span {
        match self.line.get(self.read) {
            Some(word) => word.at,
            None => self.last().behind(),
        }
    }

    /// Where the word read last stands, or the first one.
    pub fn last(&self) -> Span {
        self.line[self.read.saturating_sub(1)].at
    }
}

/// The word that stands for this, if one does.
pub fn word_for(meaning: u8, choices: &[(&'static str, u8)]) -> Option<&'static str> {
    let (word, _) = choices.iter().find(|(_, other)| *other == meaning)?;
    Some(word)
}

/// The words as a choice: `a`, `b` or `c`.
fn listed(words: &[&str]) -> String {
    let quoted: Vec<String> = words.iter().map(|word| format!("`{word}`")).collect();
    match quoted.split_last() {
        Some((last, others)) if !others.is_empty() => format!("{} or {last}", others.join(", ")),
        _ => quoted.concat(),
    }
}
