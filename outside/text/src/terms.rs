//! Secrets, patterns and rules: the terms of a line.

use crate::error::Error;
use crate::hints;
use crate::lines::Line;
use crate::names::{near_atom, no_atom, number_of, BlockVariables};
use crate::origin::{BlockOrigin, Span};
use crate::reader::Reader;
use crate::sorts::Sort;
use crate::tokens::{Token, Word};
use literal::block::sealed;
use literal::numbers::{kind, MOST_ENTRIES};
use literal::{encode, Term};

/// The sealed block of a line of terms, and where its parts come from.
pub fn term_block(line: &Line, names: &[String]) -> Result<(Vec<u8>, BlockOrigin), Error> {
    let mut terms = Terms {
        words: &line.words,
        reader: line.reader(),
        names,
        variables: BlockVariables::of(&line.words),
        entries: Vec::new(),
    };
    let block = match line.kind {
        kind::RULE => terms.rule()?,
        kind => terms.one(kind)?,
    };
    let origin = BlockOrigin {
        line: line.span(),
        entries: terms.entries,
        variables: terms.variables.named(),
    };
    Ok((block, origin))
}

/// Reads the terms of one line.
struct Terms<'a> {
    words: &'a [Word],
    reader: Reader<'a>,
    names: &'a [String],
    variables: BlockVariables,
    /// Where the entries read so far stand.
    entries: Vec<Span>,
}

impl Terms<'_> {
    /// The block of a line with one term.
    fn one(&mut self, kind: u8) -> Result<Vec<u8>, Error> {
        let term = self.whole_term()?;
        self.end()?;
        Ok(sealed(kind, &term, &[]))
    }

    fn rule(&mut self) -> Result<Vec<u8>, Error> {
        let premise = match self.reader.peek() {
            Some(Token::Arrow) => Vec::new(),
            _ => self.whole_term()?,
        };
        let hint = match self.reader.peek() {
            Some(Token::Sign(',')) => hints::PREMISE,
            _ => hints::RULE,
        };
        self.expect(Token::Arrow, Some(hint))?;
        let conclusion = self.whole_term()?;
        self.end()?;
        Ok(sealed(kind::RULE, &premise, &conclusion))
    }

    /// The entries of the next term.
    fn whole_term(&mut self) -> Result<Vec<u8>, Error> {
        let root = self.entries.len();
        let term = self.term(1)?;
        let size = term.size();
        if size > MOST_ENTRIES {
            return Err(too_long(self.entries[root], &format!("one of {size}")));
        }
        Ok(encode(&term))
    }

    /// The next term, which is so deep in the whole one. Its entry stands
    /// before those of its parts, and its piece ends where they have ended.
    fn term(&mut self, depth: usize) -> Result<Term, Error> {
        let first = self.reader.at();
        if depth > MOST_ENTRIES {
            return Err(too_long(first, "one that is nested deeper"));
        }
        let entry = self.entries.len();
        self.entries.push(first);
        let term = self.by_first_word(depth)?;
        self.entries[entry] = first.up_to(self.reader.last());
        Ok(term)
    }

    fn by_first_word(&mut self, depth: usize) -> Result<Term, Error> {
        match self.reader.peek() {
            Some(Token::Name(name)) => {
                let number = self.atom("an atom's name");
                let number = number.map_err(|error| error.or_maybe(hints::on_unknown(name)));
                Ok(Term::Atom(number?))
            }
            Some(Token::Variable(sort, name)) => self.variable(*sort, name),
            Some(Token::Sign('(')) => {
                self.reader.skip();
                let left = self.part(depth, ',', hints::PAIR)?;
                let right = self.part(depth, ')', hints::TUPLE)?;
                Ok(Term::pair(left, right))
            }
            Some(Token::Sign('{')) => {
                let message = self.message(depth, '}')?;
                Ok(Term::encryption(message, self.key(hints::ENCRYPTION)?))
            }
            Some(Token::Hash) => Ok(Term::hash(self.message(depth, ')')?)),
            Some(Token::Signature) => {
                let message = self.message(depth, ')')?;
                Ok(Term::signature(message, self.key(hints::SIGNATURE)?))
            }
            _ => Err(self.reader.error("a term")),
        }
    }

    /// Behind the next word, which opens it, one term up to this sign.
    fn message(&mut self, depth: usize, end: char) -> Result<Term, Error> {
        self.reader.skip();
        self.part(depth, end, hints::MESSAGE)
    }

    /// One term up to this sign. The hint is for another number of terms.
    fn part(&mut self, depth: usize, end: char, hint: &str) -> Result<Term, Error> {
        let part = self.term(depth + 1)?;
        let is_other_number = matches!(self.reader.peek(), Some(Token::Sign(',' | ')')));
        self.expect(Token::Sign(end), is_other_number.then_some(hint))?;
        Ok(part)
    }

    fn variable(&mut self, sort: Sort, name: &str) -> Result<Term, Error> {
        let number = self.variables.number(sort, name, self.reader.at())?;
        self.reader.skip();
        Ok(sort.variable(number))
    }

    fn key(&mut self, hint: &str) -> Result<u16, Error> {
        let hint = match self.reader.peek() {
            Some(Token::Variable(..)) => hints::VARIABLE_KEY,
            _ => hint,
        };
        match self.reader.peek() {
            Some(Token::Name(_)) => self.atom("a key's name"),
            _ => Err(self.reader.error("a key's name").or_hint(hint)),
        }
    }

    /// The number of the atom that is named next.
    fn atom(&mut self, expected: &str) -> Result<u16, Error> {
        let (name, at) = self.reader.name(expected)?;
        let Some(number) = number_of(name, self.names) else {
            let hint = self.call_hint().or_else(|| hints::on_form(name));
            let hint = hint.or_else(|| self.variable_hint(name));
            let error = no_atom(at, expected, name).or_maybe(hint);
            return Err(error.or_maybe(near_atom(name, self.names)));
        };
        Ok(number)
    }

    /// If a name is read and `(` stands behind it.
    fn call_hint(&self) -> Option<String> {
        match (self.reader.before(), self.reader.peek()) {
            (Some(Token::Name(name)), Some(Token::Sign('('))) => Some(hints::on_call(name)),
            _ => None,
        }
    }

    /// If the line has a variable of this name.
    fn variable_hint(&self, name: &str) -> Option<String> {
        let sort = self.words.iter().find_map(|word| match &word.token {
            Token::Variable(sort, other) if other == name => Some(sort),
            _ => None,
        })?;
        Some(format!("a variable is written `{}`", sort.named(name)))
    }

    /// Reads this token. The hint is for others than `(` behind a name.
    fn expect(&mut self, wanted: Token, hint: Option<&str>) -> Result<(), Error> {
        if self.reader.peek() == Some(&wanted) {
            self.reader.skip();
            return Ok(());
        }
        let error = self
            .reader
            .error(&wanted.shown())
            .or_maybe(self.call_hint());
        Err(error.or_maybe(hint.map(str::to_string)))
    }

    fn end(&self) -> Result<(), Error> {
        let hint = match self.reader.peek() {
            Some(Token::Arrow) => hints::ONE_ARROW,
            Some(Token::Sign(')' | '}')) => hints::NOTHING_OPEN,
            _ => hints::TUPLE,
        };
        let end = self.reader.end();
        end.map_err(|error| error.or_maybe(self.call_hint()).or_hint(hint))
    }
}

/// That the term, or what stands there of it, has too many entries.
fn too_long(at: Span, found: &str) -> Error {
    let expected = format!("a term of at most {MOST_ENTRIES} entries");
    Error::new(at, &expected, found).or_hint(hints::ENTRIES)
}
