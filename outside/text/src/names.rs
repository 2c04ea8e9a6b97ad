//! Which number a name stands for.

use crate::error::Error;
use crate::hints;
use crate::letters::{quoted, told_name};
use crate::nearest::did_you_mean;
use crate::origin::Span;
use crate::sorts::{Sort, SORTS};
use crate::tokens::{Token, Word};
use literal::numbers::VARIABLES;
use literal::Term;

/// The number of an atom.
pub fn number_of(name: &str, names: &[String]) -> Option<u16> {
    let number = names.iter().position(|n| n == name)?;
    Some(number as u16)
}

/// That no atom has this name.
pub fn no_atom(at: Span, expected: &str, name: &str) -> Error {
    let found = format!("{}, which is no atom", told_name(name));
    Error::new(at, expected, &found)
}

/// The hint that the name of one of the atoms was meant.
pub fn near_atom(name: &str, names: &[String]) -> Option<String> {
    did_you_mean(name, names.iter().map(String::as_str))
}

/// The names of the variables 0 to 7 of one sort in one block. A digit stands
/// for its own number; any other name takes the lowest free number when it is
/// first met.
struct Variables {
    sort: Sort,
    names: [Option<String>; VARIABLES as usize],
}

impl Variables {
    /// Keeps the numbers that stand as digits among these words.
    fn with_digits(sort: Sort, words: &[Word]) -> Variables {
        let mut names: [Option<String>; VARIABLES as usize] = Default::default();
        let digits = words.iter().filter_map(|word| match &word.token {
            Token::Variable(found, name) if *found == sort => digit(name),
            _ => None,
        });
        for number in digits {
            names[number as usize] = Some(number.to_string());
        }
        Variables { sort, names }
    }

    fn number(&mut self, name: &str, at: Span) -> Result<u8, Error> {
        if let Some(number) = digit(name) {
            return Ok(number);
        }
        if name.starts_with(|c: char| c.is_ascii_digit()) {
            let error = self.error(name, at, "a variable's number 0 to 7");
            return Err(error.or_hint(hints::NUMBERED));
        }
        let there = self.names.iter().position(|n| n.as_deref() == Some(name));
        let free = || self.names.iter().position(Option::is_none);
        let Some(number) = there.or_else(free) else {
            return Err(self.ninth(name, at));
        };
        self.names[number] = Some(name.to_string());
        Ok(number as u8)
    }

    fn ninth(&self, name: &str, at: Span) -> Error {
        let named: Vec<String> = self.named().map(|(_, name)| quoted(&name)).collect();
        let hint = format!(
            "a block has at most eight variables of each sort: {}",
            named.join(", ")
        );
        let expected = format!("one of the block's eight {} variables", self.sort.words());
        self.error(name, at, &expected).or_hint(&hint)
    }

    fn error(&self, name: &str, at: Span, expected: &str) -> Error {
        Error::new(at, expected, &quoted(&self.sort.named(name)))
    }

    /// The variables named so far and their names, sign included.
    fn named(&self) -> impl Iterator<Item = (Term, String)> + '_ {
        let numbered = (0..).zip(&self.names);
        numbered.filter_map(|(number, name)| {
            let name = self.sort.named(name.as_ref()?);
            Some((self.sort.variable(number), name))
        })
    }
}

fn digit(name: &str) -> Option<u8> {
    match name.as_bytes() {
        [byte @ b'0'..=b'9'] => Some(byte - b'0').filter(|number| *number < VARIABLES),
        _ => None,
    }
}

/// The variables of one block, each sort apart.
pub struct BlockVariables {
    by_sort: [Variables; SORTS.len()],
}

impl BlockVariables {
    pub fn of(words: &[Word]) -> BlockVariables {
        BlockVariables {
            by_sort: SORTS.map(|sort| Variables::with_digits(sort, words)),
        }
    }

    /// The number that the name stands for among those of its sort.
    pub fn number(&mut self, sort: Sort, name: &str, at: Span) -> Result<u8, Error> {
        self.by_sort[sort as usize].number(name, at)
    }

    /// The variables named so far and their names, sign included.
    pub fn named(&self) -> Vec<(Term, String)> {
        self.by_sort.iter().flat_map(Variables::named).collect()
    }
}
