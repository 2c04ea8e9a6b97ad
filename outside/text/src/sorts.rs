//! The four sorts of variables, and how the text writes them.

use literal::Term;

#[derive(Clone, Copy, Debug, PartialEq, Eq)]
pub enum Sort {
    Plain,
    Marked,
    PlainNonce,
    MarkedNonce,
}

pub const SORTS: [Sort; 4] = [
    Sort::Plain,
    Sort::Marked,
    Sort::PlainNonce,
    Sort::MarkedNonce,
];

impl Sort {
    /// What stands before the name.
    pub fn sign(self) -> &'static str {
        match self {
            Sort::Plain => "?",
            Sort::Marked => "*",
            Sort::PlainNonce => "?n!",
            Sort::MarkedNonce => "*n!",
        }
    }

    /// The sort in words.
    pub fn words(self) -> &'static str {
        match self {
            Sort::Plain => "plain",
            Sort::Marked => "marked",
            Sort::PlainNonce => "plain nonce",
            Sort::MarkedNonce => "marked nonce",
        }
    }

    /// The variable of this name, as the text writes it.
    pub fn named(self, name: &str) -> String {
        format!("{}{name}", self.sign())
    }

    pub fn variable(self, number: u8) -> Term {
        match self {
            Sort::Plain => Term::Plain(number),
            Sort::Marked => Term::Marked(number),
            Sort::PlainNonce => Term::PlainNonce(number),
            Sort::MarkedNonce => Term::MarkedNonce(number),
        }
    }
}

/// A variable as text, its number for its name; none for any other term.
pub fn shown(term: &Term) -> Option<String> {
    let (sort, number) = match term {
        Term::Plain(number) => (Sort::Plain, number),
        Term::Marked(number) => (Sort::Marked, number),
        Term::PlainNonce(number) => (Sort::PlainNonce, number),
        Term::MarkedNonce(number) => (Sort::MarkedNonce, number),
        _ => return None,
    };
    Some(sort.named(&number.to_string()))
}
