//! Terms, their entries, their places, and matching.

use crate::atom::{is_nonce, Atom};
use crate::block::Entry;
use crate::numbers::{tag, ENTRY, VARIABLES};
#[cfg(test)]
use crate::slip::{self, Slip};

#[derive(Clone, Debug, PartialEq, Eq)]
pub enum Term {
    Atom(u16),
    Pair(Box<Term>, Box<Term>),
    /// The message and the key's number.
    Encryption(Box<Term>, u16),
    Plain(u8),
    Marked(u8),
    /// Variables for one nonce.
    PlainNonce(u8),
    MarkedNonce(u8),
    Hash(Box<Term>),
    /// The message and the signing key's number.
    Signature(Box<Term>, u16),
}

/// What stands at a term's root; of a variable whether it is for one nonce.
#[derive(Clone, Copy, Debug, PartialEq, Eq)]
pub enum Symbol {
    Variable,
    NonceVariable,
    Atom(u16),
    Pair,
    Encryption(u16),
    Hash,
    Signature(u16),
}

impl Term {
    pub fn pair(left: Term, right: Term) -> Term {
        Term::Pair(Box::new(left), Box::new(right))
    }

    pub fn encryption(message: Term, key: u16) -> Term {
        Term::Encryption(Box::new(message), key)
    }

    pub fn hash(message: Term) -> Term {
        Term::Hash(Box::new(message))
    }

    pub fn signature(message: Term, key: u16) -> Term {
        Term::Signature(Box::new(message), key)
    }

    pub fn symbol(&self) -> Symbol {
        match self {
            Term::Atom(number) => Symbol::Atom(*number),
            Term::Pair(..) => Symbol::Pair,
            Term::Encryption(_, key) => Symbol::Encryption(*key),
            Term::Plain(_) | Term::Marked(_) => Symbol::Variable,
            Term::PlainNonce(_) | Term::MarkedNonce(_) => Symbol::NonceVariable,
            Term::Hash(_) => Symbol::Hash,
            Term::Signature(_, key) => Symbol::Signature(*key),
        }
    }

    /// The two halves of a pair, or the message.
    pub fn parts(&self) -> impl Iterator<Item = &Term> {
        let (first, second) = match self {
            Term::Pair(left, right) => (Some(&**left), Some(&**right)),
            Term::Encryption(message, _) | Term::Signature(message, _) | Term::Hash(message) => {
                (Some(&**message), None)
            }
            _ => (None, None),
        };
        first.into_iter().chain(second)
    }

    /// The same with other parts.
    pub fn with_parts(&self, mut other: impl FnMut(&Term) -> Term) -> Term {
        match self {
            Term::Pair(left, right) => Term::pair(other(left), other(right)),
            Term::Encryption(message, key) => Term::encryption(other(message), *key),
            Term::Hash(message) => Term::hash(other(message)),
            Term::Signature(message, key) => Term::signature(other(message), *key),
            _ => self.clone(),
        }
    }

    pub fn is_variable(&self) -> bool {
        matches!(self, Term::Plain(_) | Term::Marked(_)) || self.is_nonce_variable()
    }

    pub fn is_nonce_variable(&self) -> bool {
        matches!(self, Term::PlainNonce(_) | Term::MarkedNonce(_))
    }

    /// A marked variable of either sort.
    pub fn is_mark(&self) -> bool {
        matches!(self, Term::Marked(_) | Term::MarkedNonce(_))
    }

    pub fn is_encryption(&self) -> bool {
        matches!(self, Term::Encryption(..))
    }

    pub fn is_hash(&self) -> bool {
        matches!(self, Term::Hash(_))
    }

    pub fn is_signature(&self) -> bool {
        matches!(self, Term::Signature(..))
    }

    /// How many entries the term takes.
    pub fn size(&self) -> usize {
        1 + self.parts().map(Term::size).sum::<usize>()
    }
}

/// The term's entries as bytes: parents before children, left before right.
pub fn encode(term: &Term) -> Vec<u8> {
    let (tag, value) = match term {
        Term::Atom(number) => (tag::ATOM, *number),
        Term::Pair(..) => (tag::PAIR, 0),
        Term::Encryption(_, key) => (tag::ENCRYPTION, *key),
        Term::Plain(number) => (tag::PLAIN, *number as u16),
        Term::Marked(number) => (tag::MARKED, *number as u16),
        Term::PlainNonce(number) => (tag::PLAIN_NONCE, *number as u16),
        Term::MarkedNonce(number) => (tag::MARKED_NONCE, *number as u16),
        Term::Hash(_) => (tag::HASH, 0),
        Term::Signature(_, key) => (tag::SIGNATURE, *key),
    };
    let [low, high] = value.to_le_bytes();
    let mut entries = vec![tag, 0, low, high];
    entries.extend(term.parts().flat_map(encode));
    entries
}

/// The term that the bytes hold, if they are exactly one term. Any atom and
/// key numbers; an atom list is not asked.
pub fn decode(bytes: &[u8]) -> Option<Term> {
    if bytes.len() % ENTRY != 0 {
        return None;
    }
    let entries: Vec<Entry> = bytes.chunks(ENTRY).map(Entry::of).collect();
    if entries.iter().any(|e| !readable(e)) {
        return None;
    }
    term_of(&entries)
}

fn readable(entry: &Entry) -> bool {
    entry.second == 0
        && match entry.first {
            tag::ATOM | tag::ENCRYPTION | tag::SIGNATURE => true,
            tag::PAIR | tag::HASH => entry.value == 0,
            tag::PLAIN..=tag::MARKED_NONCE => entry.value < VARIABLES as u16,
            _ => false,
        }
}

/// The term that these entries are exactly, if there is one.
pub fn term_of(entries: &[Entry]) -> Option<Term> {
    let (term, left_over) = first_term(entries)?;
    left_over.is_empty().then_some(term)
}

/// The term at the front of the entries, and the entries after it.
fn first_term(entries: &[Entry]) -> Option<(Term, &[Entry])> {
    let (entry, rest) = entries.split_first()?;
    match entry.first {
        tag::ATOM => Some((Term::Atom(entry.value), rest)),
        tag::PAIR => {
            let (left, rest) = first_term(rest)?;
            let (right, rest) = first_term(rest)?;
            Some((Term::pair(left, right), rest))
        }
        tag::ENCRYPTION => {
            let (message, rest) = first_term(rest)?;
            Some((Term::encryption(message, entry.value), rest))
        }
        tag::PLAIN => Some((Term::Plain(entry.value as u8), rest)),
        tag::MARKED => Some((Term::Marked(entry.value as u8), rest)),
        tag::PLAIN_NONCE => Some((Term::PlainNonce(entry.value as u8), rest)),
        tag::MARKED_NONCE => Some((Term::MarkedNonce(entry.value as u8), rest)),
        tag::HASH => {
            let (message, rest) = first_term(rest)?;
            Some((Term::hash(message), rest))
        }
        tag::SIGNATURE => {
            let (message, rest) = first_term(rest)?;
            Some((Term::signature(message, entry.value), rest))
        }
        _ => None,
    }
}

/// From the root: 0 for the left half or the message, 1 for the right half.
pub type Path = Vec<u8>;

/// A subterm's spot. The key of an encryption or of a signature is no place.
#[derive(Clone, Debug)]
pub struct Place<'a> {
    pub path: Path,
    /// The entry within the term, from 0.
    pub entry: usize,
    pub subterm: &'a Term,
}

/// Every place of the term, entries rising: nothing below a hash is one.
pub fn places(term: &Term) -> Vec<Place<'_>> {
    walked(term, |subterm| !subterm.is_hash())
}

/// Every subterm, also those below a hash: one for each entry.
pub fn subterms(term: &Term) -> Vec<Place<'_>> {
    walked(term, |_| true)
}

/// The subterms, entries rising, with the parts of those that are gone below.
pub(crate) fn walked(term: &Term, goes_below: impl Fn(&Term) -> bool) -> Vec<Place<'_>> {
    let mut found = Vec::new();
    walk(term, &goes_below, Vec::new(), 0, &mut found);
    found
}

/// Adds the subterm at `path`, whose first entry is `entry`, and goes on.
fn walk<'a>(
    subterm: &'a Term,
    goes_below: &impl Fn(&Term) -> bool,
    path: Path,
    entry: usize,
    found: &mut Vec<Place<'a>>,
) {
    found.push(Place {
        path: path.clone(),
        entry,
        subterm,
    });
    #[cfg(test)]
    slip::add_key_place(&path, entry, subterm.symbol(), found);
    if !goes_below(subterm) {
        return;
    }
    let mut next = entry + 1;
    for (step, part) in (0..).zip(subterm.parts()) {
        walk(part, goes_below, joined(&path, &[step]), next, found);
        next += part.size();
    }
}

/// Where the marked variables of a pattern stand, also those below a hash.
pub fn marks(pattern: &Term) -> Vec<Path> {
    subterms(pattern)
        .into_iter()
        .filter(|place| place.subterm.is_mark())
        .map(|place| place.path)
        .collect()
}

/// The way `path` and then `way`.
pub fn joined(path: &[u8], way: &[u8]) -> Path {
    [path, way].concat()
}

/// Whether the place `upper` is the place `lower` or stands above it.
pub fn at_or_above(upper: &[u8], lower: &[u8]) -> bool {
    lower.starts_with(upper)
}

/// Whether the place `upper` stands above the place `lower`.
pub fn strictly_above(upper: &[u8], lower: &[u8]) -> bool {
    #[cfg(test)]
    if slip::is(Slip::HatAtThePlace) {
        return at_or_above(upper, lower);
    }
    at_or_above(upper, lower) && upper.len() < lower.len()
}

/// Whether the term is the pattern with its variables replaced by terms, each
/// by the same one at all its occurrences. The term's own variables stay.
pub fn matches(atoms: &[Atom], pattern: &Term, term: &Term) -> bool {
    let mut matching = Matching {
        atoms,
        replaced: Vec::new(),
    };
    matching.goes_on(pattern, term)
}

/// What the pattern's variables are replaced by so far.
struct Matching<'a> {
    atoms: &'a [Atom],
    replaced: Vec<(Term, &'a Term)>,
}

impl<'a> Matching<'a> {
    fn goes_on(&mut self, pattern: &Term, term: &'a Term) -> bool {
        if pattern.is_variable() {
            return self.may_replace(pattern, term) && self.put(pattern, term);
        }
        #[cfg(test)]
        if slip::hashes::is_matched_otherwise(pattern.symbol(), term.symbol()) {
            return self.parts_go_on(pattern, term);
        }
        pattern.symbol() == term.symbol() && self.parts_go_on(pattern, term)
    }

    fn parts_go_on(&mut self, pattern: &Term, term: &'a Term) -> bool {
        #[cfg(test)]
        if slip::hashes::ends_matching(pattern) {
            return true;
        }
        let mut both = pattern.parts().zip(term.parts());
        both.all(|(one, other)| self.goes_on(one, other))
    }

    /// At a nonce variable a nonce atom or a nonce variable, elsewhere anything.
    fn may_replace(&self, variable: &Term, term: &Term) -> bool {
        #[cfg(test)]
        if let Some(answer) = slip::nonces::replaces_otherwise(self.atoms, variable, term) {
            return answer;
        }
        !variable.is_nonce_variable() || is_one_nonce(self.atoms, term)
    }

    /// Puts the term for the variable, or sees that it is there already.
    fn put(&mut self, variable: &Term, term: &'a Term) -> bool {
        #[cfg(test)]
        let variable = &slip::variable_read(variable);
        match self.replaced.iter().find(|(v, _)| v == variable) {
            #[cfg(test)]
            Some(_) if slip::is(Slip::RepeatedVariableFree) => true,
            Some((_, there)) => *there == term,
            None => {
                self.replaced.push((variable.clone(), term));
                true
            }
        }
    }
}

/// Whether every instance of the term is one nonce.
pub fn is_one_nonce(atoms: &[Atom], term: &Term) -> bool {
    match term {
        Term::Atom(number) => is_nonce(atoms, *number),
        _ => term.is_nonce_variable(),
    }
}
