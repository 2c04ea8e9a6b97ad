//! Why a term is not a pattern with its variables replaced by terms, and why two
//! terms share no instance.

use crate::source::down;
use literal::read::Atom;
use literal::term::{is_one_nonce, joined, Path, Term};

/// The first place where the two part; it has the same path in both.
#[derive(Clone, Debug)]
pub struct Mismatch {
    pub path: Path,
    pub why: Why,
}

#[derive(Clone, Debug, PartialEq, Eq)]
pub enum Why {
    /// Another symbol, or another key.
    Symbol,
    /// The pattern's variable stands for this term already.
    StandsFor(Term),
    /// The pattern has a nonce variable, and here is more than one nonce.
    NoNonce,
}

/// None if the term is the pattern with its variables replaced by terms.
pub fn mismatch(atoms: &[Atom], pattern: &Term, term: &Term) -> Option<Mismatch> {
    let mut matching = Matching {
        atoms,
        replaced: Vec::new(),
    };
    matching.goes_on(Vec::new(), pattern, term)
}

struct Matching<'a> {
    atoms: &'a [Atom],
    replaced: Vec<(&'a Term, &'a Term)>,
}

impl<'a> Matching<'a> {
    fn goes_on(&mut self, path: Path, pattern: &'a Term, term: &'a Term) -> Option<Mismatch> {
        if pattern.is_variable() {
            let why = self.replaces(pattern, term)?;
            return Some(Mismatch { path, why });
        }
        if pattern.symbol() != term.symbol() {
            let why = Why::Symbol;
            return Some(Mismatch { path, why });
        }
        let mut both = (0..).zip(pattern.parts().zip(term.parts()));
        both.find_map(|(step, (one, other))| self.goes_on(joined(&path, &[step]), one, other))
    }

    /// Why the term cannot stand for the variable; none if it does now.
    fn replaces(&mut self, variable: &'a Term, term: &'a Term) -> Option<Why> {
        if variable.is_nonce_variable() && !is_one_nonce(self.atoms, term) {
            return Some(Why::NoNonce);
        }
        match self.replaced.iter().find(|(v, _)| *v == variable) {
            Some((_, first)) if *first != term => Some(Why::StandsFor((*first).clone())),
            Some(_) => None,
            None => {
                self.replaced.push((variable, term));
                None
            }
        }
    }
}

/// The pair above the mismatch, as a path, that would mend it with its halves
/// exchanged.
pub fn mended_by_exchange(
    atoms: &[Atom],
    pattern: &Term,
    term: &Term,
    mismatch: &Mismatch,
) -> Option<Path> {
    let uppers = (0..mismatch.path.len()).rev();
    let paths = uppers.map(|length| mismatch.path[..length].to_vec());
    paths
        .filter(|path| matches!(down(pattern, path), Term::Pair(..)))
        .find(|path| literal::matches(atoms, &exchanged(pattern, path), term))
}

/// The term with the halves of the pair at this path exchanged.
pub fn exchanged(term: &Term, path: &[u8]) -> Term {
    match (path.split_first(), term) {
        (None, Term::Pair(left, right)) => Term::pair((**right).clone(), (**left).clone()),
        (None, _) => term.clone(),
        (Some((step, rest)), _) => {
            let mut next = 0;
            term.with_parts(|part| {
                next += 1;
                match next - 1 == *step {
                    true => exchanged(part, rest),
                    false => part.clone(),
                }
            })
        }
    }
}

/// The term with the fields of every tuple nested to the right.
pub fn to_the_right(term: &Term) -> Term {
    let term = term.with_parts(to_the_right);
    match &term {
        Term::Pair(left, rest) => with_fields_before(left, rest),
        _ => term,
    }
}

/// The fields of the left tuple, and then the rest.
fn with_fields_before(left: &Term, rest: &Term) -> Term {
    match left {
        Term::Pair(first, others) => {
            Term::pair((**first).clone(), with_fields_before(others, rest))
        }
        field => Term::pair(field.clone(), rest.clone()),
    }
}

/// The first place where both have symbols, and other ones: none if the two
/// share no instance for what variables would have to stand for.
pub fn clash(atoms: &[Atom], one: &Term, other: &Term) -> Option<Path> {
    match (one.is_variable(), other.is_variable()) {
        (false, false) if one.symbol() != other.symbol() => Some(Vec::new()),
        (false, false) => {
            let mut both = (0..).zip(one.parts().zip(other.parts()));
            both.find_map(|(step, (left, right))| {
                Some(joined(&[step], &clash(atoms, left, right)?))
            })
        }
        (true, false) => takes_no(atoms, one, other),
        (false, true) => takes_no(atoms, other, one),
        (true, true) => None,
    }
}

/// Here, if the variable is for a nonce and the term is none.
fn takes_no(atoms: &[Atom], variable: &Term, term: &Term) -> Option<Path> {
    (variable.is_nonce_variable() && !is_one_nonce(atoms, term)).then(Vec::new)
}
