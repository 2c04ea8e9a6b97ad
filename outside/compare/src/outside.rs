//! The same questions, asked of the outside reference.

use crate::{atoms, Answer, Question};
use literal::numbers::{ENTRY, MOST_ATOMS, MOST_ENTRIES};
use literal::read::Atom;
use literal::term::Symbol;
use literal::Term;

pub fn ask(question: Question, atoms: &[u8], s: &[u8], t: &[u8]) -> Answer {
    let listed = atoms::read(atoms);
    match (read(atoms, s), read(atoms, t)) {
        (Some(s), Some(t)) => Answer::of(ask_of_terms(question, &listed, &s, &t)),
        _ => Answer::NoTerm,
    }
}

fn ask_of_terms(question: Question, atoms: &[Atom], s: &Term, t: &Term) -> bool {
    match question {
        Question::Shares => literal::shares(atoms, s, t),
        Question::Matches => literal::matches(atoms, s, t),
        Question::Same => s == t,
    }
}

/// The term that the bytes are over these atoms, as in a good pattern; none if
/// there are too many atoms.
pub fn read(atoms: &[u8], bytes: &[u8]) -> Option<Term> {
    if atoms.len() > ENTRY * MOST_ATOMS || bytes.len() > ENTRY * MOST_ENTRIES {
        return None;
    }
    let atoms = atoms::read(atoms);
    literal::decode(bytes).filter(|term| atoms_listed(&atoms, term))
}

fn atoms_listed(atoms: &[Atom], term: &Term) -> bool {
    let atom = |number: u16| atoms.get(number as usize);
    let number_right = match term.symbol() {
        Symbol::Atom(number) => atom(number).is_some(),
        Symbol::Encryption(key) => atom(key).is_some_and(Atom::is_key),
        Symbol::Signature(key) => atom(key).is_some_and(Atom::is_private_key),
        _ => true,
    };
    number_right && term.parts().all(|part| atoms_listed(atoms, part))
}
