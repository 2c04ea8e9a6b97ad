//! The atoms of the families' files, and terms to build them with.

use generate::sketch::Sketch;
use literal::numbers::{atom_kind, MOST_BLOCKS, VARIABLES};
use literal::read::Atom;
use literal::Term;

/// How many variables are plain, and how many are plain or marked.
pub const PLAIN: usize = VARIABLES as usize;
pub const EITHER: usize = 2 * PLAIN;

/// Symmetric keys from 2 to 5, as in the generator's pairs of terms: the first
/// is a secret, the last is known.
pub const KEY: u16 = 2;
pub const OTHER_KEY: u16 = 3;
pub const KNOWN_KEY: u16 = 5;
/// Nonces: a secret one, and many that are known.
const NONCE: u16 = 6;
const FIRST_KNOWN: u16 = 7;
const KNOWN: u16 = 60;
/// Private keys to sign with, where a family has them: neither is a secret.
pub const SIGNER: u16 = FIRST_KNOWN + KNOWN;
pub const OTHER_SIGNER: u16 = SIGNER + 2;

pub fn atom(kind: u8, known: u8, partner: u16) -> Atom {
    Atom {
        kind,
        known,
        partner,
    }
}

fn atoms() -> Vec<Atom> {
    let key = |number| atom(atom_kind::SYMMETRIC, (number == KNOWN_KEY) as u8, number);
    let mut atoms = vec![atom(atom_kind::PRINCIPAL, 1, 0); 2];
    atoms.extend((KEY..=KNOWN_KEY).map(key));
    atoms.push(atom(atom_kind::NONCE, 0, 0));
    atoms.extend((0..KNOWN).map(|_| atom(atom_kind::NONCE, 1, 0)));
    atoms
}

/// The atoms, with the key and the nonce as secrets.
pub fn base() -> Sketch {
    Sketch {
        atoms: atoms(),
        secrets: vec![Term::Atom(KEY), nonce()],
        ..Sketch::default()
    }
}

/// The same with keys to sign with, each with its public key behind it.
pub fn with_signers(mut sketch: Sketch) -> Sketch {
    for signer in [SIGNER, OTHER_SIGNER] {
        sketch.atoms.extend([
            atom(atom_kind::PRIVATE, 0, signer + 1),
            atom(atom_kind::PUBLIC, 1, signer),
        ]);
    }
    sketch
}

pub fn nonce() -> Term {
    Term::Atom(NONCE)
}

/// One of the known nonces.
pub fn leaf(i: usize) -> Term {
    Term::Atom(FIRST_KNOWN + (i % KNOWN as usize) as u16)
}

/// Pattern variables by number: the plain ones, then the marked ones.
pub fn either(i: usize) -> Term {
    let number = (i % PLAIN) as u8;
    match i % EITHER < PLAIN {
        true => Term::Plain(number),
        false => Term::Marked(number),
    }
}

pub fn plain(i: usize) -> Term {
    Term::Plain((i % PLAIN) as u8)
}

/// Nonce variables by number: the plain ones, then the marked ones.
pub fn either_nonce(i: usize) -> Term {
    let number = (i % PLAIN) as u8;
    match i % EITHER < PLAIN {
        true => Term::PlainNonce(number),
        false => Term::MarkedNonce(number),
    }
}

pub fn plain_nonce(i: usize) -> Term {
    Term::PlainNonce((i % PLAIN) as u8)
}

/// All variables moved on by a number.
pub fn moved(term: &Term, by: usize) -> Term {
    let on = |number: &u8| ((*number as usize + by) % PLAIN) as u8;
    match term {
        Term::Plain(number) => Term::Plain(on(number)),
        Term::Marked(number) => Term::Marked(on(number)),
        Term::PlainNonce(number) => Term::PlainNonce(on(number)),
        Term::MarkedNonce(number) => Term::MarkedNonce(on(number)),
        _ => term.with_parts(|part| moved(part, by)),
    }
}

pub fn under(key: u16, term: Term) -> Term {
    Term::encryption(term, key)
}

/// So many encryptions around the term.
pub fn chain(length: usize, key: u16, inside: Term) -> Term {
    (0..length).fold(inside, |term, _| under(key, term))
}

/// So many hashes around the term.
pub fn hashes(length: usize, inside: Term) -> Term {
    (0..length).fold(inside, |term, _| Term::hash(term))
}

/// So many signatures around the term.
pub fn signatures(length: usize, signer: u16, inside: Term) -> Term {
    (0..length).fold(inside, |term, _| Term::signature(term, signer))
}

/// (i0, (i1, (.. , last))).
pub fn to_the_right(items: impl DoubleEndedIterator<Item = Term>, last: Term) -> Term {
    items.rev().fold(last, |term, item| Term::pair(item, term))
}

/// (((last, i0), i1), ..).
pub fn to_the_left(items: impl Iterator<Item = Term>, last: Term) -> Term {
    items.fold(last, Term::pair)
}

/// {(i0, {(i1, .. last)}k)}k: each level costs what its item does and two.
pub fn links(items: impl DoubleEndedIterator<Item = Term>, key: u16, last: Term) -> Term {
    items
        .rev()
        .fold(last, |term, item| under(key, Term::pair(item, term)))
}

/// Rules by their number, up to the last block.
pub fn fill(mut sketch: Sketch, rule: impl Fn(usize) -> (Option<Term>, Term)) -> Sketch {
    let mut i = 0;
    while sketch.block_count() < MOST_BLOCKS {
        sketch.rules.push(rule(i));
        i += 1;
    }
    sketch
}
