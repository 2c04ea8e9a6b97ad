//! Wrong readings of nonce variables.

use super::{is, Slip};
use crate::atom::{is_nonce, Atom};
use crate::block::Entry;
use crate::hats::{shares_with_some, stands_at};
use crate::numbers::{atom_kind, kind, tag, VARIABLES};
use crate::read::Certificate;
use crate::term::{is_one_nonce, joined, subterms, Path, Place, Symbol, Term};

/// What is put for a nonce variable, or meets one.
enum Met {
    Nonce { is_known: bool },
    Principal,
    Key,
    Pair,
    Encryption,
    Hash,
    Signature,
    Variable,
    NonceVariable,
}

fn met(atoms: &[Atom], symbol: Symbol) -> Met {
    match symbol {
        Symbol::Atom(number) => met_atom(atoms, number),
        Symbol::Pair => Met::Pair,
        Symbol::Encryption(_) => Met::Encryption,
        Symbol::Hash => Met::Hash,
        Symbol::Signature(_) => Met::Signature,
        Symbol::Variable => Met::Variable,
        Symbol::NonceVariable => Met::NonceVariable,
    }
}

fn met_atom(atoms: &[Atom], number: u16) -> Met {
    match atoms.get(number as usize) {
        Some(atom) if atom.is_key() => Met::Key,
        Some(atom) if atom.kind == atom_kind::PRINCIPAL => Met::Principal,
        atom => Met::Nonce {
            is_known: atom.is_none_or(|a| a.known == 1),
        },
    }
}

/// Whether a nonce variable takes another term in matching; none if it is read
/// as it should be.
pub fn replaces_otherwise(atoms: &[Atom], variable: &Term, term: &Term) -> Option<bool> {
    let slips = match met(atoms, term.symbol()) {
        Met::Nonce { is_known: true } => is(Slip::ListedNonceNotMatched),
        Met::Nonce { is_known: false } => {
            is(Slip::ListedNonceNotMatched) || is(Slip::KnownNonceOnlyMatched)
        }
        Met::Principal => is(Slip::NonceMatchesPrincipal),
        Met::Key => is(Slip::NonceMatchesKey),
        Met::Pair => is(Slip::NonceMatchesPair),
        Met::Encryption => is(Slip::NonceMatchesEncryption),
        Met::Hash => is(Slip::NonceMatchesHash),
        Met::Signature => is(Slip::NonceMatchesSignature),
        Met::Variable => is(Slip::NonceMatchesVariable),
        Met::NonceVariable => is(Slip::NonceVariableNotMatched),
    };
    (slips && variable.is_nonce_variable()).then(|| !is_one_nonce(atoms, term))
}

/// Whether a variable takes another symbol in sharing; none if it is read as it
/// should be.
pub(crate) fn follows_otherwise(atoms: &[Atom], variable: Symbol, other: Symbol) -> Option<bool> {
    match (variable, other) {
        (Symbol::NonceVariable, Symbol::Variable) => is(Slip::RangeForgotten).then_some(true),
        (Symbol::Variable, Symbol::NonceVariable) => is(Slip::RangeForgotten).then_some(false),
        (Symbol::NonceVariable, _) => shares_otherwise(atoms, other),
        _ => None,
    }
}

fn shares_otherwise(atoms: &[Atom], other: Symbol) -> Option<bool> {
    let slips = match met(atoms, other) {
        Met::Nonce { is_known: true } => is(Slip::ListedNonceNotShared),
        Met::Nonce { is_known: false } => {
            is(Slip::ListedNonceNotShared) || is(Slip::KnownNonceOnlyShared)
        }
        Met::Principal => is(Slip::NonceSharesPrincipal),
        Met::Key => is(Slip::NonceSharesKey),
        Met::Pair => is(Slip::NonceSharesPair),
        Met::Encryption => is(Slip::NonceSharesEncryption),
        Met::Hash => is(Slip::NonceSharesHash),
        Met::Signature => is(Slip::NonceSharesSignature),
        Met::Variable => false,
        Met::NonceVariable => is(Slip::NonceVariablesNotShared),
    };
    let is_right = match other {
        Symbol::Atom(number) => is_nonce(atoms, number),
        other => other == Symbol::NonceVariable,
    };
    slips.then_some(!is_right)
}

/// Two nonce variables that are not the same.
pub(crate) fn clash_otherwise(one: Symbol, other: Symbol) -> bool {
    is(Slip::NonceVariablesNotShared) && [one, other] == [Symbol::NonceVariable; 2]
}

/// Whether foreign nonces are forgotten and no nonce is listed.
pub fn lacks_a_nonce(atoms: &[Atom]) -> bool {
    is(Slip::ListedNoncesOnly) && !atoms.iter().any(Atom::is_nonce)
}

/// A variable taken for the one of another tag and the same number.
pub fn variable_read(variable: &Term) -> Term {
    match variable {
        Term::PlainNonce(number) if is(Slip::NonceAsPlain) => Term::Plain(*number),
        Term::MarkedNonce(number) if is(Slip::MarkedNonceAsMarked) => Term::Marked(*number),
        Term::MarkedNonce(number) if is(Slip::MarkedNonceAsNonce) => Term::PlainNonce(*number),
        _ => variable.clone(),
    }
}

/// The marks of a pattern with its root at `path`, without nonce variables.
pub fn marks_but_nonces(path: &Path, pattern: &Term) -> Vec<Path> {
    let all = subterms(pattern).into_iter();
    all.filter(|place| matches!(place.subterm, Term::Marked(_)))
        .map(|place| joined(path, &place.path))
        .collect()
}

pub fn is_risky_otherwise(certificate: &Certificate, place: &Place) -> Option<bool> {
    if !place.subterm.is_nonce_variable() {
        return None;
    }
    if is(Slip::NonceVariableNotRisky) {
        return Some(false);
    }
    let by_sharing = || shares_with_some(&certificate.atoms, place.subterm, &certificate.secrets);
    is(Slip::NonceVariableRiskyBySharing).then(by_sharing)
}

/// Shown by a variable of the same number, nonce variable or not.
pub fn is_shown_otherwise(open: &[Place], subterm: &Term) -> bool {
    let other = match subterm {
        Term::Plain(number) => Term::PlainNonce(*number),
        Term::PlainNonce(number) => Term::Plain(*number),
        _ => return false,
    };
    is(Slip::ShownByItsNumber) && stands_at(open, &other)
}

/// Wrong places and values for the tags of nonce variables.
pub fn entry_right_otherwise(block_kind: u8, entry: &Entry) -> Option<bool> {
    let is_variable = entry.second == 0 && entry.value < VARIABLES as u16;
    let is_just_above = entry.second == 0 && (8..16).contains(&entry.value);
    let is_pattern = matches!(block_kind, kind::GOOD | kind::BAD);
    match (entry.first, block_kind) {
        (tag::PLAIN_NONCE, kind::SECRET) if is(Slip::NonceInSecret) => Some(is_variable),
        (tag::MARKED_NONCE, kind::RULE) if is(Slip::MarkedNonceInRule) => Some(is_variable),
        (tag::MARKED_NONCE, kind::BAD) if is(Slip::MarkedNonceRefusedInBad) => Some(false),
        (tag::PLAIN_NONCE, kind) if is(Slip::NonceValuesToFifteen) && kind != kind::SECRET => {
            is_just_above.then_some(true)
        }
        (tag::MARKED_NONCE, _) if is(Slip::NonceValuesToFifteen) && is_pattern => {
            is_just_above.then_some(true)
        }
        _ => None,
    }
}
