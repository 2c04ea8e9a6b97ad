//! Numbers 9, 10, 11, 15 and 12, each over all blocks.

use crate::alphabet::{key_of, value_of, HASH, PAIR};
use crate::family::Family;
use crate::fault;
use crate::numbers::{kind, ALL_VARIABLES, ORDINARY};
use crate::read::Certificate;
use crate::rule::{Judge, Wrong};
use crate::term::Term;
use std::ops::Range;

/// Not inlined, so that its large frame is set up only where it is needed.
#[inline(never)]
pub fn judged(file: &[u8]) -> Result<(), u32> {
    let mut certificate = Certificate::EMPTY;
    certificate.read(file)?;
    for block in certificate.blocks_of(kind::SECRET) {
        if is_known_atom(&certificate, block) {
            return Err(fault(9, block, 0));
        }
    }
    let secrets = Family::of(&certificate.terms, certificate.blocks_of(kind::SECRET));
    for block in certificate.blocks_of(kind::SECRET) {
        if !is_closed(&certificate, &secrets, block) {
            return Err(fault(10, block, 0));
        }
    }
    for block in certificate.blocks_of(kind::GOOD) {
        let key = number(certificate.term(block), 0);
        let inverse = certificate.alphabet.inverse(key);
        if !certificate.alphabet.is_secret(inverse) {
            return Err(fault(11, block, 0));
        }
    }
    match certificate.has_nonce_variables {
        false => rules::<ORDINARY>(&certificate, &secrets),
        true => rules::<ALL_VARIABLES>(&certificate, &secrets),
    }
}

/// Numbers 15 and 12, with room for so many variables. One way over the rules
/// tells both: behind a first 12 they are asked for 15 alone.
fn rules<const ROOM: usize>(certificate: &Certificate, secrets: &Family) -> Result<(), u32> {
    let mut judge = Judge::<ROOM>::new(certificate, secrets);
    let mut rules = certificate.blocks_of(kind::RULE);
    let Some(uncovered) = first_refused(&mut judge, certificate, &mut rules)? else {
        return Ok(());
    };
    for block in rules {
        if let Some(place) = judge.first_open_secret(certificate.term(block)) {
            return Err(fault(15, block, place));
        }
    }
    Err(uncovered)
}

/// Up to and with the first rule that is refused: its 12, or its 15 at once.
fn first_refused<const ROOM: usize>(
    judge: &mut Judge<ROOM>,
    certificate: &Certificate,
    rules: &mut Range<usize>,
) -> Result<Option<u32>, u32> {
    for block in rules {
        match judge.rule(certificate.term(block), certificate.conclusion(block)) {
            Ok(()) => {}
            Err(Wrong::OpenSecret(place)) => return Err(fault(15, block, place)),
            Err(Wrong::Uncovered(place)) => return Ok(Some(fault(12, block, place))),
        }
    }
    Ok(None)
}

/// The number of an atom or key.
fn number(term: &Term, i: usize) -> usize {
    value_of(term.symbol(i))
}

fn is_known_atom(certificate: &Certificate, block: usize) -> bool {
    let secret = certificate.term(block);
    secret.length() == 1 && certificate.alphabet.is_known(number(secret, 0))
}

/// Weakly closed: a half of a pair is listed, a hash's message, or the message
/// or the key of an encryption or a signature.
fn is_closed(certificate: &Certificate, secrets: &Family, block: usize) -> bool {
    let secret = certificate.term(block);
    if secret.length() == 1 {
        return true;
    }
    let listed = |i| is_listed(certificate, secrets, secret, i);
    let other = match secret.symbol(0) {
        PAIR => listed(secret.end(1)),
        HASH => false,
        symbol => certificate.alphabet.is_secret(key_of(symbol)),
    };
    other || listed(1)
}

fn is_listed(certificate: &Certificate, secrets: &Family, term: &Term, i: usize) -> bool {
    if term.size(i) == 1 {
        return term.secret_atoms >> i & 1 == 1 || certificate.alphabet.is_secret(number(term, i));
    }
    secrets
        .with_root(term.symbol(i))
        .any(|member| certificate.terms[secrets.slot(member)].subterm(0) == term.subterm(i))
}
