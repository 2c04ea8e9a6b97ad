//! For a certificate that is refused with 12: is the protocol broken, or only
//! the certificate too narrow? A search for a short run after which the
//! intruder derives a listed secret, and a second walk through what it finds.
//!
//! A message is a `literal::Term` without variables. Foreign atoms are those
//! from `literal::numbers::FIRST_FOREIGN` up.

mod access;
mod bound;
mod derivable;
pub mod derive;
mod got;
mod meet;
pub mod message;
mod rules;
mod run;
mod search;
mod solve;
mod steps;
mod store;
mod unify;
pub mod walk;

pub use bound::Bound;

use literal::read::Certificate;
use literal::Term;

/// What the intruder does.
#[derive(Clone, Debug, PartialEq, Eq)]
pub enum Move {
    /// It has this: a known atom, a foreign atom, or the conclusion of a step
    /// before.
    Has(Term),
    /// The pair, from its two halves.
    Pairs(Term),
    /// The encryption, from its message and its key.
    Encrypts(Term),
    /// The hash, from its message.
    Hashes(Term),
    /// The signature, from its message and its key.
    Signs(Term),
    /// The left half of this pair.
    Left(Term),
    /// The right half of this pair.
    Right(Term),
    /// The message of this encryption, with the inverse of its key.
    Decrypts(Term),
    /// The message of this signature.
    Reads(Term),
}

impl Move {
    /// The message that the move names: what it makes or what it takes apart.
    pub fn named(&self) -> &Term {
        match self {
            Move::Has(term) | Move::Pairs(term) | Move::Encrypts(term) => term,
            Move::Hashes(term) | Move::Signs(term) | Move::Left(term) => term,
            Move::Right(term) | Move::Decrypts(term) | Move::Reads(term) => term,
        }
    }

    /// The message that the move gives; of one that takes apart what has no
    /// such part, the message itself.
    pub fn derived(&self) -> &Term {
        match (self, self.named()) {
            (Move::Left(_), Term::Pair(left, _)) => left,
            (Move::Right(_), Term::Pair(_, right)) => right,
            (Move::Decrypts(_), Term::Encryption(message, _)) => message,
            (Move::Reads(_), Term::Signature(message, _)) => message,
            (_, named) => named,
        }
    }
}

/// Each move is from messages that earlier moves gave; the last one gives the
/// goal.
#[derive(Clone, Debug, Default, PartialEq, Eq)]
pub struct Derivation {
    pub moves: Vec<Move>,
}

/// A step of a run whose premise's instance the intruder derives.
#[derive(Clone, Debug, PartialEq, Eq)]
pub struct Step {
    /// The rule's place among the certificate's rules, from 0.
    pub rule: usize,
    /// Each variable of the rule, each once, in order of first occurrence
    /// (premise first), and its message.
    pub replacement: Vec<(Term, Term)>,
    /// How the premise's instance is derived; none for a rule without premise.
    pub premise: Option<Derivation>,
}

/// A run after which the intruder derives a listed secret.
#[derive(Clone, Debug, PartialEq, Eq)]
pub struct Attack {
    pub steps: Vec<Step>,
    /// The secret's place among the certificate's secrets, from 0.
    pub secret: usize,
    pub derivation: Derivation,
}

#[derive(Clone, Debug, PartialEq, Eq)]
pub enum Outcome {
    Found(Attack),
    NotFound(Bound),
}

/// A short run under the certificate's rules that derives a listed secret, or
/// what was searched for one. Nothing is found that the second walk refuses.
pub fn search(certificate: &Certificate) -> Outcome {
    let outcome = search::search(certificate);
    if let Outcome::Found(attack) = &outcome {
        let walked = walk::check(certificate, attack);
        debug_assert_eq!(walked, Ok(()), "a run that was found is none");
        if walked.is_err() {
            return Outcome::NotFound(Bound::default());
        }
    }
    outcome
}

#[cfg(test)]
mod tests {
    use super::*;

    /// The second walk never has to refuse what the search finds.
    #[test]
    fn found_runs_are_runs() {
        let mut found = 0;
        for seed in 0..1_500 {
            let file = generate::certificate(seed);
            let Ok(certificate) = literal::read::read(&file) else {
                continue;
            };
            if let Outcome::Found(attack) = search::search(&certificate) {
                assert_eq!(walk::check(&certificate, &attack), Ok(()), "{seed}");
                found += 1;
            }
        }
        assert!(found >= 100);
    }
}
