//! A certificate that can be read, with words for its parts.

use crate::mismatch::{Mismatch, Why};
use crate::report::short;
use crate::source::{down, Source};
use literal::numbers::FIRST_FOREIGN;
use literal::read::{Certificate, Listed, Rule};
use literal::term::{subterms, Place};
use literal::{common_instance, Filling, Term};

#[derive(Clone, Copy)]
pub struct Scene<'a> {
    pub source: &'a Source,
    pub certificate: &'a Certificate,
}

/// The longest example that is printed, in symbols.
const LONGEST_EXAMPLE: usize = 40;

impl Scene<'_> {
    /// As `good {*s}KA (line 19, block 3)`.
    pub fn listed(&self, word: &str, listed: &Listed) -> String {
        let term = short(self.source.term(listed.block, &listed.term));
        format!("{word} {term} ({})", self.source.line_of(listed.block))
    }

    /// A subterm of a block, as `{?x}KI (21:16, entry 2)`.
    pub fn entry(&self, block: usize, entry: usize, term: &Term) -> String {
        let term = short(self.source.term(block, term));
        format!("{term} ({})", self.source.spot(block, entry))
    }

    /// A place of the rule's conclusion.
    pub fn in_conclusion(&self, rule: &Rule, place: &Place) -> String {
        let entry = rule.premise_entries() + place.entry;
        self.entry(rule.block, entry, place.subterm)
    }

    /// A place of the rule's premise.
    pub fn in_premise(&self, rule: &Rule, place: &Place) -> String {
        self.entry(rule.block, place.entry, place.subterm)
    }

    /// The subterm of a pattern at this path.
    pub fn in_pattern(&self, pattern: &Listed, path: &[u8]) -> String {
        let all = subterms(&pattern.term);
        match all.iter().find(|place| place.path == path) {
            Some(place) => self.entry(pattern.block, place.entry, place.subterm),
            None => "nothing".to_string(),
        }
    }

    /// Where a pattern and a term of this block part, and what stands there.
    pub fn parting(&self, pattern: &Listed, block: usize, term: &Term, found: &Mismatch) -> String {
        let here = root_words(self.source, block, down(term, &found.path));
        let there = self.in_pattern(pattern, &found.path);
        match &found.why {
            Why::Symbol => format!("it has {there}, and here is {here}"),
            Why::NoNonce => format!("it has {there}, which takes one nonce, and here is {here}"),
            Why::StandsFor(first) => {
                let first = short(self.source.term(block, first));
                format!("{there} stands for {first} already, and here is {here}")
            }
        }
    }

    /// A message that is an instance of both.
    pub fn example(&self, one: &Term, other: &Term) -> String {
        let (message, nonce) = (self.any_secret(), self.any_nonce());
        let filling = Filling {
            message: &message,
            nonce: &nonce,
        };
        let atoms = &self.certificate.atoms;
        match common_instance(atoms, one, other, filling, LONGEST_EXAMPLE) {
            Some(message) => self.message(&message),
            None => format!("one of more than {LONGEST_EXAMPLE} symbols, too long to print"),
        }
    }

    pub fn message(&self, message: &Term) -> String {
        self.source.message(message)
    }

    /// What examples put where anything may stand.
    pub fn any_secret(&self) -> Term {
        let secrets = || self.certificate.secrets.iter().map(|secret| &secret.term);
        let atom = secrets().find(|term| matches!(term, Term::Atom(_)));
        let found = atom.or_else(|| secrets().next());
        found.cloned().unwrap_or(Term::Atom(FIRST_FOREIGN))
    }

    /// What they put where one nonce must stand: best a secret one.
    pub fn any_nonce(&self) -> Term {
        let atoms = &self.certificate.atoms;
        let secret = self.secret_nonce();
        let listed = || {
            let number = atoms.iter().position(|atom| atom.is_nonce())?;
            Some(Term::Atom(number as u16))
        };
        secret.or_else(listed).unwrap_or(Term::Atom(FIRST_FOREIGN))
    }

    pub fn secret_nonce(&self) -> Option<Term> {
        let atoms = &self.certificate.atoms;
        let mut secrets = self.certificate.secrets.iter().map(|secret| &secret.term);
        let found = secrets.find(|term| literal::term::is_one_nonce(atoms, term));
        found.cloned()
    }
}

/// The symbol at a term's root, in words.
pub fn root_words(source: &Source, block: usize, term: &Term) -> String {
    match term {
        Term::Atom(number) => format!("the atom {}", source.atom(*number)),
        Term::Pair(..) => format!("the pair {}", short(source.term(block, term))),
        Term::Encryption(_, key) => format!("an encryption under {}", source.atom(*key)),
        Term::Hash(_) => "a hash".to_string(),
        Term::Signature(_, key) => format!("a signature with {}", source.atom(*key)),
        _ => format!("the variable {}", source.term(block, term)),
    }
}
