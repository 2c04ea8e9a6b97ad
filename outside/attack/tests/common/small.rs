//! Small random certificates with few atoms, so that steps often fit together.

use generate::random::Random;
use literal::atom::Atom;
use literal::numbers::atom_kind::{NONCE, PRINCIPAL, PRIVATE, PUBLIC, SYMMETRIC};
use literal::read::{Certificate, Listed, Rule};
use literal::Term;

/// A, N, M, T, KA, its inverse, KI, its inverse, K: number, kind, known and
/// partner. N is the secret.
const ATOMS: [(u8, u8, u16); 9] = [
    (PRINCIPAL, 1, 0),
    (NONCE, 0, 0),
    (NONCE, 0, 0),
    (NONCE, 1, 0),
    (PUBLIC, 1, 5),
    (PRIVATE, 0, 4),
    (PUBLIC, 1, 7),
    (PRIVATE, 1, 6),
    (SYMMETRIC, 0, 8),
];
pub const SECRET: u16 = 1;
pub const KEYS: [u16; 6] = [4, 4, 4, 6, 8, 8];
pub const SIGNERS: [u16; 2] = [5, 7];

/// With these atoms and this secret, and rules from premises and conclusions.
pub fn with_rules(rules: Vec<(Option<Term>, Term)>) -> Certificate {
    let atom = |(kind, known, partner)| Atom {
        kind,
        known,
        partner,
    };
    let rule = |(premise, conclusion)| Rule {
        block: 0,
        premise,
        conclusion,
    };
    Certificate {
        atoms: ATOMS.map(atom).to_vec(),
        secrets: vec![Listed {
            block: 0,
            term: Term::Atom(SECRET),
        }],
        rules: rules.into_iter().map(rule).collect(),
        ..Certificate::default()
    }
}

/// The certificate of a seed: a rule that sends the secret under a key, and
/// two to five others.
pub fn certificate(seed: u64) -> Certificate {
    let mut random = Random::new(seed);
    let first = Term::encryption(beside(&mut random, Term::Atom(SECRET)), 4);
    let mut rules = vec![(None, first)];
    let others = random.between(2, 5);
    rules.extend((0..others).map(|_| rule(&mut random)));
    with_rules(rules)
}

fn rule(random: &mut Random) -> (Option<Term>, Term) {
    let premise = random.chance(90).then(|| around(random));
    (premise, around(random))
}

/// A term that is mostly encrypted.
fn around(random: &mut Random) -> Term {
    let inner = term(random, 2);
    match random.weighted(&[70, 10, 10, 10]) {
        0 => Term::encryption(inner, *random.pick(&KEYS)),
        1 => Term::signature(inner, *random.pick(&SIGNERS)),
        2 => Term::pair(
            Term::encryption(inner, *random.pick(&KEYS)),
            term(random, 1),
        ),
        _ => inner,
    }
}

fn beside(random: &mut Random, term: Term) -> Term {
    match random.below(3) {
        0 => term,
        1 => Term::pair(term, Term::Atom(2)),
        _ => Term::pair(Term::Atom(3), term),
    }
}

fn term(random: &mut Random, depth: usize) -> Term {
    let deeper = [35, 10, 5, 5].map(|weight| if depth > 0 { weight } else { 0 });
    match random.weighted(&[deeper[0], deeper[1], deeper[2], deeper[3], 30, 10, 25]) {
        0 => Term::pair(term(random, depth - 1), term(random, depth - 1)),
        1 => Term::encryption(term(random, depth - 1), *random.pick(&KEYS)),
        2 => Term::hash(term(random, depth - 1)),
        3 => Term::signature(term(random, depth - 1), *random.pick(&SIGNERS)),
        4 => Term::Plain(random.below(3) as u8),
        5 => Term::PlainNonce(random.below(2) as u8),
        _ => Term::Atom(*random.pick(&[0, 2, 3, 3, 4, 8])),
    }
}
