//! Files in which sharing goes deep: long terms and chains of repeated
//! variables.

use crate::certificate::{replace, replace_at, variables_of, OPEN_SECRETS};
use crate::pairs::{self, term_pair, KEYS, SIGNING_KEYS};
use crate::random::Random;
use crate::sketch::Sketch;
use crate::spread::onto_two_blocks;
use literal::numbers::MOST_ENTRIES;
use literal::Term;

const SECRET: u16 = 6;
const KNOWN: u16 = 7;

/// A well-formed file whose patterns and rules come from the generator's pairs
/// of terms: chains, deep pairs, instances.
pub fn sketch(random: &mut Random) -> Sketch {
    let mut sketch = Sketch {
        atoms: pairs::atoms(),
        secrets: secrets(random),
        ..Sketch::default()
    };
    for _ in 0..random.between(1, 3) {
        add_pair(random, &mut sketch);
    }
    if random.chance(60) {
        let key = *random.pick(&KEYS);
        sketch.goods.push(Term::encryption(Term::Marked(0), key));
    }
    if !random.chance(OPEN_SECRETS) {
        hide_open_secrets(random, &mut sketch);
    }
    if random.chance(16) {
        return onto_two_blocks(random, &sketch);
    }
    sketch
}

/// The nonce, the keys, and at times nested ones, all weakly closed.
fn secrets(random: &mut Random) -> Vec<Term> {
    let mut secrets = vec![Term::Atom(SECRET)];
    secrets.extend(KEYS.map(Term::Atom));
    while random.chance(40) {
        let (_, term) = term_pair(random.number());
        let inner = without_variables(random, &term);
        let nested = match random.below(5) {
            0 => Term::encryption(inner, *random.pick(&KEYS)),
            1 => Term::pair(Term::Atom(SECRET), inner),
            2 => Term::pair(inner, Term::Atom(SECRET)),
            3 => Term::signature(inner, SIGNING_KEYS[0]),
            _ => Term::hash(random.pick(&secrets).clone()),
        };
        if nested.size() <= MOST_ENTRIES {
            secrets.push(nested);
        }
    }
    secrets
}

fn without_variables(random: &mut Random, term: &Term) -> Term {
    let by: Vec<(Term, Term)> = variables_of(term)
        .into_iter()
        .map(|variable| (variable, Term::Atom(random.below(8) as u16)))
        .collect();
    replace(term, &by)
}

/// Something else wherever a premise shows a secret.
fn hide_open_secrets(random: &mut Random, sketch: &mut Sketch) {
    let mut rules = std::mem::take(&mut sketch.rules);
    for premise in rules.iter_mut().filter_map(|rule| rule.0.as_mut()) {
        while let Some(entry) = sketch.first_open_secret(premise) {
            let other = match random.chance(80) {
                true => Term::Atom(KNOWN),
                false => Term::Plain(0),
            };
            *premise = replace_at(premise, entry, &other);
        }
    }
    sketch.rules = rules;
}

/// A pair's pattern as a good or a bad one, and rules with its term.
fn add_pair(random: &mut Random, sketch: &mut Sketch) {
    let (pattern, term) = term_pair(random.number());
    let key = *random.pick(&KEYS);
    let pattern = Term::encryption(pattern, key);
    let term = Term::encryption(term, key);
    if pattern.size().max(term.size()) > MOST_ENTRIES {
        return add_pair(random, sketch);
    }
    if random.chance(60) {
        sketch.goods.push(pattern.clone());
    }
    if random.chance(50) {
        let bad = match random.chance(50) {
            true => pattern.clone(),
            false => without_marks(&pattern),
        };
        sketch.bads.push(bad);
    }
    for _ in 0..random.between(1, 2) {
        let rule = rule(random, &term, &without_marks(&pattern), &sketch.secrets);
        sketch.rules.push(rule);
    }
}

fn without_marks(term: &Term) -> Term {
    let by: Vec<(Term, Term)> = variables_of(term)
        .into_iter()
        .filter_map(|variable| match variable {
            Term::Marked(number) => Some((variable, Term::Plain(number))),
            Term::MarkedNonce(number) => Some((variable, Term::PlainNonce(number))),
            _ => None,
        })
        .collect();
    replace(term, &by)
}

/// A premise that may hold the term, and a conclusion that rests on it.
fn rule(
    random: &mut Random,
    term: &Term,
    pattern: &Term,
    secrets: &[Term],
) -> (Option<Term>, Term) {
    let premise = match random.below(8) {
        0 => None,
        1 => Some(beside(random, term, pattern)),
        2 => Some(beside(random, term, &Term::Plain(0))),
        _ => Some(term.clone()),
    };
    let conclusion = conclusion(random, term, pattern, secrets);
    if conclusion.size() <= MOST_ENTRIES {
        (premise, conclusion)
    } else {
        (premise, term.clone())
    }
}

fn conclusion(random: &mut Random, term: &Term, pattern: &Term, secrets: &[Term]) -> Term {
    let secret = random.pick(secrets).clone();
    let variable = match variables_of(term).as_slice() {
        [] => Term::Plain(0),
        variables => random.pick(variables).clone(),
    };
    match random.below(9) {
        0 => term.clone(),
        1 => pattern.clone(),
        2 => beside(random, term, &variable),
        3 => beside(random, &secret, &variable),
        4 => replace(term, &[(variable, secret)]),
        _ => variable,
    }
}

/// Both terms as a pair in either order, if there is room, else the first.
fn beside(random: &mut Random, one: &Term, other: &Term) -> Term {
    let pair = match random.below(2) {
        0 => Term::pair(one.clone(), other.clone()),
        _ => Term::pair(other.clone(), one.clone()),
    };
    if pair.size() <= MOST_ENTRIES {
        pair
    } else {
        one.clone()
    }
}
