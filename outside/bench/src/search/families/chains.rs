//! Encryptions in encryptions, all under one key, that differ at the very end.

use super::hats::bottom;
use crate::search::shapes::*;
use generate::certificate::replace;
use generate::pairs::{term_pair, SIGNING_KEYS};
use generate::random::Random;
use generate::sketch::Sketch;
use literal::numbers::MOST_ENTRIES;
use literal::Term;

/// Good patterns that differ in the leaf.
fn with_goods(random: &mut Random, length: usize) -> Sketch {
    let mut sketch = base();
    for i in 0..random.between(20, 40) {
        sketch.goods.push(chain(length, KEY, leaf(i)));
    }
    sketch
}

/// No place counts: laziness answers.
pub fn irrelevant(random: &mut Random) -> Sketch {
    let length = random.between(50, 62);
    let sketch = with_goods(random, length);
    fill(sketch, |i| {
        (Some(chain(length, KEY, leaf(40 + i))), leaf(i))
    })
}

/// A secret at the bottom of the premise, which the innermost encryption alone
/// closes.
pub fn to_a_secret(random: &mut Random) -> Sketch {
    let length = random.between(50, 59);
    let mut sketch = with_goods(random, length + 1);
    sketch.secrets.push(Term::Atom(OTHER_KEY));
    sketch.goods.push(bottom());
    fill(sketch, |i| {
        let inside = Term::pair(leaf(i), under(OTHER_KEY, nonce()));
        (Some(chain(length, KEY, inside)), leaf(i))
    })
}

/// A variable at the bottom that the conclusion repeats, beside a leaf that
/// clashes with every pattern's.
pub fn to_a_variable(random: &mut Random) -> Sketch {
    let length = random.between(50, 60);
    let mut sketch = base();
    for i in 0..random.between(20, 40) {
        let inside = Term::pair(either(i), leaf(i));
        sketch.goods.push(chain(length, KEY, inside));
    }
    fill(sketch, |i| {
        let inside = Term::pair(plain(i), leaf(50));
        (Some(chain(length, KEY, inside)), plain(i))
    })
}

/// Every level holds a pair with a leaf; the patterns differ in where they
/// have a variable instead.
pub fn of_pairs(random: &mut Random) -> Sketch {
    let levels = random.between(10, 20);
    let mut sketch = base();
    for i in 0..random.between(20, 40) {
        let item = |at: usize| match at == i % levels {
            true => either(i),
            false => leaf(0),
        };
        let items: Vec<Term> = (0..levels).map(item).collect();
        sketch.goods.push(links(items.into_iter(), KEY, leaf(i)));
    }
    fill(sketch, |i| {
        let items = (0..levels).map(|_| leaf(0));
        let inside = Term::pair(plain(i), leaf(0));
        (Some(links(items, KEY, inside)), plain(i))
    })
}

/// A variable stands for two long chains that differ at the end.
pub fn compared(random: &mut Random) -> Sketch {
    let length = random.between(5, 28);
    let mut sketch = base();
    for i in 0..random.between(20, 40) {
        let twice = Term::pair(either(i), either(i));
        sketch.goods.push(under(KEY, twice));
    }
    fill(sketch, |i| {
        let one = chain(length, KEY, plain(i));
        let other = chain(length, KEY, under(OTHER_KEY, plain(i)));
        (Some(under(KEY, Term::pair(one, other))), plain(i))
    })
}

/// Chains of variables, each the pair of the next one with itself, that have
/// no shared instance; what is sent on stands beside them.
pub fn doubling(random: &mut Random) -> Sketch {
    let mut sketch = with_signers(base());
    let no_secrets = [(nonce(), leaf(0)), (Term::Atom(KEY), leaf(1))];
    let term = replace(&long_pair(random).1, &no_secrets);
    let mut tried = 0;
    while sketch.goods.len() < 30 && tried < 3_000 {
        let (pattern, _) = long_pair(random);
        if !literal::shares(&sketch.atoms, &pattern, &term) {
            let with_any = Term::pair(pattern, either(tried));
            sketch.goods.push(under(KEY, with_any));
        }
        tried += 1;
    }
    fill(sketch, |i| {
        let with_variable = Term::pair(moved(&term, i), plain(i));
        (Some(under(KEY, with_variable)), plain(i))
    })
}

fn long_pair(random: &mut Random) -> (Term, Term) {
    loop {
        let (pattern, term) = term_pair(random.number());
        let (pattern, term) = (with_own_signers(&pattern), with_own_signers(&term));
        let sizes = [pattern.size(), term.size()];
        if sizes
            .iter()
            .all(|size| (30..MOST_ENTRIES - 2).contains(size))
        {
            return (pattern, term);
        }
    }
}

/// Its signatures are made with the keys of these files.
fn with_own_signers(term: &Term) -> Term {
    match term {
        Term::Signature(message, key) => {
            let is_first = *key == SIGNING_KEYS[0];
            let signer = if is_first { SIGNER } else { OTHER_SIGNER };
            Term::signature(with_own_signers(message), signer)
        }
        _ => term.with_parts(with_own_signers),
    }
}
