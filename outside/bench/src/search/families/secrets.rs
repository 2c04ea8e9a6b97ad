//! Nested secrets: places that are risky because of them, and secrets that are
//! compared with each other.

use crate::search::shapes::*;
use generate::random::Random;
use generate::sketch::Sketch;
use literal::Term;

/// One secret of many levels, with which every chain to a variable shares: the
/// premise has each chain, but behind others that differ at the end.
pub fn everywhere(random: &mut Random) -> Sketch {
    let length = random.between(20, 30);
    let mut sketch = base();
    for i in 0..random.between(1, 30) {
        sketch.secrets.push(chain(62 - i, KEY, nonce()));
    }
    fill(sketch, |i| {
        let other = chain(length, KEY, plain(i + 1));
        let same = chain(length, KEY, plain(i));
        (Some(Term::pair(other, same.clone())), same)
    })
}

/// Secrets with equal long beginnings, and rules with the same ones that end in
/// leaves of their own.
pub fn prefixes(random: &mut Random) -> Sketch {
    let length = random.between(20, 62);
    let mut sketch = base();
    for i in 0..random.between(20, 40) {
        sketch.secrets.push(chain(length, KEY, leaf(i)));
    }
    let with_premise = random.chance(50);
    fill(sketch, |i| {
        let of = |i: usize| chain(62, KEY, leaf(40 + i % 20));
        (with_premise.then(|| of(i + 1)), of(i))
    })
}

/// Secrets that are closed by each other alone.
pub fn closing(random: &mut Random) -> Sketch {
    let mut sketch = base();
    for i in 1..random.between(40, 61) {
        sketch.secrets.push(chain(i, OTHER_KEY, nonce()));
    }
    if random.chance(50) {
        sketch.secrets.reverse();
    }
    fill(sketch, |i| (None, leaf(i)))
}

/// Secrets that are pairs, and conclusions of pairs with a repeated variable:
/// an instance up to the last item.
pub fn variables(random: &mut Random) -> Sketch {
    let items = random.between(5, 29);
    let mut sketch = base();
    for i in 0..random.between(20, 40) {
        let last = Term::pair(leaf(i), nonce());
        let secret = to_the_right((0..items).map(|_| leaf(0)), last);
        sketch.secrets.push(under(KEY, secret));
    }
    fill(sketch, |i| {
        let last = Term::pair(plain(i), leaf(0));
        let conclusion = to_the_right((0..items).map(|at| plain(i + at % 2)), last);
        let conclusion = under(KEY, conclusion);
        (Some(conclusion.clone()), conclusion)
    })
}
