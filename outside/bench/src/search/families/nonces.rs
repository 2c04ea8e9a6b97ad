//! Nonce variables: patterns that agree side by side, and of which only a nonce
//! variable, at the end or through others, rules out what it meets.

use super::hats::{bottom, conclusion, own_item, two_keys};
use super::links::{self, first_again};
use crate::search::shapes::*;
use generate::random::Random;
use generate::sketch::Sketch;
use literal::Term;

const LEVELS: usize = 19;

/// What a nonce variable never is.
fn no_nonce(i: usize) -> Term {
    under(OTHER_KEY, leaf(i))
}

/// Long chains that end in a nonce variable, where the rule's go on.
pub fn chains(random: &mut Random) -> Sketch {
    let (length, spread) = (random.between(20, 55), random.between(1, 6));
    let mut sketch = base();
    for i in 0..random.between(20, 40) {
        let pattern = chain(length - i % spread, KEY, either_nonce(i));
        sketch.goods.push(pattern);
    }
    fill(sketch, |i| {
        let inside = under(OTHER_KEY, Term::pair(plain(i), plain_nonce(i)));
        (Some(chain(58, KEY, inside)), plain(i))
    })
}

/// A variable at the first and at the last level, beside a nonce variable and
/// what is no nonce.
pub fn late_clash(random: &mut Random) -> Sketch {
    let levels = random.between(2, 9);
    let mut sketch = base();
    for i in 0..random.between(20, 40) {
        sketch.goods.push(first_again(i, levels));
    }
    fill(sketch, |i| {
        let items = (0..LEVELS - 4).map(|at| match at % levels {
            0 => plain_nonce(at + i),
            _ => no_nonce(at),
        });
        let inside = under(OTHER_KEY, plain(i));
        (Some(links(items, KEY, inside)), plain(i))
    })
}

/// Variables of both sides, many of them for nonces, in one class: the first is
/// a nonce variable, the last an encryption.
pub fn classes(random: &mut Random) -> Sketch {
    let (length, step) = (random.between(2, 7), random.between(1, 3));
    let nonces = random.between(2, 5);
    let mut sketch = base();
    for i in 0..random.between(20, 40) {
        let mut items: Vec<Term> = (0..2 * length)
            .map(|at| match at % nonces {
                0 => either_nonce(i + at.div_ceil(2)),
                _ => either(i + at.div_ceil(2)),
            })
            .collect();
        items[0] = either_nonce(i);
        items[2 * length - 1] = no_nonce(i);
        let last = either(i + 9);
        sketch.goods.push(links(items.into_iter(), KEY, last));
    }
    fill(sketch, |i| {
        let items = (0..LEVELS).map(|at| plain(i + at * step / 2));
        (Some(links(items, KEY, links::bottom(i))), plain(i))
    })
}

/// Every level of a conclusion is a hat for its own item; every bad pattern
/// agrees with it down to a nonce variable beside the next level.
pub fn hats(random: &mut Random) -> Sketch {
    let (most, step) = (random.between(2, 14), random.below(2));
    let mut sketch = two_keys();
    sketch.goods.extend([own_item(), bottom()]);
    for i in 0..random.between(20, 40) {
        let items = (0..1 + i % most).map(|at| match (i + at) % 3 {
            0 => plain_nonce(i + at),
            _ => either(i + at * (1 + i / 8)),
        });
        sketch.bads.push(links(items, KEY, either_nonce(i)));
    }
    fill(sketch, |i| (None, conclusion(i * step)))
}
