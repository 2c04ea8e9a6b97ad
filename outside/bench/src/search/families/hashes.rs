//! Hashes and signatures: terms of which little is a place, or all is, and which
//! agree with patterns and secrets up to their ends.

use super::hats::{self, conclusion, own_item, two_keys};
use super::links::{bottom, closed, digits, first_again};
use crate::search::shapes::*;
use generate::random::Random;
use generate::sketch::Sketch;
use literal::numbers::MOST_ENTRIES;
use literal::Term;

const LEVELS: usize = 19;

/// How many levels of so many entries there are around a rule's bottom.
fn levels_of(entries: usize) -> usize {
    (MOST_ENTRIES - bottom(0).size()) / entries
}

/// Levels with the same variable; at the bottom, beside it, another one that is
/// sent on.
fn one_variable(i: usize) -> (Option<Term>, Term) {
    let items = (0..LEVELS).map(|_| plain(i));
    let inside = under(OTHER_KEY, Term::pair(plain(i), plain(i + 1)));
    (Some(links(items, KEY, inside)), plain(i + 1))
}

/// Listed hashes, each with what it is the hash of.
fn add_hashes(sketch: &mut Sketch, length: usize, inside: Term) {
    let all = (0..=length).map(|count| hashes(count, inside.clone()));
    sketch.secrets.extend(all);
}

/// Fields full of variables, all below hashes, every second one signed, and behind
/// them the one that counts. Each hash may be the last of the listed ones, and
/// stands in the premise behind others that are as long.
pub fn hidden(random: &mut Random) -> Sketch {
    let length = random.between(1, 6);
    let count = (MOST_ENTRIES - 1) / (length + 5);
    let mut sketch = with_signers(base());
    for i in 0..random.between(1, 36 / (length + 1)) {
        add_hashes(&mut sketch, length, Term::pair(leaf(i), nonce()));
    }
    let last = Term::hash(nonce());
    sketch.secrets.push(last.clone());
    add_hashes(&mut sketch, length, Term::pair(last.clone(), last));
    fill(sketch, |i| {
        let field = |at: usize| {
            let twice = Term::pair(plain(i + at), plain(i + at));
            signatures(at % 2, SIGNER, hashes(length, twice))
        };
        let premise = to_the_right((0..count).map(field), plain(i));
        let conclusion = to_the_right((0..count).rev().map(field), plain(i));
        (Some(premise), conclusion)
    })
}

/// Every level has a chain of hashes beside the next: all chains agree, with the
/// patterns' too, but for what is inside the last.
pub fn beside(random: &mut Random) -> Sketch {
    let length = random.between(1, 6);
    let most = levels_of(length + 3);
    let mut sketch = base();
    for i in 0..random.between(20, 40) {
        let mut items = digits(i, 1 + i % most);
        items[i % most] = leaf(i);
        let items = items.into_iter().map(|item| hashes(length, item));
        sketch.goods.push(links(items, KEY, either(i)));
    }
    fill(sketch, |i| {
        let items = (0..most).map(|at| hashes(length, leaf(40 + (at + i) % 20)));
        (Some(links(items, KEY, bottom(i))), plain(i))
    })
}

/// Patterns of variables, beside hashes of the rule; one comes again inside,
/// beside an encryption.
pub fn fields(random: &mut Random) -> Sketch {
    let length = random.between(1, 6);
    let most = levels_of(length + 3);
    let mut sketch = base();
    for i in 0..random.between(20, 40) {
        sketch.goods.push(closed(i, 1 + i % most));
    }
    fill(sketch, |i| {
        let items = (0..most).map(|at| hashes(length, plain(i + at)));
        (Some(links(items, KEY, bottom(i))), plain(i))
    })
}

/// A variable at the first and at the last level, beside chains of the rule that
/// agree but for what is inside.
pub fn compared(random: &mut Random) -> Sketch {
    let (length, apart) = (random.between(1, 9), random.between(1, 6));
    let most = levels_of(length + 5);
    let mut sketch = base();
    for i in 0..random.between(20, 40) {
        sketch.goods.push(first_again(i, 2 + i % apart));
    }
    fill(sketch, |i| {
        let items = (0..most).map(|at| hashes(length, Term::pair(plain(i), leaf(at))));
        (Some(links(items, KEY, bottom(i))), plain(i))
    })
}

/// Chains of signatures that are to be one, and of which the last has another key
/// at its end.
pub fn signers(random: &mut Random) -> Sketch {
    let length = random.between(0, 6);
    let most = random.between(1, levels_of(length + 4) - 1);
    let mut sketch = with_signers(base());
    for i in 0..random.between(20, 40) {
        let count = 1 + i % most;
        let items = (0..=count).map(|at| {
            let signer = if at < count { SIGNER } else { OTHER_SIGNER };
            let end = Term::signature(either(i + at), signer);
            signatures(length, SIGNER, end)
        });
        sketch.goods.push(links(items, KEY, either(i)));
    }
    fill(sketch, one_variable)
}

/// So many levels of variables in hashes, the last of them once more inside: what
/// stands beside all of these would have to hold itself.
fn closed_in_hashes(i: usize, levels: usize, length: usize, item: fn(usize) -> Term) -> Term {
    let items = (0..levels).map(|at| hashes(length, item(i + at)));
    links(items, KEY, item(i + i / levels % levels))
}

pub fn cyclic(random: &mut Random) -> Sketch {
    let length = random.between(1, 6);
    let most = random.between(1, levels_of(length + 3));
    let mut sketch = base();
    for i in 0..random.between(20, 40) {
        let good = closed_in_hashes(i, 1 + i % most, length, either);
        sketch.goods.push(good);
    }
    fill(sketch, one_variable)
}

/// Every level of a conclusion is a hat for its own item. All bad patterns have a
/// mark below hashes beside it, and fail late to share.
pub fn marks(random: &mut Random) -> Sketch {
    let length = random.between(1, 6);
    let most = random.between(1, levels_of(length + 3));
    let mark = |i: usize| Term::Marked((i % PLAIN) as u8);
    let mut sketch = two_keys();
    sketch.goods.extend([own_item(), hats::bottom()]);
    for i in 0..random.between(20, 40) {
        let bad = closed_in_hashes(i, 1 + i % most, length, mark);
        sketch.bads.push(bad);
    }
    fill(sketch, |i| (None, conclusion(i)))
}

/// Listed chains of signatures around a hash with equal long beginnings; every
/// level of a rule's chains may be one up to its end.
pub fn secrets(random: &mut Random) -> Sketch {
    let (inside, spread) = (random.between(1, 30), random.between(1, 8));
    let mut sketch = with_signers(base());
    sketch.secrets.push(Term::Atom(SIGNER));
    for i in 0..random.between(20, 40) {
        let message = hashes(inside, leaf(i));
        let length = 62 - inside - i % spread;
        sketch.secrets.push(signatures(length, SIGNER, message));
    }
    let with_premise = random.chance(50);
    fill(sketch, |i| {
        let of = |i: usize| signatures(62 - inside, SIGNER, hashes(inside, leaf(40 + i % 20)));
        (with_premise.then(|| of(i + 1)), of(i))
    })
}
