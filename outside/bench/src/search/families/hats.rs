//! Conclusions of many levels, each a sure hat for its own item only.

use super::links::{closed, insert, WithoutMarks};
use crate::search::shapes::*;
use generate::random::Random;
use generate::sketch::Sketch;
use literal::Term;

const LEVELS: usize = 20;

/// Covers the item of its level and nothing deeper.
pub fn own_item() -> Term {
    under(KEY, Term::pair(Term::Marked(0), Term::Plain(0)))
}

/// Covers the bottom.
pub fn bottom() -> Term {
    under(OTHER_KEY, Term::Marked(0))
}

/// The base with the second key as a secret.
pub fn two_keys() -> Sketch {
    let mut sketch = base();
    sketch.secrets.push(Term::Atom(OTHER_KEY));
    sketch
}

/// A conclusion in which every level, and the bottom, has the same variable.
pub fn conclusion(i: usize) -> Term {
    let items = (0..LEVELS).map(|_| plain(i));
    links(items, KEY, under(OTHER_KEY, plain(i)))
}

/// Every level matches the good pattern, and fails late to share with each
/// bad one.
pub fn shared(random: &mut Random) -> Sketch {
    let most = random.between(2, 9);
    let mut sketch = two_keys();
    sketch.goods.extend([own_item(), bottom()]);
    for i in 0..random.between(20, 40) {
        let pattern = closed(i, 1 + i % most).without_marks();
        sketch.bads.push(pattern);
    }
    fill(sketch, |i| (None, conclusion(i)))
}

/// Good patterns that match up to the last leaf.
pub fn matched(random: &mut Random) -> Sketch {
    let levels = random.between(2, 8);
    let mut sketch = two_keys();
    let place = if random.chance(50) { 0 } else { usize::MAX };
    for i in 0..random.between(20, 40) {
        let items = (0..levels).map(|at| either(i + at));
        let pattern = links(items, KEY, under(OTHER_KEY, leaf(30 + i)));
        sketch.goods.push(pattern);
    }
    insert(&mut sketch.goods, place, own_item());
    insert(&mut sketch.goods, place, bottom());
    fill(sketch, |i| (None, conclusion(i)))
}

/// Good patterns that match up to a repeated variable, bad ones that fail late.
pub fn both(random: &mut Random) -> Sketch {
    let most = random.between(2, 9);
    let mut sketch = two_keys();
    for i in 0..random.between(10, 20) {
        sketch.goods.push(closed(i, 1 + i % most));
        sketch
            .bads
            .push(closed(i % 8, 1 + i % most.min(7)).without_marks());
    }
    sketch.goods.extend([own_item(), bottom()]);
    fill(sketch, |i| (Some(conclusion(i)), conclusion(i + 1)))
}

/// Patterns that repeat one variable at every level: compared at each.
pub fn repeated(random: &mut Random) -> Sketch {
    let levels = random.between(2, 12);
    let mut sketch = two_keys();
    for i in 0..random.between(20, 40) {
        let items = (0..1 + i % levels).map(|_| either(i));
        sketch.goods.push(links(items, KEY, either(i)));
    }
    sketch.goods.extend([own_item(), bottom()]);
    fill(sketch, |i| (None, conclusion(i)))
}
