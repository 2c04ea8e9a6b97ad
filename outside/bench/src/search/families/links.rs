//! Levels {(item, ..)}k: side by side every level agrees, and only repeated
//! variables or the last leaf tell the two sides apart.

use crate::search::shapes::*;
use generate::random::Random;
use generate::sketch::Sketch;
use literal::Term;

const LEVELS: usize = 19;

/// Variables by the digits of a number, so that no two patterns begin alike.
pub fn digits(i: usize, levels: usize) -> Vec<Term> {
    (0..levels)
        .map(|at| either((i >> (at % 6)) ^ (3 * at)))
        .collect()
}

/// Patterns that no beginning rules out together, and a clash at the leaf.
pub fn renamed(random: &mut Random) -> Sketch {
    let levels = random.between(8, LEVELS);
    let mut sketch = base();
    for i in 0..random.between(20, 40) {
        let items = digits(i, levels).into_iter();
        sketch.goods.push(links(items, KEY, leaf(i)));
    }
    fill(sketch, |i| {
        let items = (0..levels).map(|at| plain(i + at));
        (Some(links(items, KEY, bottom(i))), plain(i))
    })
}

/// The last item of a pattern is one of its others: the rule's variable would
/// have to hold itself.
pub fn cyclic(random: &mut Random) -> Sketch {
    let most = random.between(2, 9);
    let mut sketch = base();
    for i in 0..random.between(20, 40) {
        sketch.goods.push(closed(i, 1 + i % most));
    }
    fill(sketch, |i| {
        let items = (0..LEVELS).map(|_| plain(i));
        (Some(links(items, KEY, bottom(i))), plain(i))
    })
}

/// So many levels of different variables, the last of them once more inside.
pub fn closed(i: usize, levels: usize) -> Term {
    let items = (0..levels).map(|at| either(i + at));
    links(items, KEY, either(i + i / levels % levels))
}

/// So many levels of variables, the first once more at the last, and another one
/// inside.
pub fn first_again(i: usize, levels: usize) -> Term {
    let mut items: Vec<Term> = (0..levels).map(|at| either(i + at)).collect();
    items[levels - 1] = items[0].clone();
    links(items.into_iter(), KEY, either(i + levels))
}

/// A variable at the first and at the last level, beside different leaves.
pub fn late_clash(random: &mut Random) -> Sketch {
    let levels = random.between(2, 9);
    let mut sketch = base();
    for i in 0..random.between(20, 40) {
        sketch.goods.push(first_again(i, levels));
    }
    fill(sketch, |i| {
        let items = (0..LEVELS).map(|at| match at % levels {
            0 => leaf(at),
            _ => leaf(at + 20),
        });
        (Some(links(items, KEY, bottom(i))), plain(i))
    })
}

/// A variable, where no pattern reaches.
pub fn bottom(i: usize) -> Term {
    under(OTHER_KEY, Term::pair(plain(i), leaf(50)))
}

/// A variable at two levels, beside long terms that differ at the end.
pub fn compared(random: &mut Random) -> Sketch {
    let length = random.between(2, 12);
    let levels = 58 / (length + 3);
    let mut sketch = base();
    for i in 0..random.between(20, 40) {
        let between = (0..i % 3).map(|at| either(i + 1 + at));
        let inner = links([either(i)].into_iter(), KEY, either(i + 5));
        let pattern = links(between, KEY, inner);
        let pattern = links([either(i)].into_iter(), KEY, pattern);
        sketch.goods.push(pattern);
    }
    fill(sketch, |i| {
        let items = (0..levels).map(|at| chain(length, OTHER_KEY, leaf(at)));
        (Some(links(items, KEY, bottom(i))), plain(i))
    })
}

/// A rule's variable at two levels, beside different leaves of a pattern.
pub fn rule_repeats(random: &mut Random) -> Sketch {
    let (apart, variables) = (random.between(1, 8), random.between(1, 8));
    let mut sketch = base();
    for i in 0..random.between(20, 40) {
        let mut items: Vec<Term> = (0..=apart).map(|at| either(i + at)).collect();
        items[0] = leaf(i);
        items[apart] = leaf(i + 1);
        let last = either(i + apart);
        sketch.goods.push(links(items.into_iter(), KEY, last));
    }
    fill(sketch, |i| {
        let items = (0..LEVELS).map(|at| plain(i + at % variables));
        (Some(links(items, KEY, bottom(i))), plain(i))
    })
}

/// A variable of the pattern meets one of the rule and a leaf, and that one of
/// the rule meets another leaf: only both together fail.
pub fn two_steps(random: &mut Random) -> Sketch {
    let (apart, shift) = (random.between(0, 6), random.below(3));
    let mut sketch = base();
    for i in 0..random.between(20, 40) {
        let mut items = vec![either(i), either(i)];
        items.extend((0..apart).map(|at| either(i + 1 + at)));
        items.push(leaf(i));
        let last = either(i + 1);
        sketch.goods.push(links(items.into_iter(), KEY, last));
    }
    fill(sketch, |i| {
        let items = (0..LEVELS).map(|at| match (at + shift) % 3 {
            0 => leaf(50),
            _ => plain(i),
        });
        (Some(links(items, KEY, bottom(i))), plain(i))
    })
}

/// Variables of both sides in a ring: each is the next one's, the last is a
/// leaf and the first another.
pub fn rings(random: &mut Random) -> Sketch {
    let (length, step) = (random.between(3, 8), random.between(1, 3));
    let mut sketch = base();
    for i in 0..random.between(20, 40) {
        let mut items: Vec<Term> = (0..2 * length).map(|at| either(i + (at + 1) / 2)).collect();
        items[0] = leaf(i);
        items[2 * length - 1] = leaf(i + 1);
        sketch
            .goods
            .push(links(items.into_iter(), KEY, either(i + 9)));
    }
    fill(sketch, |i| {
        let items = (0..LEVELS).map(|at| plain(i + at * step / 2));
        (Some(links(items, KEY, bottom(i))), plain(i))
    })
}

/// Most levels share with one good pattern and are one bad one, which stand
/// behind all others in the file or in an order of symbols; these fail late.
pub fn bad_last(random: &mut Random) -> Sketch {
    let most = random.between(2, 9);
    let mut sketch = base();
    for i in 0..random.between(5, 20) {
        sketch.goods.push(closed(i, 1 + i % most));
    }
    for i in 0..random.between(5, 20) {
        let pattern = closed(i % 8, 1 + i % most.min(7));
        sketch.bads.push(pattern.without_marks());
    }
    let items: Vec<Term> = (0..random.between(1, 4))
        .map(|at| either(15 - at))
        .collect();
    let most_levels = links(items.into_iter(), KEY, either(8));
    let at = if random.chance(50) { 0 } else { usize::MAX };
    insert(&mut sketch.goods, at, most_levels.clone());
    insert(&mut sketch.bads, at, most_levels.without_marks());
    fill(sketch, |i| {
        let items = (0..LEVELS).map(|_| plain(i));
        (Some(links(items, KEY, bottom(i))), plain(i))
    })
}

pub fn insert(list: &mut Vec<Term>, at: usize, term: Term) {
    list.insert(at.min(list.len()), term);
}

pub trait WithoutMarks {
    fn without_marks(&self) -> Term;
}

impl WithoutMarks for Term {
    /// Marked variables become plain ones of the same number.
    fn without_marks(&self) -> Term {
        match self {
            Term::Marked(number) => Term::Plain(*number),
            Term::MarkedNonce(number) => Term::PlainNonce(*number),
            _ => self.with_parts(Term::without_marks),
        }
    }
}
