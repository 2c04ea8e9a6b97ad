//! Bad patterns with marks: many that meet every level, of which none or only
//! the last has a mark on the place that is asked.

use super::hats::{bottom, conclusion, own_item, two_keys};
use super::links::{closed, insert};
use crate::search::shapes::*;
use generate::random::Random;
use generate::sketch::Sketch;
use literal::Term;

const LEVELS: usize = 19;

/// So many levels: a plain variable at the first, either sort at the others,
/// and a mark below the last.
fn down_to_a_mark(i: usize, levels: usize) -> Term {
    let items = (0..levels).map(|at| match at {
        0 => plain(i),
        _ => either(i + at * (1 + i / 8)),
    });
    links(items, KEY, Term::Marked((i % PLAIN) as u8))
}

/// At the first or at the last place: symbols or blocks may decide the order.
pub fn some_end(random: &mut Random) -> usize {
    match random.chance(50) {
        true => 0,
        false => usize::MAX,
    }
}

/// Every level is a hat for its own item, and every bad pattern shares an
/// instance with it; all marks are deeper.
pub fn beside(random: &mut Random) -> Sketch {
    let most = random.between(2, 12);
    let mut sketch = two_keys();
    sketch.goods.extend([own_item(), bottom()]);
    for i in 0..random.between(20, 40) {
        sketch.bads.push(down_to_a_mark(i, 1 + i % most));
    }
    with_conclusions(random, sketch)
}

/// Rules that send the same or, by turns, one of eight.
fn with_conclusions(random: &mut Random, sketch: Sketch) -> Sketch {
    let step = random.below(2);
    fill(sketch, |i| (None, conclusion(i * step)))
}

/// Every bad pattern has a mark at the item, and fails late to share.
pub fn late(random: &mut Random) -> Sketch {
    let most = random.between(2, 9);
    let mut sketch = two_keys();
    sketch.goods.extend([own_item(), bottom()]);
    for i in 0..random.between(20, 40) {
        sketch.bads.push(closed(PLAIN + i % PLAIN, 1 + i % most));
    }
    with_conclusions(random, sketch)
}

/// Every level of a premise is an instance of all bad patterns, of which one
/// alone, at either end, shows what is deeper.
pub fn premises(random: &mut Random) -> Sketch {
    let most = random.between(1, 6);
    let mut sketch = base();
    sketch.goods.push(under(KEY, Term::Marked(0)));
    for i in 0..random.between(20, 40) {
        let mut items: Vec<Term> = (0..1 + i % most).map(|at| plain(i + at)).collect();
        items[0] = Term::Marked((i % PLAIN) as u8);
        sketch
            .bads
            .push(links(items.into_iter(), KEY, plain(i + most)));
    }
    let shows = under(KEY, Term::pair(plain(7), Term::Marked(0)));
    insert(&mut sketch.bads, some_end(random), shows);
    fill(sketch, |i| {
        let items = (0..LEVELS).map(|at| leaf(at / 7 * i));
        let inside = under(KNOWN_KEY, plain(i));
        (Some(links(items, KEY, inside)), plain(i))
    })
}

/// One hat of many fields, pairs to the left or to the right: a variable in all
/// but one, where every bad pattern has its mark.
pub fn fields(random: &mut Random) -> Sketch {
    let (count, left) = (random.between(20, 29), random.chance(50));
    let at_mark = random.below(count);
    let wide = |items: Vec<Term>, last: Term| match left {
        true => under(KEY, to_the_left(items.into_iter(), last)),
        false => under(KEY, to_the_right(items.into_iter(), last)),
    };
    let with = |mark: Term, item: &dyn Fn(usize) -> Term| {
        let mut items: Vec<Term> = (0..count).map(item).collect();
        items[at_mark] = mark;
        wide(items, item(count))
    };
    let mut sketch = base();
    sketch.goods.push(under(KEY, Term::Marked(0)));
    for i in 0..random.between(20, 40) {
        let mark = Term::Marked((i % PLAIN) as u8);
        sketch
            .bads
            .push(with(mark, &|at| plain(at * (1 + i % 7) + i)));
    }
    fill(sketch, |i| (None, with(leaf(i), &|at| plain(at + i))))
}

/// A variable under hats of which the innermost alone protects it: at all
/// others one bad pattern, at either end, has a mark below it.
pub fn below(random: &mut Random) -> Sketch {
    let levels = random.between(8, LEVELS);
    let mut sketch = two_keys();
    sketch.goods.extend([under(KEY, Term::Marked(0)), bottom()]);
    for i in 0..random.between(10, 20) {
        let mut items: Vec<Term> = (0..1 + i % levels).map(|at| plain(i + at)).collect();
        items[i % (1 + i % levels)] = Term::Marked(0);
        sketch
            .bads
            .push(links(items.into_iter(), KEY, plain(i + 1)));
    }
    let mut exposing: Vec<Term> = (0..levels)
        .map(|above| {
            let inside = Term::pair(plain(above), Term::Marked(1));
            links((0..above).map(plain), KEY, under(OTHER_KEY, inside))
        })
        .collect();
    exposing.remove(0);
    match some_end(random) {
        0 => sketch.bads.splice(..0, exposing).for_each(drop),
        _ => sketch.bads.extend(exposing),
    }
    fill(sketch, |i| {
        let items = (0..levels - 1).map(|at| leaf(at / 5 * i));
        (None, links(items, KEY, under(OTHER_KEY, plain(i))))
    })
}
