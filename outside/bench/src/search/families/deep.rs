//! Few blocks and long ways down: these are for the stack.

use crate::search::shapes::*;
use generate::random::Random;
use generate::sketch::Sketch;
use literal::Term;

/// A good pattern and a premise that shares an instance with it or nearly so.
fn one_rule(pattern: Term, premise: Term) -> Sketch {
    let mut sketch = base();
    sketch.goods.push(pattern);
    sketch.rules.push((Some(premise), plain(0)));
    sketch
}

/// x = a chain down to v, v = a chain down to x, x = v: one class after another
/// falls together, over both sides.
pub fn cycles(random: &mut Random) -> Sketch {
    let (one, other) = (random.between(40, 57), random.between(40, 57));
    let three = |a: Term, b: Term, c: Term| under(KEY, Term::pair(a, Term::pair(b, c)));
    let (v, x) = (Term::Plain(0), plain(0));
    let pattern = three(chain(one, KEY, v.clone()), v.clone(), v);
    let premise = three(x.clone(), chain(other, KEY, x.clone()), x);
    one_rule(pattern, premise)
}

/// Two chains side by side down to a variable or to different leaves, of
/// encryptions or of pairs.
pub fn walks(random: &mut Random) -> Sketch {
    let (length, kind) = (random.between(50, 61), random.below(3));
    let make = |inside: Term| match kind {
        0 => chain(length, KEY, inside),
        1 => under(KEY, to_the_left((0..length / 2).map(|_| leaf(0)), inside)),
        _ => under(KEY, to_the_right((0..length / 2).map(|_| leaf(0)), inside)),
    };
    match random.chance(50) {
        true => one_rule(make(Term::Plain(0)), make(plain(0))),
        false => one_rule(make(Term::Marked(0)), make(leaf(1))),
    }
}
