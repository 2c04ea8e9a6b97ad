//! Wide terms: pairs to the right, to the left and as trees, with all the
//! variables.

use crate::search::shapes::*;
use generate::random::Random;
use generate::sketch::Sketch;
use literal::Term;

fn wide(random_left: bool, items: Vec<Term>, last: Term) -> Term {
    if random_left {
        to_the_left(items.into_iter(), last)
    } else {
        to_the_right(items.into_iter(), last)
    }
}

/// Thirty variables on either side, each open at the premise's end only.
pub fn variables(random: &mut Random) -> Sketch {
    let (left, shift) = (random.chance(50), random.below(8));
    let sketch = base();
    fill(sketch, |i| {
        let premise = (0..30).map(|at| plain(i + at / 4)).collect();
        let conclusion = (0..30).map(|at| plain(i + shift + at)).collect();
        let (premise, conclusion) = (
            wide(left, premise, plain(i)),
            wide(left, conclusion, plain(i)),
        );
        (Some(premise), conclusion)
    })
}

/// Good patterns as wide as they can be, with all variables of both sorts, and a
/// clash at the last item.
pub fn trees(random: &mut Random) -> Sketch {
    let (left, count) = (random.chance(50), random.between(5, 29));
    let mut sketch = base();
    for i in 0..random.between(20, 40) {
        let mut items: Vec<Term> = (0..count).map(|at| either(i + at)).collect();
        items[count - 1] = items[i % (count - 1)].clone();
        sketch.goods.push(under(KEY, wide(left, items, either(i))));
    }
    fill(sketch, |i| {
        let items = (0..count).map(|at| leaf(i + at)).collect();
        let premise = under(KEY, wide(left, items, plain(i)));
        (Some(premise), plain(i))
    })
}

/// Small encryptions side by side, each of which every pattern fails late on.
pub fn mixed(random: &mut Random) -> Sketch {
    let (left, count) = (random.chance(50), random.between(5, 10));
    let mut sketch = base();
    for i in 0..random.between(20, 40) {
        let twice = Term::pair(either(i), either(i));
        sketch.goods.push(under(KEY, twice));
    }
    fill(sketch, |i| {
        let item = |at| under(KEY, Term::pair(plain(i), under(OTHER_KEY, plain(at))));
        let items = (0..count).map(|_| item(i)).collect();
        (Some(wide(left, items, plain(i))), plain(i))
    })
}
