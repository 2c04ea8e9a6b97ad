//! Listed secrets in premises: closed by the innermost encryption alone, behind a
//! rule that 12 refuses, or open at the last entry of the last rule.

use super::hats::{bottom, two_keys};
use super::links::{digits, insert};
use super::marked::some_end;
use crate::search::shapes::*;
use generate::random::Random;
use generate::sketch::Sketch;
use literal::Term;

const LEVELS: usize = 19;

/// So many levels with the same leaf, and this inside.
fn levels(count: usize, inside: Term) -> Term {
    links((0..count).map(|_| leaf(0)), KEY, inside)
}

/// Nested secrets and good patterns, all of which agree with the levels of a
/// premise and clash at their end; one good pattern more, at either end, for what
/// is inside.
fn with_lists(random: &mut Random) -> Sketch {
    let (most, step) = (random.between(1, LEVELS), random.between(1, 4));
    let mut sketch = two_keys();
    for i in 0..random.between(5, 25) {
        let inside = under(OTHER_KEY, leaf(1 + i));
        let secret = levels(LEVELS - i * step % most, inside);
        sketch.secrets.push(secret);
    }
    for i in 0..random.between(5, 20) {
        let items = digits(i, 1 + i * step % most).into_iter();
        sketch.goods.push(links(items, KEY, leaf(30 + i)));
    }
    insert(&mut sketch.goods, some_end(random), bottom());
    sketch
}

/// A secret that the innermost encryption closes. No two rules have the same
/// premise, so that nothing found for one serves for the next.
fn closed_premise(i: usize) -> Term {
    levels(LEVELS, under(OTHER_KEY, Term::pair(nonce(), leaf(i))))
}

/// Nothing in the conclusions is risky: only secrets of the premises are asked.
pub fn closed(random: &mut Random) -> Sketch {
    fill(with_lists(random), |i| (Some(closed_premise(i)), leaf(i)))
}

/// The first rule is refused with 12. No conclusion behind it has to be judged,
/// and in each every level may be a secret.
pub fn behind(random: &mut Random) -> Sketch {
    let mut sketch = with_lists(random);
    sketch.rules.push((None, nonce()));
    fill(sketch, |i| {
        let sent = levels(LEVELS, under(OTHER_KEY, plain(i)));
        (Some(closed_premise(i)), sent)
    })
}

/// Every rule passes, by one hat around all its levels, but for the last, which
/// shows a secret at its last entry.
pub fn last(random: &mut Random) -> Sketch {
    let mut sketch = fill(with_lists(random), |i| {
        let sent = levels(LEVELS - 1, under(OTHER_KEY, plain(i)));
        (Some(closed_premise(i)), under(OTHER_KEY, sent))
    });
    let shown = Term::pair(leaf(0), Term::pair(leaf(0), nonce()));
    if let Some((premise, _)) = sketch.rules.last_mut() {
        *premise = Some(levels(LEVELS, under(KNOWN_KEY, shown)));
    }
    sketch
}
