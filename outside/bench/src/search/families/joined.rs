//! Two atom blocks: secrets of the second that are like atoms of the first in all
//! but their number, and other families over atoms of the second alone.

use super::{hats, links};
use crate::search::shapes::*;
use generate::random::Random;
use generate::sketch::Sketch;
use generate::spread::{renumbered, renumbered_atom};
use literal::numbers::{atom_kind, ENTRIES, MOST_ATOMS, MOST_BLOCKS};
use literal::Term;

/// How far a secret is from what looks like it: a table with a slot for each
/// atom of one block, rounded up, has both in one.
const SLOTS: u16 = 128;
/// So many atoms of the first block have one of the second that far behind.
const PAIRED: u16 = MOST_ATOMS as u16 - SLOTS;

/// The number of one of them, and of the one behind it.
fn first(i: usize) -> u16 {
    (i % PAIRED as usize) as u16
}

fn behind(i: usize) -> u16 {
    first(i) + SLOTS
}

/// As many keys as there can be: the first block's are public and known, the
/// second's private, and each has its partner in the other block.
fn all_keys() -> Sketch {
    let key = |number| match (number as usize) < ENTRIES {
        true => atom(atom_kind::PUBLIC, 1, partner(number)),
        false => atom(atom_kind::PRIVATE, 0, partner(number)),
    };
    Sketch {
        atoms: (0..MOST_ATOMS as u16).map(key).collect(),
        ..Sketch::default()
    }
}

/// The one that falls together with it; four in the middle have none.
fn partner(number: u16) -> u16 {
    match number {
        0..PAIRED => number + SLOTS,
        SLOTS.. => number - SLOTS,
        _ => number ^ 2,
    }
}

/// Thirty-one of so many keys by turns, from number i on, and the last item.
fn wide(i: usize, keys: usize, key: fn(usize) -> u16, last: Term) -> Term {
    let items = (0..31).map(|at| Term::Atom(key((i + at) % keys)));
    to_the_right(items, last)
}

/// Secrets that are atoms and pairs of these, and rules in which every atom and
/// every pair falls together with one of them.
pub fn atoms(random: &mut Random) -> Sketch {
    let (keys, pairs) = (random.between(4, 30), random.between(0, 28));
    let mut sketch = all_keys();
    let key = |i| Term::Atom(behind(i));
    sketch.secrets = (0..keys).map(key).collect();
    for i in 0..pairs {
        let secret = wide(i, keys, behind, key(i % keys));
        sketch.secrets.push(secret);
    }
    let apart = random.below(8);
    fill(sketch, |i| {
        let premise = wide(i, keys, first, plain(i));
        let conclusion = wide(i + apart, keys, first, plain(i));
        (Some(premise), conclusion)
    })
}

/// Nested secrets under keys of the second block, and chains under those of the
/// first that fall together with them.
pub fn keys(random: &mut Random) -> Sketch {
    let (secrets, length) = (random.between(2, 24), random.between(1, 62));
    let variables = random.chance(50);
    let mut sketch = all_keys();
    for i in 0..secrets {
        let (key, inside) = (Term::Atom(behind(i)), Term::Atom(behind(0)));
        let chain = nested(length, i, secrets, behind, inside);
        sketch.secrets.extend([key, chain]);
    }
    fill(sketch, |i| {
        let inside = match variables {
            true => plain(i),
            false => Term::Atom(first(i)),
        };
        let term = nested(61, i, secrets, first, inside);
        (Some(term.clone()), term)
    })
}

/// So many encryptions, their keys by turns from number i on.
fn nested(length: usize, i: usize, keys: usize, key: fn(usize) -> u16, inside: Term) -> Term {
    (0..length).fold(inside, |term, at| under(key((i + at) % keys), term))
}

/// A sketch of another family with its atoms in the second block.
fn in_the_second(sketch: &Sketch) -> Sketch {
    let on = |number: u16| number + ENTRIES as u16;
    let mut atoms = vec![atom(atom_kind::NONCE, 1, 0); ENTRIES];
    atoms.extend(sketch.atoms.iter().map(|atom| renumbered_atom(atom, on)));
    let mut moved = renumbered(sketch, atoms, on);
    while moved.block_count() > MOST_BLOCKS {
        moved.rules.pop();
    }
    moved
}

pub fn cyclic(random: &mut Random) -> Sketch {
    in_the_second(&links::cyclic(random))
}

pub fn hats(random: &mut Random) -> Sketch {
    in_the_second(&hats::shared(random))
}
