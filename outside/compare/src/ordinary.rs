//! Ordinary pairs of 63 entries: few variables, each once.

use crate::chains::{left_list, list};
use literal::Term;

pub struct Ordinary {
    pub name: &'static str,
    pub first: Term,
    pub second: Term,
    pub shares: bool,
}

/// The first is the one that the others and the chains are held to.
pub fn pairs() -> Vec<Ordinary> {
    let one = atoms(&[(3, Term::Plain(0)), (20, Term::Marked(0))]);
    let other = atoms(&[(9, Term::Plain(0)), (28, Term::Plain(1))]);
    let early = atoms(&[(0, Term::Atom(1)), (20, Term::Plain(0))]);
    let late = atoms(&[(3, Term::Plain(0)), (31, Term::Atom(1))]);
    let pair = |name, spine: fn(Vec<Term>) -> Term, first: &Vec<Term>, shares| Ordinary {
        name,
        first: spine(first.clone()),
        second: spine(other.clone()),
        shares,
    };
    vec![
        pair("ordinary, a list", list, &one, true),
        pair("ordinary, a tree", tree, &one, true),
        pair("ordinary, to the left", left_list, &one, true),
        pair("clash early", list, &early, false),
        pair("clash late", list, &late, false),
    ]
}

/// 32 items: atom 0, but for these.
fn atoms(others: &[(usize, Term)]) -> Vec<Term> {
    let mut items = vec![Term::Atom(0); 32];
    for (i, term) in others {
        items[*i] = term.clone();
    }
    items
}

/// ((a, b), (c, d))
fn tree(mut items: Vec<Term>) -> Term {
    if items.len() == 1 {
        return items.remove(0);
    }
    let right = items.split_off(items.len() / 2);
    Term::pair(tree(items), tree(right))
}
