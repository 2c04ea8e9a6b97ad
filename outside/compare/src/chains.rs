//! The chain family at its largest: x1 = (x2, x2), x2 = (x3, x3) and so on, or
//! with encryptions, hashes or signatures in place of the pairs,
//! spread over two terms of 63 entries, and its variants.

use literal::numbers::{MOST_ENTRIES, VARIABLES};
use literal::Term;

const KEY: u16 = 2;

pub struct Chain {
    pub name: String,
    pub first: Term,
    pub second: Term,
    pub shares: bool,
}

/// The two sides of each equation.
type Equations = Vec<(Term, Term)>;

pub fn family() -> Vec<Chain> {
    let mut chains = Vec::new();
    for ends in [Ends::Open, Ends::Closed, Ends::Knotted] {
        for (name, equations) in kinds(ends) {
            chains.extend(hangings(name, &equations, ends));
        }
    }
    chains
}

#[derive(Clone, Copy, PartialEq)]
enum Ends {
    /// The last link is free: the terms share an instance.
    Open,
    /// The last link holds the first: they do not.
    Closed,
    /// The last link is free, but the head also holds itself: they do not.
    Knotted,
}

impl Ends {
    fn words(self) -> &'static str {
        match self {
            Ends::Open => "",
            Ends::Closed => ", closed",
            Ends::Knotted => ", knotted",
        }
    }
}

fn kinds(ends: Ends) -> Vec<(&'static str, Equations)> {
    vec![
        ("twice the next", across(20, twice, ends)),
        ("the next under a key", across(24, under_key, ends)),
        ("the hash of the next", across(24, Term::hash, ends)),
        ("the next signed", across(24, signed, ends)),
        ("bodies on one side", one_side(12, ends)),
        ("two chains, equal heads", two_chains(ends)),
    ]
}

fn twice(next: Term) -> Term {
    Term::pair(next.clone(), next)
}

fn under_key(next: Term) -> Term {
    Term::encryption(next, KEY)
}

fn signed(next: Term) -> Term {
    Term::signature(next, KEY)
}

/// The plain ones, then the marked ones.
fn variable(number: usize) -> Term {
    let number = number as u8;
    if number < VARIABLES {
        Term::Plain(number)
    } else {
        Term::Marked(number - VARIABLES)
    }
}

/// Links that change sides at every step, each the body of the next.
fn across(count: usize, body: fn(Term) -> Term, ends: Ends) -> Equations {
    let link = |i: usize| variable(i / 2);
    (0..count)
        .map(|i| match ends {
            Ends::Knotted if i == 1 => sides(i, link(i), Term::pair(link(2), link(0))),
            Ends::Closed if i + 1 == count => sides(i, link(i), body(link((i + 1) % 2))),
            _ => sides(i, link(i), body(link(i + 1))),
        })
        .collect()
}

/// Even links stand on the first side.
fn sides(i: usize, link: Term, body: Term) -> (Term, Term) {
    if i % 2 == 0 {
        (link, body)
    } else {
        (body, link)
    }
}

/// All bodies on the second side: v = {w'} and v = w for each link.
fn one_side(count: usize, ends: Ends) -> Equations {
    let bodies = (0..count).map(|i| (variable(i), body_of(i, count, ends)));
    let links = (0..count).map(|i| (variable(i), variable(i)));
    bodies.chain(links).collect()
}

fn body_of(i: usize, count: usize, ends: Ends) -> Term {
    match ends {
        Ends::Knotted if i == 0 => Term::pair(variable(1), variable(0)),
        Ends::Closed if i + 1 == count => under_key(variable(0)),
        _ if i + 1 == count => under_key(Term::Atom(0)),
        _ => under_key(variable(i + 1)),
    }
}

/// Two chains whose heads are made equal at the end.
fn two_chains(ends: Ends) -> Equations {
    let mut equations = across(8, twice, ends);
    let other = across(8, twice, Ends::Open);
    equations.extend(other.into_iter().map(|(l, r)| (moved(&l), moved(&r))));
    equations.push((variable(0), Term::Marked(VARIABLES - 1)));
    equations.push((Term::Marked(0), Term::Marked(VARIABLES - 1)));
    equations
}

/// Marked in place of plain.
fn moved(term: &Term) -> Term {
    match term {
        Term::Plain(number) => Term::Marked(*number),
        _ => term.with_parts(moved),
    }
}

fn hangings(name: &str, equations: &Equations, ends: Ends) -> Vec<Chain> {
    let mut backward = equations.clone();
    backward.reverse();
    let hung = [
        ("", hung(equations, list)),
        (", backward", hung(&backward, list)),
        (", backward, to the left", hung(&backward, left_list)),
    ];
    hung.into_iter()
        .map(|(how, (first, second))| Chain {
            name: format!("{name}{how}{}", ends.words()),
            first,
            second,
            shares: ends == Ends::Open,
        })
        .collect()
}

fn hung(equations: &Equations, spine: fn(Vec<Term>) -> Term) -> (Term, Term) {
    let (mut left, mut right): (Vec<Term>, Vec<Term>) = equations.iter().cloned().unzip();
    let (l, r) = filler(room(&left), room(&right));
    left.push(l);
    right.push(r);
    (spine(left), spine(right))
}

/// How many entries one more item may take.
fn room(items: &[Term]) -> usize {
    let taken: usize = items.iter().map(Term::size).sum();
    MOST_ENTRIES - taken - items.len()
}

/// Two terms of these sizes that share an instance.
fn filler(left: usize, right: usize) -> (Term, Term) {
    let least = left.min(right);
    let side = |size: usize| {
        let core = if size == least && left != right {
            Term::Marked(VARIABLES - 1)
        } else {
            Term::Atom(0)
        };
        (1..size).fold(core, |inner, _| under_key(inner))
    };
    (side(left), side(right))
}

/// (a, (b, (c, d)))
pub fn list(items: Vec<Term>) -> Term {
    items
        .into_iter()
        .rev()
        .reduce(|rest, item| Term::pair(item, rest))
        .expect("a list has items")
}

/// (((a, b), c), d)
pub fn left_list(items: Vec<Term>) -> Term {
    items
        .into_iter()
        .reduce(Term::pair)
        .expect("a list has items")
}
