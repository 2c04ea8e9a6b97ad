//! Pairs of terms for sharing and matching, as entry bytes. Atoms 0 to 9 of
//! every kind, encryptions under the keys 2 to 5, signatures with 3 and 9.

use crate::certificate::{replace, replace_at, variables_of};
use crate::random::Random;
use literal::numbers::atom_kind::{NONCE, PRINCIPAL, PRIVATE, PUBLIC, SYMMETRIC};
use literal::numbers::{MOST_ENTRIES, VARIABLES};
use literal::read::Atom;
use literal::term::subterms;
use literal::{encode, Term};

pub const KEYS: [u16; 4] = [2, 3, 4, 5];
const NONCES: [u16; 2] = [6, 7];
/// The private keys.
pub const SIGNING_KEYS: [u16; 2] = [3, 9];

/// Two principals, a public and a private key, two symmetric ones, two nonces,
/// another public and private key. No key is known, so that each may be a root key.
pub fn atoms() -> Vec<Atom> {
    let rows = [
        (PRINCIPAL, 1, 0),
        (PRINCIPAL, 1, 0),
        (PUBLIC, 0, 3),
        (PRIVATE, 0, 2),
        (SYMMETRIC, 0, 4),
        (SYMMETRIC, 0, 5),
        (NONCE, 0, 0),
        (NONCE, 1, 0),
        (PUBLIC, 0, 9),
        (PRIVATE, 0, 8),
    ];
    rows.map(|(kind, known, partner)| Atom {
        kind,
        known,
        partner,
    })
    .to_vec()
}

/// A pattern, which may hold marked variables, and a rule term. Either may hold
/// nonce variables, hashes and signatures.
#[derive(Clone, Debug)]
pub struct TermPair {
    pub pattern: Vec<u8>,
    pub term: Vec<u8>,
}

/// The pair of this seed.
pub fn pair(seed: u64) -> TermPair {
    let (pattern, term) = term_pair(seed);
    TermPair {
        pattern: encode(&pattern),
        term: encode(&term),
    }
}

/// The same pair as terms.
pub fn term_pair(seed: u64) -> (Term, Term) {
    let mut random = Random::new(seed);
    let (pattern, term) = match random.weighted(&[40, 20, 20, 20]) {
        0 => small_pair(&mut random),
        1 => deep_pair(&mut random),
        2 => instance_pair(&mut random),
        _ => chain_pair(&mut random),
    };
    let room = pattern.size().max(term.size()) < MOST_ENTRIES;
    if room && random.chance(40) {
        let key = random.between(2, 5) as u16;
        return (Term::encryption(pattern, key), Term::encryption(term, key));
    }
    (pattern, term)
}

/// A small pair, never a chain.
pub fn small_term_pair(seed: u64) -> (Term, Term) {
    small_pair(&mut Random::new(seed))
}

struct Shape {
    depth: usize,
    variables: u8,
    atoms: Vec<u16>,
    keys: usize,
    marks: bool,
    /// Of a hundred variables so many are for one nonce.
    nonces: usize,
    /// How often there is a hash, and how often a signature, where it may nest.
    hashes: usize,
}

impl Shape {
    /// The same for a rule.
    fn without_marks(&self) -> Shape {
        Shape {
            marks: false,
            atoms: self.atoms.clone(),
            ..*self
        }
    }

    fn variable(&self, random: &mut Random) -> Term {
        let number = random.below(self.variables as usize) as u8;
        match (self.marks && random.chance(40), random.chance(self.nonces)) {
            (false, false) => Term::Plain(number),
            (true, false) => Term::Marked(number),
            (false, true) => Term::PlainNonce(number),
            (true, true) => Term::MarkedNonce(number),
        }
    }
}

/// Few of the atoms, mostly a nonce among them.
fn some_atoms(random: &mut Random, count: usize) -> Vec<u16> {
    let mut all: Vec<u16> = (0..atoms().len() as u16).collect();
    random.shuffle(&mut all);
    all.truncate(count);
    if random.chance(70) {
        all[0] = *random.pick(&NONCES);
    }
    all
}

/// Often none.
fn share_of_nonces(random: &mut Random) -> usize {
    *random.pick(&[0, 0, 20, 40, 70])
}

/// Often none.
fn share_of_hashes(random: &mut Random) -> usize {
    *random.pick(&[0, 0, 6, 12, 20])
}

fn signed(random: &mut Random, message: Term) -> Term {
    Term::signature(message, *random.pick(&SIGNING_KEYS))
}

fn random_term(random: &mut Random, shape: &Shape, depth: usize) -> Term {
    let nests = if depth == 0 { 0 } else { 40 };
    let either = if depth == 0 { 0 } else { shape.hashes };
    match random.weighted(&[nests, nests / 3, 12, 30, either, either]) {
        0 => Term::pair(
            random_term(random, shape, depth - 1),
            random_term(random, shape, depth - 1),
        ),
        1 => {
            let key = 2 + random.below(shape.keys) as u16;
            Term::encryption(random_term(random, shape, depth - 1), key)
        }
        2 => Term::Atom(*random.pick(&shape.atoms)),
        3 => shape.variable(random),
        4 => Term::hash(random_term(random, shape, depth - 1)),
        _ => {
            let message = random_term(random, shape, depth - 1);
            signed(random, message)
        }
    }
}

/// A term that fits into 63 entries.
fn fitting_term(random: &mut Random, shape: &Shape) -> Term {
    loop {
        let term = random_term(random, shape, shape.depth);
        if term.size() <= MOST_ENTRIES {
            return term;
        }
    }
}

fn small_pair(random: &mut Random) -> (Term, Term) {
    let shape = Shape {
        depth: random.between(1, 4),
        variables: random.between(1, 3) as u8,
        atoms: some_atoms(random, 2),
        keys: 1,
        marks: true,
        nonces: share_of_nonces(random),
        hashes: share_of_hashes(random),
    };
    let pattern = fitting_term(random, &shape);
    (pattern, fitting_term(random, &shape.without_marks()))
}

/// The same spine on both sides, with other terms hung on it.
fn deep_pair(random: &mut Random) -> (Term, Term) {
    let marked = Shape {
        depth: 3,
        variables: random.between(2, VARIABLES as usize) as u8,
        atoms: some_atoms(random, 3),
        keys: 2,
        marks: true,
        nonces: share_of_nonces(random) / 2,
        hashes: share_of_hashes(random),
    };
    let shape = marked.without_marks();
    let mut left = random_term(random, &marked, 2);
    let mut right = random_term(random, &shape, 2);
    loop {
        let (l, r) = if random.chance(60) {
            let leaf = (
                random_term(random, &marked, 2),
                random_term(random, &shape, 2),
            );
            (
                Term::pair(leaf.0, left.clone()),
                Term::pair(leaf.1, right.clone()),
            )
        } else {
            around_both(random, &shape, &left, &right)
        };
        if l.size().max(r.size()) > MOST_ENTRIES || random.chance(4) {
            return (left, right);
        }
        (left, right) = (l, r);
    }
}

/// Both under one key, below a hash or a signature; rarely below two of these.
fn around_both(random: &mut Random, shape: &Shape, left: &Term, right: &Term) -> (Term, Term) {
    let key = 2 + random.below(2) as u16;
    let signing_key = *random.pick(&SIGNING_KEYS);
    let around = |choice: usize, term: &Term| match choice {
        0 => Term::encryption(term.clone(), key),
        1 => Term::hash(term.clone()),
        _ => Term::signature(term.clone(), signing_key),
    };
    let weights = [16, shape.hashes, shape.hashes];
    let choice = random.weighted(&weights);
    let other = match random.chance(1) {
        true => random.weighted(&weights),
        false => choice,
    };
    (around(choice, left), around(other, right))
}

/// The term is the pattern with its variables replaced, at times changed.
fn instance_pair(random: &mut Random) -> (Term, Term) {
    let marked = Shape {
        depth: random.between(2, 4),
        variables: random.between(1, 4) as u8,
        atoms: some_atoms(random, 3),
        keys: 2,
        marks: true,
        nonces: share_of_nonces(random),
        hashes: share_of_hashes(random),
    };
    let shape = marked.without_marks();
    loop {
        let pattern = fitting_term(random, &marked);
        let by: Vec<(Term, Term)> = variables_of(&pattern)
            .into_iter()
            .map(|variable| {
                let body = body_of(random, &variable, &shape);
                (variable, body)
            })
            .collect();
        let mut term = replace(&pattern, &by);
        if random.chance(40) {
            let other = random_term(random, &shape, 1);
            term = replace_at(&term, random.below(term.size()), &other);
        }
        if random.chance(25) {
            term = turned(random, &term);
        }
        if term.size() <= MOST_ENTRIES {
            return (pattern, term);
        }
    }
}

/// One of its signatures with the other key or as a hash, or one of its hashes
/// as a signature.
fn turned(random: &mut Random, term: &Term) -> Term {
    let mut possible = subterms(term);
    possible.retain(|s| s.subterm.is_hash() || s.subterm.is_signature());
    if possible.is_empty() {
        return term.clone();
    }
    let found = random.pick(&possible);
    let message = found.subterm.parts().next().expect("a message").clone();
    let [one, two] = SIGNING_KEYS;
    let other = match found.subterm {
        Term::Signature(_, key) if random.chance(60) => Term::signature(message, one + two - key),
        Term::Signature(..) => Term::hash(message),
        _ => signed(random, message),
    };
    replace_at(term, found.entry, &other)
}

/// A term to put for the variable; for one nonce mostly a nonce.
fn body_of(random: &mut Random, variable: &Term, shape: &Shape) -> Term {
    if !variable.is_nonce_variable() || random.chance(12) {
        return random_term(random, shape, 2);
    }
    match random.chance(50) {
        true => Term::Atom(*random.pick(&NONCES)),
        false => Term::PlainNonce(random.below(shape.variables as usize) as u8),
    }
}

// Chains x1 = (x2, x2), x2 = (x3, x3) and so on, or with hashes or signatures in
// place of the pairs, spread over the two sides.

/// A variable of the pattern's side or of the term's side.
#[derive(Clone, Copy, PartialEq)]
enum Link {
    Pattern(u8),
    Rule(u8),
}

/// The two sides of a list of equations.
type Equations = Vec<(Term, Term)>;

/// What a link is, made of the next one.
type Body = fn(Term) -> Term;

fn twice(next: Term) -> Term {
    Term::pair(next.clone(), next)
}

/// Mostly the pair of the next link with itself.
fn some_body(random: &mut Random) -> Body {
    match random.weighted(&[60, 10, 12, 9, 9]) {
        0 => twice,
        1 => Term::hash,
        2 => |next| Term::hash(twice(next)),
        3 => |next| Term::signature(next, SIGNING_KEYS[0]),
        _ => |next| Term::signature(twice(next), SIGNING_KEYS[1]),
    }
}

fn chain_pair(random: &mut Random) -> (Term, Term) {
    let body = some_body(random);
    let mut equations = match random.below(4) {
        0 => closed_chain(random, body),
        1 | 2 => two_chains(random, body),
        _ => open_chain(random, body),
    };
    if random.chance(50) {
        tie_to_nonces(random, &mut equations);
    }
    if random.chance(40) {
        random.shuffle(&mut equations);
    } else if random.chance(50) {
        equations.reverse();
    }
    spine(equations)
}

/// Some of the variables made equal to nonce variables of the other side, and
/// these at times to atoms, before or behind the chain.
fn tie_to_nonces(random: &mut Random, equations: &mut Equations) {
    for _ in 0..random.between(1, 3) {
        let (left, right) = random.pick(equations).clone();
        let number = random.below(3) as u8;
        let plain = Term::PlainNonce(number);
        let either = match random.chance(50) {
            true => Term::MarkedNonce(number),
            false => plain.clone(),
        };
        let tie = match random.below(5) {
            0 => (either, some_atom(random)),
            1 => (either, plain),
            2 => (last_variable(&left), plain),
            _ => (either, last_variable(&right)),
        };
        let at = random.below(equations.len() + 1);
        equations.insert(at, tie);
    }
}

/// The last variable of the term, or the first one of all if it has none.
fn last_variable(term: &Term) -> Term {
    variables_of(term).pop().unwrap_or(Term::Plain(0))
}

fn open_chain(random: &mut Random, body: Body) -> Equations {
    let length = random.between(2, 2 * VARIABLES as usize);
    let mut equations = chain(&links(random, 0, length), body);
    if random.chance(50) {
        equations.push((Term::Plain(0), some_atom(random)));
    }
    equations
}

/// The last link holds the first: no finite message, unless the chain is cut.
fn closed_chain(random: &mut Random, body: Body) -> Equations {
    let length = random.between(2, 2 * VARIABLES as usize - 1);
    let mut all = links(random, 0, length);
    all.push(all[0]);
    let mut equations = chain(&all, body);
    if random.chance(30) {
        equations.remove(random.below(equations.len()));
    }
    equations
}

/// Two chains with equal heads, and at times ends that differ.
fn two_chains(random: &mut Random, body: Body) -> Equations {
    let length = random.between(2, VARIABLES as usize);
    let one = links(random, 0, length);
    let other = links(random, VARIABLES, length);
    let mut equations = chain(&one, body);
    equations.extend(chain(&other, body));
    equations.extend(equal(one[0], other[0]));
    for link in [one[length - 1], other[length - 1]] {
        if random.chance(50) {
            let atom = some_atom(random);
            equations.push(sides(link, atom));
        }
    }
    equations
}

fn some_atom(random: &mut Random) -> Term {
    Term::Atom(*random.pick(&[0, 4, NONCES[0], NONCES[0], NONCES[1]]))
}

/// Links that change sides at every step. `from` picks the variables: 0 up for
/// the first chain; with `VARIABLES`, marked ones and the upper rule variables.
fn links(random: &mut Random, from: u8, length: usize) -> Vec<Link> {
    let offset = if from == 0 { 0 } else { 4 };
    let start = random.below(2);
    (0..length)
        .map(|i| {
            let step = (i / 2) as u8;
            if (i + start) % 2 == 0 {
                Link::Pattern(from + step)
            } else {
                Link::Rule((offset + step) % VARIABLES)
            }
        })
        .collect()
}

fn variable(link: Link) -> Term {
    match link {
        Link::Pattern(number) if number >= VARIABLES => Term::Marked(number - VARIABLES),
        Link::Pattern(number) => Term::Plain(number),
        Link::Rule(number) => Term::Plain(number),
    }
}

/// Each link is this body of the next one.
fn chain(links: &[Link], body: Body) -> Equations {
    links
        .windows(2)
        .filter(|two| different_sides(two[0], two[1]))
        .map(|two| sides(two[0], body(variable(two[1]))))
        .collect()
}

fn different_sides(one: Link, other: Link) -> bool {
    matches!(
        (one, other),
        (Link::Pattern(_), Link::Rule(_)) | (Link::Rule(_), Link::Pattern(_))
    )
}

/// The link's variable on its own side, the body on the other.
fn sides(link: Link, body: Term) -> (Term, Term) {
    match link {
        Link::Pattern(_) => (variable(link), body),
        Link::Rule(_) => (body, variable(link)),
    }
}

/// Two links made equal; by way of a rule variable if on the same side.
fn equal(one: Link, other: Link) -> Equations {
    if different_sides(one, other) {
        return vec![sides(one, variable(other))];
    }
    let between = match one {
        Link::Pattern(_) => Link::Rule(VARIABLES - 1),
        Link::Rule(_) => Link::Pattern(2 * VARIABLES - 1),
    };
    vec![
        sides(one, variable(between)),
        sides(other, variable(between)),
    ]
}

/// All equations that fit, hung on one spine of pairs.
fn spine(equations: Equations) -> (Term, Term) {
    let mut left = Term::Atom(0);
    let mut right = Term::Atom(0);
    for (l, r) in equations {
        let size = left.size().max(right.size()) + l.size().max(r.size()) + 1;
        if size <= MOST_ENTRIES {
            left = Term::pair(l, left);
            right = Term::pair(r, right);
        }
    }
    (left, right)
}
