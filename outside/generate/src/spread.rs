//! A sketch over few atoms, moved onto two atom blocks: its atoms get numbers in
//! both, and others that no term uses stand between them.

use crate::random::Random;
use crate::sketch::Sketch;
use literal::numbers::atom_kind::{NONCE, PRINCIPAL, PRIVATE, PUBLIC, SYMMETRIC};
use literal::numbers::{ENTRIES, MOST_ATOMS};
use literal::read::Atom;
use literal::Term;

/// A certificate with one atom block, over two.
pub fn onto_two_blocks(random: &mut Random, sketch: &Sketch) -> Sketch {
    let count = atom_count(random);
    let numbers = numbers(random, sketch.atoms.len(), count);
    let to = |number: u16| numbers[number as usize];
    let mut atoms = vec![None; count];
    for (atom, number) in sketch.atoms.iter().zip(&numbers) {
        atoms[*number as usize] = Some(renumbered_atom(atom, to));
    }
    renumbered(sketch, filled(random, &atoms), to)
}

pub fn renumbered_atom(atom: &Atom, to: impl Fn(u16) -> u16) -> Atom {
    let partner = if atom.is_key() { to(atom.partner) } else { 0 };
    Atom { partner, ..*atom }
}

/// The sketch over this list, in which its atoms have these other numbers.
pub fn renumbered(sketch: &Sketch, atoms: Vec<Atom>, to: impl Fn(u16) -> u16) -> Sketch {
    let terms = |list: &[Term]| list.iter().map(|term| moved(term, &to)).collect();
    let rule = |(premise, conclusion): &(Option<Term>, Term)| {
        let premise = premise.as_ref().map(|term| moved(term, &to));
        (premise, moved(conclusion, &to))
    };
    Sketch {
        atoms,
        secrets: terms(&sketch.secrets),
        goods: terms(&sketch.goods),
        bads: terms(&sketch.bads),
        rules: sketch.rules.iter().map(rule).collect(),
    }
}

fn moved(term: &Term, to: &impl Fn(u16) -> u16) -> Term {
    match term {
        Term::Atom(number) => Term::Atom(to(*number)),
        Term::Encryption(message, key) => Term::encryption(moved(message, to), to(*key)),
        Term::Signature(message, key) => Term::signature(moved(message, to), to(*key)),
        _ => term.with_parts(|part| moved(part, to)),
    }
}

/// More than one block holds, often as few or as many as there can be.
fn atom_count(random: &mut Random) -> usize {
    match random.weighted(&[10, 20, 30, 40]) {
        0 => ENTRIES + 1,
        1 => random.between(ENTRIES + 1, ENTRIES + 12),
        2 => MOST_ATOMS,
        _ => random.between(ENTRIES + 1, MOST_ATOMS),
    }
}

/// A number for each atom, no two the same.
fn numbers(random: &mut Random, atoms: usize, count: usize) -> Vec<u16> {
    let mut chosen: Vec<u16> = Vec::new();
    while chosen.len() < atoms {
        let number = some_number(random, &chosen, count);
        if number < count && !chosen.contains(&(number as u16)) {
            chosen.push(number as u16);
        }
    }
    random.shuffle(&mut chosen);
    chosen
}

/// At an edge, in either block, or as far from another one as would be mistaken
/// for it; it may be too large.
fn some_number(random: &mut Random, chosen: &[u16], count: usize) -> usize {
    match random.weighted(&[10, 20, 50, 20]) {
        0 => *random.pick(&[0, ENTRIES - 1, ENTRIES, count - 1]),
        1 => random.below(ENTRIES),
        3 if !chosen.is_empty() => {
            let apart = *random.pick(&[ENTRIES, ENTRIES + 1, ENTRIES + 2]);
            (*random.pick(chosen) as usize + apart) % (2 * apart)
        }
        _ => random.between(ENTRIES, count - 1),
    }
}

/// Right atoms of all kinds where there is none yet.
fn filled(random: &mut Random, atoms: &[Option<Atom>]) -> Vec<Atom> {
    let mut free: Vec<usize> = (0..atoms.len()).filter(|i| atoms[*i].is_none()).collect();
    random.shuffle(&mut free);
    let mut all = atoms.to_vec();
    let mut put = |number: usize, kind, known, partner: usize| {
        all[number] = Some(Atom {
            kind,
            known,
            partner: partner as u16,
        })
    };
    while let Some(number) = free.pop() {
        let known = u8::from(random.chance(60));
        let choice = random.weighted(&[30, 40, 20, 10]);
        match (choice, free.last().copied()) {
            (0, _) => put(number, PRINCIPAL, known, 0),
            (1, _) => put(number, NONCE, known, 0),
            (3, Some(other)) => {
                free.pop();
                put(number, PUBLIC, known, other);
                put(other, PRIVATE, u8::from(random.chance(30)), number);
            }
            _ => put(number, SYMMETRIC, known, number),
        }
    }
    all.into_iter().flatten().collect()
}
