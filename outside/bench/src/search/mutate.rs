//! Changes of a sketch: of one term, of all terms of a list alike, of the lists.

use super::shapes::*;
use generate::certificate::{replace, replace_at, variables_of};
use generate::random::Random;
use generate::sketch::Sketch;
use literal::numbers::{MOST_BLOCKS, MOST_ENTRIES};
use literal::read::Atom;
use literal::term::subterms;
use literal::Term;

/// One to three changes. The layout stays right; what is refused for another
/// reason is left to the caller.
pub fn mutated(random: &mut Random, sketch: &Sketch) -> Sketch {
    let mut changed = sketch.clone();
    for _ in 0..random.between(1, 3) {
        match random.weighted(&[30, 35, 20, 15]) {
            0 => change_one(random, &mut changed),
            1 => change_all(random, &mut changed),
            2 => change_counts(random, &mut changed),
            _ => change_order(random, &mut changed),
        }
    }
    changed
}

/// Which terms of a sketch.
#[derive(Clone, Copy)]
enum List {
    Secrets,
    Goods,
    Bads,
    Premises,
    Conclusions,
}

const LISTS: [List; 5] = [
    List::Secrets,
    List::Goods,
    List::Bads,
    List::Premises,
    List::Conclusions,
];

fn terms(sketch: &mut Sketch, list: List) -> Vec<&mut Term> {
    match list {
        List::Secrets => sketch.secrets.iter_mut().collect(),
        List::Goods => sketch.goods.iter_mut().collect(),
        List::Bads => sketch.bads.iter_mut().collect(),
        List::Premises => sketch
            .rules
            .iter_mut()
            .filter_map(|r| r.0.as_mut())
            .collect(),
        List::Conclusions => sketch.rules.iter_mut().map(|rule| &mut rule.1).collect(),
    }
}

/// The term as it may stand in this list, if it may.
fn fitting(list: List, term: Term) -> Option<Term> {
    let by: Vec<(Term, Term)> = variables_of(&term)
        .into_iter()
        .filter_map(|variable| match (list, &variable) {
            (List::Goods | List::Bads, _) => None,
            (List::Secrets, _) => Some((variable, Term::Atom(0))),
            (_, Term::Marked(number)) => Some((variable.clone(), Term::Plain(*number))),
            (_, Term::MarkedNonce(number)) => Some((variable.clone(), Term::PlainNonce(*number))),
            _ => None,
        })
        .collect();
    let term = replace(&term, &by);
    let pattern = matches!(list, List::Goods | List::Bads);
    (term.size() <= MOST_ENTRIES && (!pattern || term.is_encryption())).then_some(term)
}

fn subterm(term: &Term, entry: usize) -> Term {
    subterms(term)[entry].subterm.clone()
}

/// What a file has to put in.
struct Palette {
    keys: Vec<u16>,
    signers: Vec<u16>,
    atoms: usize,
    /// Any term of the file.
    donor: Term,
}

impl Palette {
    fn of(random: &mut Random, sketch: &mut Sketch) -> Palette {
        let list = *random.pick(&LISTS);
        let donor = match terms(sketch, list).as_slice() {
            [] => sketch.secrets[0].clone(),
            some => (**random.pick(some)).clone(),
        };
        let those = |wanted: fn(&Atom) -> bool| {
            let all = (0..).zip(&sketch.atoms);
            all.filter(|(_, atom)| wanted(atom))
                .map(|(i, _)| i)
                .collect()
        };
        Palette {
            keys: those(Atom::is_key),
            signers: those(Atom::is_private_key),
            atoms: sketch.atoms.len(),
            donor,
        }
    }

    /// One of these, if there are any; the first ones come often.
    fn key(random: &mut Random, keys: &[u16]) -> Option<u16> {
        let low = random.below(keys.len().max(1));
        keys.get(random.below(low + 1)).copied()
    }

    /// The first atoms come often too.
    fn atom(&self, random: &mut Random) -> Term {
        let low = random.below(self.atoms);
        Term::Atom(random.below(low + 1) as u16)
    }
}

/// A term to put in: a leaf, something of the file, or what stands there with
/// something around it.
fn other(random: &mut Random, here: &Term, palette: &Palette) -> Term {
    let Palette {
        donor,
        keys,
        signers,
        ..
    } = palette;
    match random.below(12) {
        0 => plain(random.below(PLAIN)),
        1 => either(random.below(EITHER)),
        2 | 3 => palette.atom(random),
        4 => match Palette::key(random, keys) {
            Some(key) => under(key, here.clone()),
            None => Term::pair(here.clone(), here.clone()),
        },
        5 => Term::pair(here.clone(), plain(random.below(PLAIN))),
        6 => Term::pair(palette.atom(random), here.clone()),
        7 => either_nonce(random.below(EITHER)),
        8 => match here {
            Term::Pair(left, right) => Term::pair((**right).clone(), (**left).clone()),
            _ => match here.parts().next() {
                Some(message) => message.clone(),
                None => Term::pair(here.clone(), here.clone()),
            },
        },
        9 => Term::hash(here.clone()),
        10 => match Palette::key(random, signers) {
            Some(key) => Term::signature(here.clone(), key),
            None => Term::hash(here.clone()),
        },
        _ => subterm(donor, random.below(donor.size())),
    }
}

fn changed(random: &mut Random, list: List, term: &Term, palette: &Palette) -> Option<Term> {
    let entry = random.below(term.size());
    let put = other(random, &subterm(term, entry), palette);
    fitting(list, replace_at(term, entry, &put))
}

fn change_one(random: &mut Random, sketch: &mut Sketch) {
    let palette = Palette::of(random, sketch);
    let list = *random.pick(&LISTS);
    let mut terms = terms(sketch, list);
    if terms.is_empty() {
        return;
    }
    let at = random.below(terms.len());
    if let Some(term) = changed(random, list, terms[at], &palette) {
        *terms[at] = term;
    }
}

/// The same change at the same entry of all terms of one list or, with a
/// chance, of every second one.
fn change_all(random: &mut Random, sketch: &mut Sketch) {
    let palette = Palette::of(random, sketch);
    let list = *random.pick(&LISTS[1..]);
    let (seed, step, rename) = (random.number(), random.between(1, 2), random.chance(30));
    for (i, term) in terms(sketch, list).into_iter().enumerate().step_by(step) {
        let with = if rename {
            Some(moved(term, i))
        } else {
            changed(&mut Random::new(seed), list, term, &palette)
        };
        if let Some(with) = with {
            *term = with;
        }
    }
}

/// One term less in one list, one more, perhaps changed, in another.
fn change_counts(random: &mut Random, sketch: &mut Sketch) {
    let many = random.between(1, 5);
    for _ in 0..many {
        drop_one(random, sketch);
    }
    let list = random.below(4);
    while sketch.block_count() < MOST_BLOCKS {
        add_one(random, sketch, list);
    }
}

fn drop_one(random: &mut Random, sketch: &mut Sketch) {
    match random.below(4) {
        // The first two secrets are what the patterns rest on.
        0 if sketch.secrets.len() > 2 => {
            sketch.secrets.pop();
        }
        1 if !sketch.goods.is_empty() => {
            sketch.goods.remove(random.below(sketch.goods.len()));
        }
        2 if !sketch.bads.is_empty() => {
            sketch.bads.remove(random.below(sketch.bads.len()));
        }
        _ if sketch.rules.len() > 1 => {
            sketch.rules.remove(random.below(sketch.rules.len()));
        }
        _ => {}
    }
}

fn add_one(random: &mut Random, sketch: &mut Sketch, list: usize) {
    let (goods, bads) = (sketch.goods.clone(), sketch.bads.clone());
    match list {
        0 => {
            let secret = random.pick(&sketch.secrets).clone();
            sketch.secrets.push(secret);
        }
        1 if !goods.is_empty() => sketch.goods.push(random.pick(&goods).clone()),
        2 if !bads.is_empty() => sketch.bads.push(random.pick(&bads).clone()),
        2 if !goods.is_empty() => {
            let bad = fitting(List::Bads, random.pick(&goods).clone());
            sketch.bads.extend(bad);
        }
        _ => {
            let rule = random.pick(&sketch.rules).clone();
            sketch.rules.push(rule);
        }
    }
}

/// The order of blocks, or the halves of all pairs of some kind of term.
fn change_order(random: &mut Random, sketch: &mut Sketch) {
    match random.below(7) {
        0 => sketch.goods.reverse(),
        1 => sketch.bads.reverse(),
        2 => random.shuffle(&mut sketch.goods),
        3 => random.shuffle(&mut sketch.bads),
        4 => random.shuffle(&mut sketch.rules),
        5 => sketch.rules.reverse(),
        _ => {
            for list in LISTS {
                for term in terms(sketch, list) {
                    *term = exchanged(term);
                }
            }
        }
    }
}

fn exchanged(term: &Term) -> Term {
    match term {
        Term::Pair(left, right) => Term::pair(exchanged(right), exchanged(left)),
        _ => term.with_parts(exchanged),
    }
}
