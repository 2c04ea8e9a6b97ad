//! How many generated files have nonce variables, and what rests on them.

mod common;
mod judged;

use common::{answer_by, Answer};
use generate::certificate::{replace, variables_of};
use judged::judged;
use literal::hats::{first_secret, has_sure_hat, is_risky, stands_at};
use literal::hats::{Closing, Exception, SureHat};
use literal::read::{Atom, Certificate, Listed, Rule};
use literal::term::{is_one_nonce, joined, marks, places, Path, Place};
use literal::Term;

const FILES: u64 = 100_000;

/// Files whose rules are judged and that have a nonce variable, and how many of
/// them show it.
#[derive(Default, Debug)]
struct Uses {
    all: u64,
    in_goods: u64,
    in_bads: u64,
    in_rules: u64,
    accepted: u64,
    uncovered: u64,
    open_secret: u64,
    /// Another answer if nonce variables are ordinary ones; of these, refused so
    /// and accepted with them.
    decide: u64,
    accepted_by_them: u64,
    /// Another answer if anything matches them; if plain variables do.
    matching: u64,
    matching_of_variables: u64,
    /// Another answer if they share with anything; if they share with what they
    /// do not meet at once.
    sharing: u64,
    sharing_by_classes: u64,
    /// Another answer if marked ones are no marks; if those of bads are none.
    marks: u64,
    marks_of_bads: u64,
}

fn has_some(term: &Term) -> bool {
    variables_of(term).iter().any(Term::is_nonce_variable)
}

/// The variables of the term, those that are wanted replaced.
fn with_others(term: &Term, other: fn(&Term) -> Option<Term>) -> Term {
    let found = variables_of(term).into_iter();
    let by: Vec<(Term, Term)> = found
        .filter_map(|v| Some((v.clone(), other(&v)?)))
        .collect();
    replace(term, &by)
}

/// Nonce variables as ordinary ones of numbers of their own.
fn ordinary(term: &Term) -> Term {
    with_others(term, |variable| match variable {
        Term::PlainNonce(number) => Some(Term::Plain(number + 100)),
        Term::MarkedNonce(number) => Some(Term::Marked(number + 100)),
        _ => None,
    })
}

/// Marked nonce variables as plain ones of numbers of their own.
fn without_marks(term: &Term) -> Term {
    with_others(term, |variable| match variable {
        Term::MarkedNonce(number) => Some(Term::PlainNonce(number + 100)),
        _ => None,
    })
}

fn change(list: &mut [Listed], changed: fn(&Term) -> Term) {
    list.iter_mut().for_each(|l| l.term = changed(&l.term));
}

fn all_ordinary(certificate: &Certificate) -> Certificate {
    let mut other = certificate.clone();
    change(&mut other.goods, ordinary);
    change(&mut other.bads, ordinary);
    for rule in &mut other.rules {
        rule.premise = rule.premise.as_ref().map(ordinary);
        rule.conclusion = ordinary(&rule.conclusion);
    }
    other
}

type Meets = fn(&[Atom], &Term, &Term) -> bool;

fn shares_ordinary(atoms: &[Atom], left: &Term, right: &Term) -> bool {
    literal::shares(atoms, &ordinary(left), &ordinary(right))
}

fn matches_ordinary(atoms: &[Atom], pattern: &Term, term: &Term) -> bool {
    literal::matches(atoms, &ordinary(pattern), &ordinary(term))
}

/// Rule variables as nonce variables of numbers of their own.
fn matches_variables(atoms: &[Atom], pattern: &Term, term: &Term) -> bool {
    let nonces = with_others(term, |variable| match variable {
        Term::Plain(number) => Some(Term::PlainNonce(number + 100)),
        _ => None,
    });
    literal::matches(atoms, pattern, &nonces)
}

/// Only what stands beside a nonce variable has to be a nonce.
fn shares_at_once(atoms: &[Atom], left: &Term, right: &Term) -> bool {
    shares_ordinary(atoms, left, right) && fit(atoms, left, right)
}

fn fit(atoms: &[Atom], left: &Term, right: &Term) -> bool {
    let may_be = |term: &Term| is_one_nonce(atoms, term) || term.is_variable();
    if left.is_nonce_variable() || right.is_nonce_variable() {
        return may_be(left) && may_be(right);
    }
    let mut parts = left.parts().zip(right.parts());
    parts.all(|(one, other)| fit(atoms, one, other))
}

/// How terms share and match.
#[derive(Clone, Copy)]
struct Reading {
    shares: Meets,
    matches: Meets,
}

const RIGHT: Reading = Reading {
    shares: literal::shares,
    matches: literal::matches,
};

fn below(path: &Path, pattern: &Term) -> Vec<Path> {
    let marks = marks(pattern);
    marks.iter().map(|mark| joined(path, mark)).collect()
}

impl Reading {
    fn exceptions(&self, certificate: &Certificate, place: &Place, meets: Meets) -> Vec<Exception> {
        let bads = certificate.bads.iter();
        bads.filter(|bad| meets(&certificate.atoms, &bad.term, place.subterm))
            .map(|bad| Exception {
                marks: below(&place.path, &bad.term),
            })
            .collect()
    }

    fn hats(&self, certificate: &Certificate, conclusion: &Term) -> Vec<SureHat> {
        let mut hats = Vec::new();
        for place in places(conclusion) {
            let goods = certificate.goods.iter();
            let met = goods.filter(|g| (self.matches)(&certificate.atoms, &g.term, place.subterm));
            let marks: Vec<_> = met.map(|good| below(&place.path, &good.term)).collect();
            if marks.is_empty() {
                continue;
            }
            let exceptions = self.exceptions(certificate, &place, self.shares);
            hats.extend(marks.into_iter().map(|marks| SureHat {
                path: place.path.clone(),
                marks,
                exceptions: exceptions.clone(),
            }));
        }
        hats
    }

    fn closings(&self, certificate: &Certificate, all: &[Place]) -> Vec<Closing> {
        let shares = |good: &Listed, upper: &Place| {
            (self.shares)(&certificate.atoms, &good.term, upper.subterm)
        };
        let encryptions = all.iter().filter(|upper| upper.subterm.is_encryption());
        encryptions
            .filter(|upper| certificate.goods.iter().any(|good| shares(good, upper)))
            .map(|upper| Closing {
                path: upper.path.clone(),
                exceptions: self.exceptions(certificate, upper, self.matches),
            })
            .collect()
    }

    fn open<'a>(&self, certificate: &Certificate, rule: &'a Rule) -> Vec<Place<'a>> {
        let mut open = rule.premise.as_ref().map_or(Vec::new(), places);
        let closings = self.closings(certificate, &open);
        open.retain(|place| !closings.iter().any(|upper| upper.closes(place)));
        open
    }

    fn first_open_secret(&self, certificate: &Certificate, rule: &Rule) -> Option<usize> {
        first_secret(&self.open(certificate, rule), &certificate.secrets)
    }

    fn first_uncovered(&self, certificate: &Certificate, rule: &Rule) -> Option<usize> {
        let open = self.open(certificate, rule);
        let hats = self.hats(certificate, &rule.conclusion);
        let all = places(&rule.conclusion);
        let mut risky = all.iter().filter(|place| is_risky(certificate, place));
        risky
            .find(|place| !has_sure_hat(&hats, place) && !stands_at(&open, place.subterm))
            .map(|place| rule.premise_entries() + place.entry)
    }

    fn answer(&self, certificate: &Certificate) -> Option<Answer> {
        let open_secret = |rule: &Rule| self.first_open_secret(certificate, rule);
        let uncovered = |rule: &Rule| self.first_uncovered(certificate, rule);
        answer_by(certificate, open_secret, uncovered)
    }
}

impl Uses {
    fn add(&mut self, certificate: &Certificate, right: Option<Answer>) {
        assert_eq!(RIGHT.answer(certificate), right);
        let accepted = right.is_none();
        let is = |number: u8| right.is_some_and(|(found, ..)| found == number);
        let add = |count: &mut u64, yes: bool| *count += u64::from(yes);
        let in_list = |list: &[Listed]| list.iter().any(|listed| has_some(&listed.term));
        self.all += 1;
        add(&mut self.in_goods, in_list(&certificate.goods));
        add(&mut self.in_bads, in_list(&certificate.bads));
        add(&mut self.in_rules, in_rules(certificate));
        add(&mut self.accepted, accepted);
        add(&mut self.uncovered, is(12));
        add(&mut self.open_secret, is(15));
        let otherwise = RIGHT.answer(&all_ordinary(certificate));
        add(&mut self.decide, otherwise != right);
        add(&mut self.accepted_by_them, accepted && otherwise.is_some());
        let other = |shares, matches| Reading { shares, matches }.answer(certificate) != right;
        let Reading { shares, matches } = RIGHT;
        add(&mut self.matching, other(shares, matches_ordinary));
        add(
            &mut self.matching_of_variables,
            other(shares, matches_variables),
        );
        add(&mut self.sharing, other(shares_ordinary, matches));
        add(&mut self.sharing_by_classes, other(shares_at_once, matches));
        let mut bads_without = certificate.clone();
        change(&mut bads_without.bads, without_marks);
        add(
            &mut self.marks_of_bads,
            RIGHT.answer(&bads_without) != right,
        );
        change(&mut bads_without.goods, without_marks);
        add(&mut self.marks, RIGHT.answer(&bads_without) != right);
    }
}

fn in_rules(certificate: &Certificate) -> bool {
    let has =
        |rule: &Rule| has_some(&rule.conclusion) || rule.premise.as_ref().is_some_and(has_some);
    certificate.rules.iter().any(has)
}

fn has_nonce_variables(certificate: &Certificate) -> bool {
    let mut patterns = certificate.goods.iter().chain(&certificate.bads);
    patterns.any(|listed| has_some(&listed.term)) || in_rules(certificate)
}

#[test]
fn files_rest_on_nonce_variables() {
    let mut uses = Uses::default();
    let mut with_rules_judged = 0;
    for seed in 0..FILES {
        let Some((certificate, right)) = judged(seed) else {
            continue;
        };
        with_rules_judged += 1;
        if has_nonce_variables(&certificate) {
            uses.add(&certificate, right);
        }
    }
    println!("of {FILES} files, the rules of {with_rules_judged} judged: {uses:?}");
    let share = |count: u64, of: u64, percent: u64| count * 100 > of * percent;
    assert!(share(uses.all, FILES, 22), "all");
    assert!(share(uses.in_goods, uses.all, 70), "goods");
    assert!(share(uses.in_bads, uses.all, 25), "bads");
    assert!(share(uses.in_rules, uses.all, 70), "rules");
    assert!(share(uses.accepted, uses.all, 20), "accepted");
    assert!(share(uses.uncovered, uses.all, 30), "uncovered");
    assert!(share(uses.open_secret, uses.all, 4), "open secret");
    assert!(share(uses.decide, uses.all, 8), "decide");
    assert!(
        share(uses.accepted_by_them, uses.accepted, 5),
        "accepted by them"
    );
    assert!(share(uses.matching, uses.all, 4), "matching");
    assert!(share(uses.matching_of_variables, uses.all, 1), "variables");
    assert!(share(uses.sharing, uses.all, 4), "sharing");
    assert!(share(uses.sharing_by_classes * 5, uses.all, 1), "classes");
    assert!(share(uses.marks, uses.all, 3), "marks");
    assert!(share(uses.marks_of_bads * 5, uses.all, 1), "marks of bads");
}
