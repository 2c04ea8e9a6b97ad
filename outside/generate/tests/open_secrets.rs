//! How many generated files have a secret in a premise, and what rests on where
//! it stands and on what is asked first.

mod common;
mod judged;

use common::{answer_by, Answer};
use judged::judged;
use literal::hats::{first_open_secret, first_secret, first_uncovered, is_listed};
use literal::hats::{open_places, shares_with_some, stands_at};
use literal::read::{Certificate, Rule};
use literal::term::{places, Place};
use literal::Term;

const FILES: u64 = 100_000;

/// Files whose rules are judged and that have a listed secret somewhere in a
/// premise, and how many of them show it.
#[derive(Default, Debug)]
struct Uses {
    all: u64,
    accepted: u64,
    uncovered: u64,
    refused: u64,
    /// Refused at an entry that is the premise's root; below an encryption; a
    /// nested secret.
    at_the_root: u64,
    below_an_encryption: u64,
    nested: u64,
    /// Refused at the last of several rules; with several secrets open.
    at_the_last_rule: u64,
    several: u64,
    /// Refused in a rule whose places are all covered.
    covered: u64,
    /// Refused behind a rule that 12 would refuse.
    behind_a_twelve: u64,
}

fn secrets_of<'a, 't>(
    certificate: &'a Certificate,
    list: &'a [Place<'t>],
) -> impl DoubleEndedIterator<Item = &'a Place<'t>> {
    list.iter()
        .filter(move |place| is_listed(place.subterm, &certificate.secrets))
}

fn premise_places(rule: &Rule) -> Vec<Place<'_>> {
    rule.premise.as_ref().map_or(Vec::new(), places)
}

fn has_secret_in_premise(certificate: &Certificate) -> bool {
    let has = |rule: &Rule| first_secret(&premise_places(rule), &certificate.secrets).is_some();
    certificate.rules.iter().any(has)
}

impl Uses {
    fn add(&mut self, certificate: &Certificate, right: Option<Answer>) {
        self.all += 1;
        match right {
            None => self.accepted += 1,
            Some((15, block, entry)) => self.add_refused(certificate, block, entry),
            Some(_) => self.uncovered += 1,
        }
    }

    fn add_refused(&mut self, certificate: &Certificate, block: usize, entry: usize) {
        let mut rules = certificate.rules.iter();
        let at = rules.position(|rule| rule.block == block).expect("a rule");
        let rule = &certificate.rules[at];
        let open = open_places(certificate, rule);
        let all = premise_places(rule);
        let mut at_entry = all.iter().filter(|place| place.entry == entry);
        let place = at_entry.next().expect("a place");
        let is_above = |upper: &Place| literal::term::strictly_above(&upper.path, &place.path);
        let mut upper = all.iter().filter(|upper| is_above(upper));
        let add = |count: &mut u64, yes: bool| *count += u64::from(yes);
        self.refused += 1;
        add(&mut self.at_the_root, entry == 0);
        let is_below = upper.any(|upper| upper.subterm.is_encryption());
        add(&mut self.below_an_encryption, is_below);
        add(&mut self.nested, place.subterm.size() > 1);
        let is_last = at > 0 && at + 1 == certificate.rules.len();
        add(&mut self.at_the_last_rule, is_last);
        add(
            &mut self.several,
            secrets_of(certificate, &open).count() > 1,
        );
        let passes = |rule: &Rule| first_uncovered(certificate, rule).is_none();
        add(&mut self.covered, passes(rule));
        let mut before = certificate.rules[..at].iter();
        add(&mut self.behind_a_twelve, !before.all(passes));
    }
}

/// A wrong reading: its name, what it answers, and of how many files that are
/// refused with 15, in percent, it answers something else at least.
type Reading = (&'static str, fn(&Certificate) -> Option<Answer>, u64);

const READINGS: [Reading; 14] = [
    ("15 never said", never, 90),
    ("such a rule passes", passing, 90),
    ("sharing for being", by_sharing, 90),
    ("sharing of what is nested", by_nested_sharing, 5),
    ("atoms only", atoms_only, 5),
    ("the whole premise only", whole_only, 30),
    ("any place of the premise", any_place, 40),
    ("the conclusion", in_conclusion, 40),
    ("only if not covered", if_uncovered, 20),
    ("the last entry", last_entry, 15),
    ("the order of the secrets", by_order_of_secrets, 3),
    ("12 over all rules first", twelve_first, 30),
    ("15 and 12 rule by rule", rule_by_rule, 10),
    ("the first rule only", first_rule_only, 20),
];

type First<'a> = &'a dyn Fn(&Rule) -> Option<usize>;

/// With this in place of number 15.
fn with(certificate: &Certificate, first: First) -> Option<Answer> {
    answer_by(certificate, first, |rule| {
        first_uncovered(certificate, rule)
    })
}

fn never(certificate: &Certificate) -> Option<Answer> {
    with(certificate, &|_| None)
}

fn passing(certificate: &Certificate) -> Option<Answer> {
    let is_refused = |rule: &Rule| first_open_secret(certificate, rule).is_some();
    let uncovered = |rule: &Rule| first_uncovered(certificate, rule);
    answer_by(
        certificate,
        |_| None,
        |rule| uncovered(rule).filter(|_| !is_refused(rule)),
    )
}

/// The first open place that is wanted.
fn first_open(certificate: &Certificate, wanted: &dyn Fn(&Term) -> bool) -> Option<Answer> {
    with(certificate, &|rule| {
        let open = open_places(certificate, rule);
        let found = open.iter().find(|place| wanted(place.subterm));
        found.map(|place| place.entry)
    })
}

fn by_sharing(certificate: &Certificate) -> Option<Answer> {
    let Certificate { atoms, secrets, .. } = certificate;
    first_open(certificate, &|term| shares_with_some(atoms, term, secrets))
}

fn by_nested_sharing(certificate: &Certificate) -> Option<Answer> {
    let Certificate { atoms, secrets, .. } = certificate;
    first_open(certificate, &|term| {
        is_listed(term, secrets) || term.size() > 1 && shares_with_some(atoms, term, secrets)
    })
}

fn atoms_only(certificate: &Certificate) -> Option<Answer> {
    first_open(certificate, &|term| {
        term.size() == 1 && is_listed(term, &certificate.secrets)
    })
}

fn whole_only(certificate: &Certificate) -> Option<Answer> {
    with(certificate, &|rule| {
        first_open_secret(certificate, rule).filter(|entry| *entry == 0)
    })
}

fn any_place(certificate: &Certificate) -> Option<Answer> {
    with(certificate, &|rule| {
        first_secret(&premise_places(rule), &certificate.secrets)
    })
}

fn in_conclusion(certificate: &Certificate) -> Option<Answer> {
    with(certificate, &|rule| {
        let turned = Rule {
            premise: Some(rule.conclusion.clone()),
            ..rule.clone()
        };
        Some(rule.premise_entries() + first_open_secret(certificate, &turned)?)
    })
}

fn if_uncovered(certificate: &Certificate) -> Option<Answer> {
    with(certificate, &|rule| {
        first_uncovered(certificate, rule)?;
        first_open_secret(certificate, rule)
    })
}

fn last_entry(certificate: &Certificate) -> Option<Answer> {
    with(certificate, &|rule| {
        let open = open_places(certificate, rule);
        let last = secrets_of(certificate, &open).next_back()?;
        Some(last.entry)
    })
}

fn by_order_of_secrets(certificate: &Certificate) -> Option<Answer> {
    with(certificate, &|rule| {
        let open = open_places(certificate, rule);
        let mut secrets = certificate.secrets.iter();
        let first = secrets.find(|secret| stands_at(&open, &secret.term))?;
        let found = open.iter().find(|place| *place.subterm == first.term);
        found.map(|place| place.entry)
    })
}

fn twelve_first(certificate: &Certificate) -> Option<Answer> {
    let twelve = never(certificate);
    twelve.or_else(|| common::answer(certificate))
}

fn rule_by_rule(certificate: &Certificate) -> Option<Answer> {
    certificate.rules.iter().find_map(|rule| {
        let alone = Certificate {
            rules: vec![rule.clone()],
            ..certificate.clone()
        };
        common::answer(&alone)
    })
}

fn first_rule_only(certificate: &Certificate) -> Option<Answer> {
    let first = certificate.rules[0].block;
    with(certificate, &|rule| {
        first_open_secret(certificate, rule).filter(|_| rule.block == first)
    })
}

#[test]
fn files_rest_on_secrets_in_premises() {
    let (mut uses, mut with_rules_judged) = (Uses::default(), 0);
    let mut others = READINGS.map(|_| 0);
    for seed in 0..FILES {
        let Some((certificate, right)) = judged(seed) else {
            continue;
        };
        with_rules_judged += 1;
        for (other, (_, answer, _)) in others.iter_mut().zip(READINGS) {
            *other += u64::from(answer(&certificate) != right);
        }
        if has_secret_in_premise(&certificate) {
            uses.add(&certificate, right);
        }
    }
    println!("of {FILES} files, the rules of {with_rules_judged} judged: {uses:?}");
    let share = |count: u64, of: u64, percent: u64| count * 100 > of * percent;
    for (other, (name, _, percent)) in others.iter().zip(READINGS) {
        println!("another answer by {name}: {other}");
        assert!(share(*other, uses.refused, percent), "{name}");
    }
    uses.are_frequent(with_rules_judged);
}

impl Uses {
    fn are_frequent(&self, with_rules_judged: u64) {
        let often = |count: u64, of: u64, percent: u64, name: &str| {
            assert!(count * 100 > of * percent, "{name}");
        };
        often(self.all, with_rules_judged, 25, "all");
        often(self.accepted, self.all, 20, "accepted");
        often(self.uncovered, self.all, 20, "uncovered");
        often(self.refused, self.all, 15, "refused");
        often(self.at_the_root, self.refused, 5, "at the root");
        often(self.below_an_encryption, self.refused, 20, "below");
        often(self.nested, self.refused, 10, "nested");
        often(self.at_the_last_rule, self.refused, 10, "last rule");
        often(self.several, self.refused, 15, "several");
        often(self.covered, self.refused, 20, "covered");
        often(self.behind_a_twelve, self.refused, 5, "behind a 12");
    }
}
