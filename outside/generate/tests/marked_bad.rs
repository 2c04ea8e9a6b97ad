//! How many generated files have bad patterns with marks, and what rests on
//! where these stand.

mod common;
mod judged;

use common::{answer_by, Answer};
use generate::certificate::{replace, variables_of};
use judged::judged;
use literal::hats::{closings, first_secret, is_risky, stands_at, sure_hats};
use literal::hats::{Closing, Exception, SureHat};
use literal::read::{Certificate, Rule};
use literal::term::{at_or_above, places, strictly_above, Place};
use literal::Term;

const FILES: u64 = 100_000;

/// Files whose rules are judged and that have a marked bad pattern, and how many
/// of them show it.
#[derive(Default, Debug)]
struct Uses {
    all: u64,
    accepted: u64,
    uncovered: u64,
    open_secret: u64,
    /// Another answer if every mark of the bad patterns is a plain variable;
    /// of these, refused so and accepted with the marks.
    marks_decide: u64,
    accepted_by_marks: u64,
    /// Another answer if marked bad patterns are not there.
    marked_bads_decide: u64,
    /// Another answer if a mark below a place does not count for a sure hat;
    /// for a variable; for another place.
    below_for_hat: u64,
    below_for_hat_of_nested: u64,
    /// Another answer if a mark below a place counts for an open place.
    below_for_open: u64,
    /// A secret that is open by a mark alone; one that would be open if marks of
    /// bad patterns did not matter.
    open_by_mark: u64,
    closed_by_mark: u64,
    /// Two or more marked bad patterns at one subterm, of which not all have a
    /// mark on a place that is asked.
    several: u64,
}

/// Of either sort.
fn marked_variables(pattern: &Term) -> Vec<Term> {
    let mut variables = variables_of(pattern);
    variables.retain(Term::is_mark);
    variables
}

fn has_marked_bad(certificate: &Certificate) -> bool {
    let mut bads = certificate.bads.iter();
    bads.any(|bad| !marked_variables(&bad.term).is_empty())
}

/// Every mark of a bad pattern a plain variable of its own.
fn with_plain_bads(certificate: &Certificate) -> Certificate {
    let mut changed = certificate.clone();
    for bad in &mut changed.bads {
        let plain = |variable: Term| match variable {
            Term::Marked(number) => (variable, Term::Plain(number + 100)),
            Term::MarkedNonce(number) => (variable, Term::PlainNonce(number + 100)),
            _ => unreachable!("only marked ones"),
        };
        let by: Vec<_> = marked_variables(&bad.term).into_iter().map(plain).collect();
        bad.term = replace(&bad.term, &by);
    }
    changed
}

fn without_marked_bads(certificate: &Certificate) -> Certificate {
    let mut changed = certificate.clone();
    let is_plain = |term: &Term| marked_variables(term).is_empty();
    changed.bads.retain(|bad| is_plain(&bad.term));
    changed
}

/// How marks of bad patterns count, on either side.
struct Reading {
    for_hat: fn(&Exception, &Place) -> bool,
    for_open: fn(&Exception, &Place) -> bool,
}

const RIGHT: Reading = Reading {
    for_hat: Exception::may_expose,
    for_open: Exception::exposes,
};

fn variables_only(exception: &Exception, place: &Place) -> bool {
    match place.subterm.is_variable() {
        true => exception.may_expose(place),
        false => exception.exposes(place),
    }
}

fn marks_take_nothing(exception: &Exception, _: &Place) -> bool {
    exception.marks.is_empty()
}

impl Reading {
    fn has_hat(&self, hats: &[SureHat], place: &Place) -> bool {
        hats.iter().any(|hat| {
            strictly_above(&hat.path, &place.path)
                && hat.marks.iter().any(|mark| at_or_above(mark, &place.path))
                && !hat.exceptions.iter().any(|e| (self.for_hat)(e, place))
        })
    }

    fn is_open(&self, closings: &[Closing], place: &Place) -> bool {
        closings.iter().all(|upper| {
            !strictly_above(&upper.path, &place.path)
                || upper.exceptions.iter().any(|e| (self.for_open)(e, place))
        })
    }

    fn open<'a>(&self, certificate: &Certificate, rule: &'a Rule) -> Vec<Place<'a>> {
        let Some(premise) = &rule.premise else {
            return Vec::new();
        };
        let closings = closings(certificate, premise);
        let mut open = places(premise);
        open.retain(|place| self.is_open(&closings, place));
        open
    }

    fn first_open_secret(&self, certificate: &Certificate, rule: &Rule) -> Option<usize> {
        first_secret(&self.open(certificate, rule), &certificate.secrets)
    }

    fn first_uncovered(&self, certificate: &Certificate, rule: &Rule) -> Option<usize> {
        let open = self.open(certificate, rule);
        let hats = sure_hats(certificate, &rule.conclusion);
        let all = places(&rule.conclusion).into_iter();
        let mut risky = all.filter(|place| is_risky(certificate, place));
        let found =
            risky.find(|place| !self.has_hat(&hats, place) && !stands_at(&open, place.subterm));
        found.map(|place| rule.premise_entries() + place.entry)
    }

    fn answer(&self, certificate: &Certificate) -> Option<Answer> {
        answer_by(
            certificate,
            |rule| self.first_open_secret(certificate, rule),
            |rule| self.first_uncovered(certificate, rule),
        )
    }
}

/// Marked bad patterns open nothing.
const MARKS_OPEN_NOTHING: Reading = Reading {
    for_open: marks_take_nothing,
    ..RIGHT
};

/// Marked bad patterns open all.
const MARKS_OPEN_ALL: Reading = Reading {
    for_open: |_, _| true,
    ..RIGHT
};

/// At one subterm of a conclusion or a premise, marks of one bad pattern that
/// are on a place where another's are not.
fn has_several(certificate: &Certificate, rule: &Rule) -> bool {
    let apart = |lists: &[Exception], term: &Term| {
        let marked: Vec<&Exception> = lists.iter().filter(|e| !e.marks.is_empty()).collect();
        places(term).iter().any(|place| {
            let on = marked.iter().filter(|e| e.exposes(place)).count();
            on > 0 && on < marked.len()
        })
    };
    let hats = sure_hats(certificate, &rule.conclusion);
    let in_conclusion = hats.iter().any(|h| apart(&h.exceptions, &rule.conclusion));
    let in_premise = rule.premise.as_ref().is_some_and(|premise| {
        let mut all = closings(certificate, premise).into_iter();
        all.any(|closing| apart(&closing.exceptions, premise))
    });
    in_conclusion || in_premise
}

impl Uses {
    fn add(&mut self, certificate: &Certificate, right: Option<Answer>) {
        assert_eq!(RIGHT.answer(certificate), right);
        let accepted = right.is_none();
        let is = |number: u8| right.is_some_and(|(found, ..)| found == number);
        let other = |for_hat, for_open| Reading { for_hat, for_open }.answer(certificate) != right;
        let plain = RIGHT.answer(&with_plain_bads(certificate));
        let add = |count: &mut u64, yes: bool| *count += u64::from(yes);
        self.all += 1;
        add(&mut self.accepted, accepted);
        add(&mut self.uncovered, is(12));
        add(&mut self.open_secret, is(15));
        add(&mut self.marks_decide, plain != right);
        add(&mut self.accepted_by_marks, accepted && plain.is_some());
        let fewer = RIGHT.answer(&without_marked_bads(certificate));
        add(&mut self.marked_bads_decide, fewer != right);
        let (may, exposes) = (RIGHT.for_hat, RIGHT.for_open);
        add(&mut self.below_for_hat, other(exposes, exposes));
        add(
            &mut self.below_for_hat_of_nested,
            other(variables_only, exposes),
        );
        add(&mut self.below_for_open, other(may, may));
        self.add_secrets(certificate);
        let mut rules = certificate.rules.iter();
        add(
            &mut self.several,
            rules.any(|r| has_several(certificate, r)),
        );
    }

    fn add_secrets(&mut self, certificate: &Certificate) {
        let first = |reading: &Reading, rule| reading.first_open_secret(certificate, rule);
        let differs = |one: &Reading, other: &Reading| {
            let mut rules = certificate.rules.iter();
            rules.any(|rule| first(one, rule).is_some() && first(other, rule).is_none())
        };
        self.open_by_mark += u64::from(differs(&RIGHT, &MARKS_OPEN_NOTHING));
        self.closed_by_mark += u64::from(differs(&MARKS_OPEN_ALL, &RIGHT));
    }
}

#[test]
fn files_rest_on_marks_of_bad_patterns() {
    let mut uses = Uses::default();
    let mut with_bads = 0;
    for seed in 0..FILES {
        let Some((certificate, right)) = judged(seed) else {
            continue;
        };
        with_bads += u64::from(!certificate.bads.is_empty());
        if has_marked_bad(&certificate) {
            uses.add(&certificate, right);
        }
    }
    println!("of {FILES} files, {with_bads} with bad patterns: {uses:?}");
    let share = |count: u64, of: u64, percent: u64| count * 100 > of * percent;
    assert!(share(uses.all, with_bads, 30), "all");
    assert!(share(uses.accepted, uses.all, 25), "accepted");
    assert!(share(uses.uncovered, uses.all, 25), "uncovered");
    assert!(share(uses.marks_decide, uses.all, 10), "marks decide");
    assert!(
        share(uses.accepted_by_marks, uses.accepted, 5),
        "accepted by marks"
    );
    assert!(share(uses.marked_bads_decide, uses.all, 12), "bads decide");
    assert!(share(uses.below_for_hat, uses.all, 3), "below, hat");
    assert!(share(uses.below_for_hat_of_nested, uses.all, 1), "nested");
    assert!(share(uses.below_for_open, uses.all, 1), "below, open");
    assert!(share(uses.open_secret, uses.all, 5), "open secret");
    assert!(share(uses.open_by_mark, uses.all, 1), "open by mark");
    assert!(share(uses.closed_by_mark, uses.all, 2), "closed by mark");
    assert!(share(uses.several, uses.all, 5), "several");
}
