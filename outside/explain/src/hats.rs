//! Number 12: why no encryption above the place is a sure hat for it.

use crate::mismatch::{exchanged, mended_by_exchange, mismatch, to_the_right, Mismatch};
use crate::report::{Report, MOST_TOLD};
use crate::scene::{root_words, Scene};
use crate::taken::taken_by_bads;
use literal::read::{Listed, Rule};
use literal::term::{at_or_above, joined, marks, places, strictly_above, subterms, Place};
use literal::Term;
use std::cmp::Reverse;

/// A place of a rule's conclusion.
pub struct Asked<'a> {
    pub rule: &'a Rule,
    pub place: &'a Place<'a>,
}

/// All that stands above the place, outermost first.
pub fn no_sure_hat(report: &mut Report, scene: Scene, asked: &Asked) {
    report.title("Why no hat covers it");
    let all = places(&asked.rule.conclusion);
    let above = |upper: &&Place| strictly_above(&upper.path, &asked.place.path);
    let mut hats = 0;
    for upper in all.iter().filter(above) {
        match upper.subterm {
            Term::Encryption(..) => {
                hats += 1;
                let hat = Hat {
                    scene,
                    asked,
                    upper,
                };
                hat.fails(report);
            }
            Term::Signature(..) => {
                let spot = scene.in_conclusion(asked.rule, upper);
                report.item(format!(
                    "{spot} hides nothing: everybody reads what is signed"
                ));
            }
            _ => {}
        }
    }
    if hats == 0 {
        report.item("no encryption stands above it, so everybody gets it");
    }
}

/// An encryption above the place.
pub struct Hat<'a> {
    pub scene: Scene<'a>,
    pub asked: &'a Asked<'a>,
    pub upper: &'a Place<'a>,
}

impl Hat<'_> {
    /// Why it is no sure hat: the good patterns that it matches, then those that it
    /// nearly does, then those under other keys.
    fn fails(&self, report: &mut Report) {
        let spot = self.scene.in_conclusion(self.asked.rule, self.upper);
        report.item(format!("{spot} is no sure hat:"));
        let certificate = self.scene.certificate;
        let (near, far) = by_root(&certificate.goods, self.upper.subterm);
        let mut unlike = Vec::new();
        for good in near {
            match mismatch(&certificate.atoms, &good.term, self.upper.subterm) {
                Some(found) => unlike.push((good, found)),
                None => self.matched(report, good),
            }
        }
        self.unmatched(report, unlike);
        under_other_keys(report, self.scene, self.upper.subterm, &far);
        if certificate.goods.is_empty() {
            report.detail("the certificate has no good pattern");
        }
    }

    /// A good pattern that the encryption is, with its variables replaced.
    fn matched(&self, report: &mut Report, good: &Listed) {
        let words = self.scene.listed("good", good);
        if self.covers(&good.term) {
            report.detail(format!("{words} matches, with a mark, but"));
            taken_by_bads(report, self.scene, self.upper, self.asked.place);
        } else {
            self.has_no_mark(report, good, &words);
        }
    }

    /// Whether the pattern has a mark at or above the place.
    fn covers(&self, pattern: &Term) -> bool {
        let place = &self.asked.place.path;
        let marks = marks(pattern);
        let mut paths = marks.iter().map(|mark| joined(&self.upper.path, mark));
        paths.any(|path| at_or_above(&path, place))
    }

    /// Those that go along furthest come first; the others are counted.
    fn unmatched(&self, report: &mut Report, mut unlike: Vec<(&Listed, Mismatch)>) {
        let entry = |(good, found): &(&Listed, Mismatch)| {
            let all = subterms(&good.term);
            all.iter().position(|place| place.path == found.path)
        };
        unlike.sort_by_key(|one| Reverse(entry(one)));
        for (good, found) in unlike.iter().take(MOST_TOLD) {
            self.no_match(report, good, found);
        }
        if unlike.len() > MOST_TOLD {
            let more = unlike.len() - MOST_TOLD;
            report.detail(format!(
                "{more} more good patterns under this key do not match"
            ));
        }
    }

    /// Where the pattern and the encryption part, and what stands there.
    fn no_match(&self, report: &mut Report, good: &Listed, found: &Mismatch) {
        let scene = self.scene;
        let why = scene.parting(good, self.asked.rule.block, self.upper.subterm, found);
        let words = scene.listed("good", good);
        report.detail(format!("{words} does not match: {why}"));
        if let Some(hint) = self.other_order(good, found) {
            report.detail(format!("hint: {hint}"));
        }
    }

    /// Whether the pattern would match with the same fields in another order, or
    /// bracketed otherwise.
    fn other_order(&self, good: &Listed, found: &Mismatch) -> Option<String> {
        let (atoms, term) = (&self.scene.certificate.atoms, self.upper.subterm);
        if let Some(pair) = mended_by_exchange(atoms, &good.term, term, found) {
            let spot = self.scene.in_pattern(good, &pair);
            let mended = exchanged(&good.term, &pair);
            let besides = match self.covers(&mended) {
                true => "",
                false => ", but has no mark for the place",
            };
            return Some(format!(
                "with the halves of its {spot} exchanged it would match{besides}"
            ));
        }
        let same = literal::matches(atoms, &to_the_right(&good.term), &to_the_right(term));
        same.then(|| "its fields are the same, but bracketed otherwise".to_string())
    }
}

/// The patterns with this term's root, and the others.
pub fn by_root<'a>(patterns: &'a [Listed], term: &Term) -> (Vec<&'a Listed>, Vec<&'a Listed>) {
    let same = |pattern: &&Listed| pattern.term.symbol() == term.symbol();
    patterns.iter().partition(same)
}

/// The good patterns whose root has another key than this encryption.
pub fn under_other_keys(report: &mut Report, scene: Scene, encryption: &Term, far: &[&Listed]) {
    if far.is_empty() {
        return;
    }
    let key = root_words(scene.source, 0, encryption);
    let told = far.iter().take(MOST_TOLD);
    let told: Vec<String> = told.map(|good| scene.listed("good", good)).collect();
    let more = match far.len() - told.len() {
        0 => String::new(),
        more => format!(", and {more} more"),
    };
    report.detail(format!(
        "{}{more}: another key at the root, and here is {key}",
        told.join(", ")
    ));
}
