//! Number 15: a listed secret at an open place of a premise.

use crate::hats::{by_root, under_other_keys};
use crate::mismatch::clash;
use crate::report::{short, Finding, Report, MOST_TOLD};
use crate::scene::{root_words, Scene};
use crate::source::{down, At};
use literal::hats::{shares_with_some, Exception};
use literal::matches;
use literal::read::{Listed, Rule};
use literal::term::{places, strictly_above, Place};

/// The whole explanation of a 15 at this entry of a rule's block.
pub fn open_secret(report: &mut Report, scene: Scene, block: usize, entry: usize) {
    let rules = &scene.certificate.rules;
    let Some(rule) = rules.iter().find(|rule| rule.block == block) else {
        return;
    };
    let all = rule.premise.as_ref().map_or(Vec::new(), places);
    let Some(place) = all.iter().find(|place| place.entry == entry) else {
        return;
    };
    let name = short(scene.source.term(block, place.subterm));
    let is_it = |secret: &&Listed| secret.term == *place.subterm;
    let listed = scene.certificate.secrets.iter().find(is_it);
    let listed = listed.map_or(name.clone(), |secret| scene.listed("secret", secret));
    let finding = Finding {
        what: "the premise has a listed secret at an open place".to_string(),
        at: At::Entry(block, entry),
        found: format!("{name} at an open place, where no good pattern keeps it: {listed}"),
        expected:
            "an encryption above it that shares an instance with a good pattern and is no bad one"
                .to_string(),
    };
    report.finding(scene.source, &finding);
    let by_bad = why_open(report, scene, rule, &all, place);
    report.title("What to do");
    report.item("The rule waits for a message in which the secret is not protected: no accepted run has one.");
    report.item(match by_bad {
        true => "Narrow the bad pattern, or write the premise as the part reads it, or drop the rule.",
        false => "Write the premise as the part reads it, or give that message a good pattern, or drop the rule.",
    });
}

/// Of every encryption above the place, why it does not close it; whether a bad
/// pattern is the reason.
fn why_open(report: &mut Report, scene: Scene, rule: &Rule, all: &[Place], place: &Place) -> bool {
    report.title("Why the place is open");
    let (mut above, mut by_bad) = (0, false);
    let is_above =
        |upper: &&Place| upper.subterm.is_encryption() && strictly_above(&upper.path, &place.path);
    for upper in all.iter().filter(is_above) {
        above += 1;
        let words = scene.in_premise(rule, upper);
        match opening_bad(scene, upper, place) {
            Some(bad) => {
                by_bad = true;
                let bad = scene.listed("bad", bad);
                report.item(format!(
                    "{words} does not close it: it is {bad} with its variables replaced"
                ));
            }
            None => {
                report.item(format!("{words} shares an instance with no good pattern:"));
                no_good(report, scene, rule, upper);
            }
        }
    }
    if above == 0 {
        report.item("no encryption stands above it");
    }
    by_bad
}

/// The bad pattern that opens the place below an encryption, where a good one
/// shares with that.
fn opening_bad<'a>(scene: Scene<'a>, upper: &Place, place: &Place) -> Option<&'a Listed> {
    let certificate = scene.certificate;
    let atoms = &certificate.atoms;
    if !shares_with_some(atoms, upper.subterm, &certificate.goods) {
        return None;
    }
    let opens = |bad: &&Listed| {
        matches(atoms, &bad.term, upper.subterm) && Exception::of(&upper.path, bad).exposes(place)
    };
    certificate.bads.iter().find(opens)
}

/// Where the good patterns and the encryption part.
fn no_good(report: &mut Report, scene: Scene, rule: &Rule, upper: &Place) {
    let (near, far) = by_root(&scene.certificate.goods, upper.subterm);
    if near.is_empty() && far.is_empty() {
        report.detail("the certificate has none");
    }
    for good in near.iter().take(MOST_TOLD) {
        let words = scene.listed("good", good);
        let why = match clash(&scene.certificate.atoms, &good.term, upper.subterm) {
            Some(path) => {
                let there = scene.in_pattern(good, &path);
                let here = root_words(scene.source, rule.block, down(upper.subterm, &path));
                format!("it has {there}, and here is {here}")
            }
            None => "a variable would have to be two messages, or hold itself".to_string(),
        };
        report.detail(format!("{words}: {why}"));
    }
    if near.len() > MOST_TOLD {
        let more = near.len() - MOST_TOLD;
        report.detail(format!("{more} more under this key share none"));
    }
    under_other_keys(report, scene, upper.subterm, &far);
}
