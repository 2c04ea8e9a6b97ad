//! Number 12: a risky place that is not covered.

use crate::attacks;
use crate::hats::{no_sure_hat, Asked};
use crate::premise::not_in_premise;
use crate::report::{short, Finding, Report};
use crate::scene::Scene;
use crate::source::At;
use literal::read::Listed;
use literal::shares;
use literal::term::{places, Place};

/// The whole explanation of a 12 at this entry of a rule's block.
pub fn uncovered(report: &mut Report, scene: Scene, block: usize, entry: usize) {
    let rules = &scene.certificate.rules;
    let Some(rule) = rules.iter().find(|rule| rule.block == block) else {
        return;
    };
    let all = places(&rule.conclusion);
    let there = |place: &&Place| rule.premise_entries() + place.entry == entry;
    let Some(place) = all.iter().find(there) else {
        return;
    };
    let asked = Asked { rule, place };
    let name = short(scene.source.term(block, place.subterm));
    let finding = Finding {
        what: "a risky place of the conclusion is not covered".to_string(),
        at: At::Entry(block, entry),
        found: format!("{name} without either"),
        expected: "a sure hat above it, or the same at an open place of the premise".to_string(),
    };
    report.finding(scene.source, &finding);
    risky(report, scene, &asked);
    no_sure_hat(report, scene, &asked);
    not_in_premise(report, scene, &asked);
    attacks::broken_or_narrow(report, scene, rule);
}

/// A variable, or what shares an instance with a secret.
fn risky(report: &mut Report, scene: Scene, asked: &Asked) {
    report.title("Why it is risky");
    let block = asked.rule.block;
    let subterm = asked.place.subterm;
    let name = short(scene.source.term(block, subterm));
    if subterm.is_nonce_variable() {
        let words = match scene.secret_nonce() {
            Some(secret) => format!("it may stand for {}, a secret", scene.message(&secret)),
            None => "every one in a conclusion is risky, also if no secret is a nonce".to_string(),
        };
        report.item(format!("{name} is a nonce variable: {words}"));
    } else if subterm.is_variable() {
        let secret = scene.message(&scene.any_secret());
        report.item(format!(
            "{name} is a variable: it may stand for {secret}, a secret"
        ));
    } else {
        shared_secrets(report, scene, asked, &name);
    }
}

/// The secrets that the subterm shares an instance with.
fn shared_secrets(report: &mut Report, scene: Scene, asked: &Asked, name: &str) {
    let atoms = &scene.certificate.atoms;
    let subterm = asked.place.subterm;
    let shared = |secret: &&Listed| shares(atoms, &secret.term, subterm);
    for secret in scene.certificate.secrets.iter().filter(shared) {
        let words = scene.listed("secret", secret);
        match secret.term == *subterm {
            true => report.item(format!("it is listed: {words}")),
            false => {
                let example = scene.example(&secret.term, subterm);
                report.item(format!("{name} shares an instance with {words}: {example}"));
            }
        }
    }
}
