//! Protocols of which it is known whether they are broken.

mod common;

use attack::{search, walk, Attack, Bound, Outcome};
use common::{certificate, example, number, paths, text};
use literal::read::{read, Certificate};

fn found(name: &str, certificate: &Certificate) -> Attack {
    match search(certificate) {
        Outcome::Found(attack) => {
            assert_eq!(walk::check(certificate, &attack), Ok(()), "{name}");
            attack
        }
        Outcome::NotFound(bound) => panic!("{name}: {bound}"),
    }
}

fn not_found(name: &str, certificate: &Certificate) -> Bound {
    match search(certificate) {
        Outcome::Found(attack) => panic!("{name}: {attack:?}"),
        Outcome::NotFound(bound) => bound,
    }
}

/// The corpus texts with this truth that can be assembled by now.
fn of_truth(truth: &str) -> Vec<(String, Certificate)> {
    let texts = paths("../corpus", "txt").into_iter();
    let texts = texts.map(|path| (command::files::name(&path), text(&path)));
    let line = format!("#: truth {truth}");
    texts
        .filter(|(_, text)| text.lines().any(|other| other.starts_with(&line)))
        .filter(|(_, text)| text::assemble(text).is_ok())
        .map(|(name, text)| (name, certificate(&text)))
        .collect()
}

#[test]
fn broken_protocols() {
    let all = of_truth("attack");
    let steps: Vec<usize> = all
        .iter()
        .map(|(name, certificate)| found(name, certificate).steps.len())
        .collect();
    let names: Vec<&str> = all.iter().map(|(name, _)| name.as_str()).collect();
    let short = |name: &&str| name.trim_end_matches(".txt").to_string();
    let names: Vec<String> = names.iter().map(short).collect();
    let expected = [
        ("denning-sacco", 2),
        ("denning-sacco-sig", 2),
        ("handshake", 2),
        ("nspk", 2),
        ("nspk-typed", 3),
        ("yahalom000-left", 2),
    ];
    let mut answers: Vec<(&str, usize)> = names.iter().map(String::as_str).zip(steps).collect();
    answers.sort();
    assert_eq!(answers, expected);
}

#[test]
fn secure_protocols() {
    let all = of_truth("secure");
    assert_eq!(all.len(), 18);
    for (name, certificate) in &all {
        let bound = not_found(name, certificate);
        println!("{name}: {bound}");
        assert!(bound.whole || bound.steps >= Some(4), "{name}: {bound}");
    }
}

/// How many steps an attack on an example has; none where no run of any length
/// is one.
const REFUSED_WITH_12: [(&str, Option<usize>); 10] = [
    // Nothing but the rule after I opens a message under KA, and no rule sends
    // N.
    ("exception", None),
    // No rule sends N: the intruder has nothing under KA but its own messages.
    ("forwarding", None),
    ("handshake-broken", Some(3)),
    ("handshake-without-correction", Some(3)),
    ("nonce-to-the-intruder", Some(1)),
    // B passes on {G}KA, and A shows nothing of that; an order with G in its
    // log field would have to be under KB first, and nobody writes one.
    ("order-passed-on", None),
    ("signed-secret", Some(2)),
    // Slips in the certificate alone, and one in a rule.
    ("slip-forgotten-mark", None),
    ("slip-mistyped-variable", Some(1)),
    ("slip-pattern-order", None),
];

#[test]
fn examples_refused_with_12() {
    for (name, steps) in REFUSED_WITH_12 {
        let certificate = example("../../examples", name);
        match steps {
            Some(steps) => assert_eq!(found(name, &certificate).steps.len(), steps, "{name}"),
            None => assert!(not_found(name, &certificate).whole, "{name}"),
        }
    }
}

#[test]
fn all_examples() {
    let mut refused = Vec::new();
    for path in paths("../../examples", "txt") {
        let name = command::files::name(&path);
        let file = text::assemble(&text(&path)).expect("a text");
        match (number(&file), read(&file)) {
            (12, _) => refused.push(name.trim_end_matches(".txt").to_string()),
            (_, Ok(certificate)) => drop(not_found(&name, &certificate)),
            _ => {}
        }
    }
    refused.sort();
    assert_eq!(refused, REFUSED_WITH_12.map(|(name, _)| name));
}

/// A variable that stands in a conclusion only may get the secret itself.
#[test]
fn variables_of_conclusions_only() {
    let atoms = text::document::ATOMS;
    let with = |rules: &str| certificate(&format!("{atoms}secret N\nsecret KAi\n{rules}"));
    assert_eq!(found("x", &with("rule -> {?x}KI\n")).steps.len(), 1);
    assert_eq!(found("n", &with("rule -> {?n!x}KI\n")).steps.len(), 1);
    assert_eq!(
        found("two", &with("rule -> {?x}KA\nrule {?x}KA -> ?x\n"))
            .steps
            .len(),
        2
    );
    assert_eq!(
        found("T", &with("rule T -> (T, {(?x, T)}KI)\n"))
            .steps
            .len(),
        1
    );
    let bound = not_found("KA", &with("rule -> {?x}KA\n"));
    assert!(bound.steps.is_some());
}

/// A nonce variable does not get a private key.
#[test]
fn nonce_variables() {
    let atoms = text::document::ATOMS;
    let rules = "rule -> {KAi}KA\nrule {?n!x}KA -> ?n!x\n";
    let secret = |name: &str| certificate(&format!("{atoms}secret {name}\n{rules}"));
    assert!(not_found("KAi", &secret("KAi")).whole);
    let rules = rules.replace("?n!x", "?x");
    let broken = certificate(&format!("{atoms}secret KAi\n{rules}"));
    assert_eq!(found("KAi", &broken).steps.len(), 2);
}
