//! The rules' order decides which of two steps that may change places comes
//! first, and nothing else: a step that may use the one before does not go
//! before it.

mod common;

use attack::{search, Attack, Outcome};
use common::certificate;
use literal::read::Certificate;

/// Steps of rules with variables of the attack; what was searched otherwise.
fn outcome(certificate: &Certificate) -> Result<usize, String> {
    let with_variables = |attack: Attack| {
        let steps = attack.steps.iter();
        steps.filter(|step| !step.replacement.is_empty()).count()
    };
    match search(certificate) {
        Outcome::Found(attack) => Ok(with_variables(attack)),
        Outcome::NotFound(bound) => Err(bound.to_string()),
    }
}

fn reversed(certificate: &Certificate) -> Certificate {
    let mut other = certificate.clone();
    other.rules.reverse();
    other
}

/// What each of these rules gives is asked for as a whole by the one before.
#[test]
fn a_variable_that_is_the_message_before() {
    let atoms = text::document::ATOMS;
    let keys = "atom K symmetric unknown\natom L symmetric unknown\n";
    let all = [
        ("{N}K", "rule ?x -> {?x}K\nrule ?y -> N\n", 2),
        ("{N}K", "rule ?n!x -> {?n!x}K\nrule -> ?n!x\n", 2),
        (
            "N",
            "rule {{T}K}L -> N\nrule {?x}KI -> {?x}L\nrule h(?x) -> {?x}K\n",
            2,
        ),
        (
            "N",
            "rule {{{?z}K}L}K -> N\nrule (T, ?x) -> {?x}K\nrule ?x -> {?x}L\n",
            4,
        ),
    ];
    for (secret, rules, steps) in all {
        let certificate = certificate(&format!("{atoms}{keys}secret {secret}\n{rules}"));
        assert_eq!(outcome(&certificate), Ok(steps), "{rules}");
        assert_eq!(outcome(&reversed(&certificate)), Ok(steps), "{rules}");
    }
}
