//! What was searched, in words.

mod common;

use attack::{search, Bound, Outcome};
use common::certificate;

fn bound(rules: &str) -> Bound {
    let atoms = text::document::ATOMS;
    let certificate = certificate(&format!("{atoms}secret N\nsecret KAi\n{rules}"));
    match search(&certificate) {
        Outcome::Found(attack) => panic!("{attack:?}"),
        Outcome::NotFound(bound) => bound,
    }
}

#[test]
fn rules_without_variables() {
    let bound = bound("rule -> {N}KA\nrule {N}KI -> N\n");
    let whole = Bound {
        steps: Some(1),
        whole: true,
        begun: false,
        left_out_above: None,
    };
    assert_eq!(bound, whole);
    assert_eq!(
        bound.to_string(),
        "no run of any length derives a listed secret"
    );
}

#[test]
fn ever_new_messages() {
    let bound = bound("rule -> {N}KA\nrule {?x}KA -> {(?x, T)}KA\n");
    assert_eq!(
        (bound.steps, bound.whole, bound.begun),
        (Some(6), false, false)
    );
    assert_eq!(
        bound.to_string(),
        "no run with at most 6 steps of rules with variables, and any number of steps of rules \
         without variables between them, derives a listed secret"
    );
}

/// Each step makes the message more than eight times as large.
#[test]
fn large_messages() {
    let eight = "((?x, ?x), (?x, ?x))";
    let rules = format!("rule -> {{N}}KA\nrule {{?x}}KA -> {{({eight}, {eight})}}KA\n");
    let bound = bound(&rules);
    assert_eq!(bound.left_out_above, Some(500));
    assert_eq!(
        bound.to_string(),
        "no run of any length derives a listed secret; left out were runs with a message of more \
         than 500 symbols"
    );
}

#[test]
fn work_that_ends() {
    let bound = Bound {
        steps: Some(2),
        whole: false,
        begun: true,
        left_out_above: None,
    };
    assert_eq!(
        bound.to_string(),
        "no run with at most 2 steps of rules with variables, and any number of steps of rules \
         without variables between them, derives a listed secret; runs with 3 steps were begun \
         and not ended"
    );
}
