//! Document 02, No. 4: a listed secret at an open place of a premise, by hand.

mod common;

use common::*;
use literal::{packed, refused_part, verdict, Term};

const A: Term = Term::Atom(0);
const PRIVATE: Term = Term::Atom(3);
const M: Term = Term::Marked(1);
/// A plain nonce variable.
const U: Term = Term::PlainNonce(0);
const KEY: u16 = 2;
const OPEN_KEY: u16 = 4;
const ACCEPTED: (u32, u32, u32) = (0, 0, 0);

/// {(I, m)}2.
fn after_i(message: Term) -> Term {
    enc(two(I, message), KEY)
}

/// With this premise and a conclusion in which nothing is risky.
fn asked(premise: Term) -> (u32, u32, u32) {
    judged(Parts::usual(), premise, T)
}

fn judged(mut parts: Parts, premise: Term, conclusion: Term) -> (u32, u32, u32) {
    parts.rules = vec![(Some(premise), conclusion)];
    spot(&parts.bytes())
}

fn with_bads(bads: &[Term], premise: Term) -> (u32, u32, u32) {
    let mut parts = Parts::usual();
    parts.bads = bads.to_vec();
    judged(parts, premise, T)
}

/// These secrets before N and 3.
fn with_secrets(secrets: &[Term], premise: Term) -> (u32, u32, u32) {
    let mut parts = Parts::usual();
    parts.secrets.splice(..0, secrets.to_vec());
    judged(parts, premise, T)
}

#[test]
fn the_whole_premise_a_half_and_below_encryptions() {
    assert_eq!(asked(N), (15, 4, 0));
    assert_eq!(asked(PRIVATE), (15, 4, 0));
    assert_eq!(asked(two(N, T)), (15, 4, 1));
    assert_eq!(asked(two(T, two(X, N))), (15, 4, 4));
    assert_eq!(asked(enc(N, OPEN_KEY)), (15, 4, 1));
    assert_eq!(asked(enc(two(T, enc(N, OPEN_KEY)), OPEN_KEY)), (15, 4, 4));
    assert_eq!(asked(T), ACCEPTED);
}

/// The part handed back is the rule's block.
#[test]
fn the_rule_is_handed_back() {
    let mut parts = Parts::usual();
    parts.rules = vec![(None, T), (Some(two(T, N)), T), (None, T)];
    let file = parts.bytes();
    let answer = verdict(&file);
    assert_eq!(packed(&answer), 15 * 65_536 + 5 * 256 + 2);
    assert_eq!(refused_part(&file, &answer), &file[5 * 512..6 * 512]);
}

#[test]
fn a_closed_place_does_not_count() {
    assert_eq!(asked(enc(N, KEY)), ACCEPTED);
    assert_eq!(asked(enc(enc(N, KEY), OPEN_KEY)), ACCEPTED);
    assert_eq!(asked(enc(enc(N, OPEN_KEY), KEY)), ACCEPTED);
    assert_eq!(asked(two(enc(N, KEY), N)), (15, 4, 3));
}

/// An encryption under the good pattern's key that shares no instance with it.
#[test]
fn an_encryption_that_shares_with_no_good_pattern() {
    let with_good = |premise: Term| {
        let mut parts = Parts::usual();
        parts.goods = vec![enc(two(T, S), KEY)];
        judged(parts, premise, T)
    };
    assert_eq!(with_good(enc(two(T, N), KEY)), ACCEPTED);
    assert_eq!(with_good(enc(two(X, N), KEY)), ACCEPTED);
    assert_eq!(with_good(enc(two(I, N), KEY)), (15, 4, 3));
    assert_eq!(with_good(enc(N, KEY)), (15, 4, 1));
}

#[test]
fn bad_patterns_open() {
    let bad = [after_i(X)];
    assert_eq!(with_bads(&bad, after_i(N)), (15, 5, 3));
    assert_eq!(with_bads(&bad, after_i(two(T, N))), (15, 5, 5));
    assert_eq!(with_bads(&bad, enc(two(T, N), KEY)), ACCEPTED);
    assert_eq!(with_bads(&bad, enc(two(X, N), KEY)), ACCEPTED, "shares");
    assert_eq!(with_bads(&bad, after_i(enc(N, KEY))), ACCEPTED);
}

#[test]
fn marked_bad_patterns_open_at_their_marks() {
    let premise = after_i(two(N, T));
    let with = |bad: Term| with_bads(&[bad], premise.clone());
    assert_eq!(with(after_i(M)), (15, 5, 4), "above");
    assert_eq!(with(after_i(two(M, X))), (15, 5, 4), "at");
    assert_eq!(with(after_i(two(X, M))), ACCEPTED, "beside");
    assert_eq!(with(enc(two(A, M), KEY)), ACCEPTED, "none");
    let both = after_i(two(N, N));
    assert_eq!(with_bads(&[after_i(two(X, M))], both), (15, 5, 5));
}

#[test]
fn the_first_entry_is_named() {
    assert_eq!(asked(two(N, PRIVATE)), (15, 4, 1));
    assert_eq!(asked(two(PRIVATE, N)), (15, 4, 1));
    assert_eq!(asked(two(two(T, N), two(N, T))), (15, 4, 3));
    let pair = [two(N, T)];
    assert_eq!(with_secrets(&pair, two(N, T)), (15, 5, 0));
    assert_eq!(with_secrets(&pair, two(I, two(N, T))), (15, 5, 2));
    assert_eq!(with_secrets(&pair, two(T, N)), (15, 5, 2), "its half");
    let nested = [enc(N, OPEN_KEY)];
    assert_eq!(with_secrets(&nested, enc(N, OPEN_KEY)), (15, 5, 0));
    let closed = [enc(N, KEY)];
    assert_eq!(with_secrets(&closed, enc(N, KEY)), (15, 5, 0));
}

/// What may become a secret is none.
#[test]
fn sharing_is_not_enough() {
    assert_eq!(asked(X), ACCEPTED);
    assert_eq!(asked(U), ACCEPTED);
    assert_eq!(asked(two(X, U)), ACCEPTED);
    let pair = [two(N, T)];
    assert_eq!(with_secrets(&pair, two(X, T)), ACCEPTED);
    assert_eq!(with_secrets(&pair, two(U, T)), ACCEPTED);
    assert_eq!(with_secrets(&pair, two(X, Y)), ACCEPTED);
    assert_eq!(with_secrets(&pair, two(N, X)), (15, 5, 1), "its half");
    assert_eq!(
        with_secrets(&[enc(N, OPEN_KEY)], enc(X, OPEN_KEY)),
        ACCEPTED
    );
}

/// The conclusion does not count, nor does a key.
#[test]
fn only_places_of_the_premise() {
    let with = |premise: Option<Term>, conclusion: Term| {
        let mut parts = Parts::usual();
        parts.rules = vec![(premise, conclusion)];
        spot(&parts.bytes())
    };
    assert_eq!(with(None, N), (12, 4, 0));
    assert_eq!(with(Some(T), N), (12, 4, 1));
    assert_eq!(with(None, enc(N, KEY)), ACCEPTED);
    assert_eq!(with(Some(enc(T, 3)), T), ACCEPTED);
}

/// A rule whose places are all covered, by a hat or by the secret itself.
#[test]
fn a_rule_that_would_pass_is_refused() {
    let with = |conclusion: Term| judged(Parts::usual(), N, conclusion);
    assert_eq!(with(T), (15, 4, 0));
    assert_eq!(with(enc(N, KEY)), (15, 4, 0));
    assert_eq!(with(N), (15, 4, 0));
    assert_eq!(with(PRIVATE), (15, 4, 0));
}

#[test]
fn over_all_rules_before_any_12() {
    let uncovered = || (None, enc(N, OPEN_KEY));
    let open_secret = || (Some(two(T, N)), T);
    let both = || (Some(N), PRIVATE);
    let fine = || (None, enc(N, KEY));
    let answer = |rules: &[(Option<Term>, Term)]| {
        let mut parts = Parts::usual();
        parts.rules = rules.to_vec();
        spot(&parts.bytes())
    };
    assert_eq!(answer(&[uncovered(), fine(), open_secret()]), (15, 6, 2));
    assert_eq!(answer(&[open_secret(), uncovered()]), (15, 4, 2));
    assert_eq!(answer(&[fine(), open_secret(), both()]), (15, 5, 2));
    assert_eq!(answer(&[uncovered(), both(), open_secret()]), (15, 5, 0));
    assert_eq!(answer(&[fine(), uncovered()]), (12, 5, 1));
    let mut last = vec![uncovered(); 59];
    last.push(open_secret());
    assert_eq!(answer(&last), (15, 63, 2));
}

/// 9, 10 and 11 come first.
#[test]
fn after_the_secrets_and_the_keys() {
    let mut parts = Parts::usual();
    parts.rules = vec![(Some(N), T)];
    parts.goods.push(enc(S, OPEN_KEY));
    assert_eq!(spot(&parts.bytes()), (11, 4, 0));
    parts.goods.pop();
    parts.secrets.push(two(T, I));
    assert_eq!(spot(&parts.bytes()), (10, 3, 0));
    parts.secrets.push(T);
    assert_eq!(spot(&parts.bytes()), (9, 4, 0));
}
