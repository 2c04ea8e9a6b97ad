//! Document 02, No. 2: marks in bad patterns, by hand.

mod common;

use common::*;
use literal::Term;

const M: Term = Term::Marked(1);
const KEY: u16 = 2;
const OPEN_KEY: u16 = 4;
const ACCEPTED: (u32, u32, u32) = (0, 0, 0);

/// {(I, m)}2.
fn after_i(message: Term) -> Term {
    enc(two(I, message), KEY)
}

/// With these bad patterns and this rule.
fn answer(bads: &[Term], premise: Option<Term>, conclusion: Term) -> (u32, u32, u32) {
    let mut parts = Parts::usual();
    parts.bads = bads.to_vec();
    parts.rules = vec![(premise, conclusion)];
    spot(&parts.bytes())
}

/// The same with (N, T) as a third secret.
fn with_pair_secret(bad: Term, premise: Option<Term>, conclusion: Term) -> (u32, u32, u32) {
    let mut parts = Parts::usual();
    parts.secrets.push(two(N, T));
    parts.bads = vec![bad];
    parts.rules = vec![(premise, conclusion)];
    spot(&parts.bytes())
}

#[test]
fn only_what_is_at_or_below_a_mark_is_exposed() {
    let sent = after_i(two(N, T));
    let refused = (12, 5, 4);
    assert_eq!(answer(&[after_i(two(X, Y))], None, sent.clone()), refused);
    assert_eq!(answer(&[after_i(two(X, M))], None, sent.clone()), ACCEPTED);
    assert_eq!(answer(&[after_i(two(M, X))], None, sent.clone()), refused);
    assert_eq!(answer(&[after_i(M)], None, sent), refused);
    let both = after_i(two(N, N));
    assert_eq!(answer(&[after_i(two(X, M))], None, both), (12, 5, 5));
}

#[test]
fn a_mark_below_counts_for_a_sure_hat() {
    let premise = Some(enc(two(T, X), KEY));
    for bad in [after_i(M), after_i(two(Y, M)), enc(two(two(Y, M), I), KEY)] {
        let sent = enc(X, KEY);
        assert_eq!(answer(&[bad], premise.clone(), sent), (12, 5, 5));
    }
    let bads = [after_i(two(Y, M))];
    let after_t = enc(two(T, X), KEY);
    assert_eq!(answer(&bads, premise.clone(), after_t), ACCEPTED);
    assert_eq!(answer(&bads, premise, after_i(X)), (12, 5, 7));
    let [bad] = bads;
    let sent = after_i(two(N, T));
    assert_eq!(with_pair_secret(bad, None, sent), (12, 6, 3));
}

#[test]
fn a_mark_at_or_above_counts_for_an_open_place() {
    let premise = Some(after_i(two(X, Y)));
    let shown = enc(X, OPEN_KEY);
    let with = |bad| answer(&[bad], premise.clone(), shown.clone());
    assert_eq!(with(after_i(M)), ACCEPTED);
    assert_eq!(with(after_i(two(M, X))), ACCEPTED);
    assert_eq!(with(after_i(two(X, Y))), ACCEPTED);
    assert_eq!(with(after_i(two(X, M))), (12, 5, 7));
    assert_eq!(with(enc(two(T, M), KEY)), (12, 5, 7));
}

#[test]
fn a_mark_below_does_not_count_for_an_open_place() {
    let premise = Some(after_i(two(N, T)));
    let below = after_i(two(X, M));
    let at_the_pair = with_pair_secret(after_i(M), premise.clone(), N);
    assert_eq!(at_the_pair, (15, 6, 3));
    assert_eq!(with_pair_secret(below, premise, N), (12, 6, 6));
}

#[test]
fn match_and_mark_come_from_one_bad_pattern() {
    let other = enc(two(T, two(M, X)), KEY);
    let bads = [after_i(two(X, M)), other];
    let turned = [bads[1].clone(), bads[0].clone()];
    for bads in [bads, turned] {
        assert_eq!(answer(&bads, None, after_i(two(N, T))), ACCEPTED);
        let premise = Some(after_i(two(X, Y)));
        assert_eq!(answer(&bads, premise, enc(X, OPEN_KEY)), (12, 6, 7));
    }
}

#[test]
fn every_bad_pattern_is_asked() {
    let bads = [after_i(two(X, M)), after_i(two(M, X))];
    let turned = [bads[1].clone(), bads[0].clone()];
    for bads in [bads, turned] {
        assert_eq!(answer(&bads, None, after_i(two(N, T))), (12, 6, 4));
        let premise = Some(after_i(two(X, Y)));
        let shown = enc(two(X, Y), OPEN_KEY);
        assert_eq!(answer(&bads, premise, shown), ACCEPTED);
    }
}

#[test]
fn marks_in_bad_patterns_are_read() {
    let rule = || (None, enc(N, KEY));
    let with = |bad: Term| answer(&[bad], rule().0, rule().1);
    assert_eq!(with(after_i(Term::Marked(7))), ACCEPTED);
    assert_eq!(with(after_i(Term::Marked(8))), (7, 4, 3));
    assert_eq!(with(M), (8, 4, 0));
    assert_eq!(with(enc(two(I, M), OPEN_KEY)), ACCEPTED, "no 11");
    assert_eq!(answer(&[], None, enc(M, KEY)), (7, 4, 1));
    assert_eq!(answer(&[], Some(M), T), (7, 4, 0));
    let mut parts = Parts::usual();
    parts.secrets.push(M);
    parts.rules = vec![rule()];
    assert_eq!(spot(&parts.bytes()), (7, 3, 0));
}
