//! Document 02, No. 3: variables for one nonce, by hand.

mod common;

use common::*;
use literal::read::Atom;
use literal::Term;

const A: Term = Term::Atom(0);
const PUBLIC: Term = Term::Atom(2);
const PRIVATE: Term = Term::Atom(3);
const Z: Term = Term::Plain(2);
/// Plain nonce variables, and a marked one.
const U: Term = Term::PlainNonce(0);
const V: Term = Term::PlainNonce(1);
const M: Term = Term::MarkedNonce(0);
const KEY: u16 = 2;
const OPEN_KEY: u16 = 4;
const ACCEPTED: (u32, u32, u32) = (0, 0, 0);

fn atoms() -> Vec<Atom> {
    let atom = |[kind, known, partner]: [u8; 3]| Atom {
        kind,
        known,
        partner: partner as u16,
    };
    ATOMS.map(atom).to_vec()
}

fn matches(pattern: Term, term: Term) -> bool {
    literal::matches(&atoms(), &pattern, &term)
}

/// The same in both orders.
fn shares(left: Term, right: Term) -> bool {
    let answer = literal::shares(&atoms(), &left, &right);
    assert_eq!(answer, literal::shares(&atoms(), &right, &left));
    answer
}

/// What is a nonce or a nonce variable, and what is neither.
const NONCES: [Term; 5] = [N, T, U, M, Term::Atom(1_000)];

fn others() -> [Term; 8] {
    [A, I, PUBLIC, PRIVATE, X, S, two(N, T), enc(N, KEY)]
}

#[test]
fn a_nonce_variable_of_a_pattern_takes_nonces_only() {
    for variable in [U, M] {
        for nonce in NONCES {
            assert!(matches(variable.clone(), nonce.clone()), "{nonce:?}");
        }
        for other in others() {
            assert!(!matches(variable.clone(), other.clone()), "{other:?}");
        }
    }
    for any in NONCES.into_iter().chain(others()) {
        assert!(matches(X, any.clone()) && matches(S, any));
    }
}

#[test]
fn the_same_nonce_at_all_places() {
    assert!(matches(two(U, U), two(N, N)));
    assert!(matches(two(U, U), two(V, V)));
    assert!(!matches(two(U, U), two(N, T)));
    assert!(!matches(two(U, U), two(U, V)));
    assert!(!matches(two(U, U), two(U, M)));
    assert!(matches(two(U, V), two(N, T)));
    assert!(matches(two(X, X), two(U, U)));
    assert!(!matches(two(X, X), two(U, X)));
}

/// The four tags of one number are four variables.
#[test]
fn tags_are_apart() {
    let four = [X, S, U, M];
    for (i, one) in four.iter().enumerate() {
        for (j, other) in four.iter().enumerate() {
            let pattern = two(one.clone(), other.clone());
            assert_eq!(matches(pattern.clone(), two(N, T)), i != j);
            assert_eq!(shares(pattern, two(N, T)), i != j);
        }
    }
}

#[test]
fn sharing_gives_a_nonce_variable_a_nonce() {
    for variable in [U, M] {
        for nonce in NONCES.into_iter().chain([X, S]) {
            assert!(shares(variable.clone(), nonce.clone()), "{nonce:?}");
        }
        for other in [A, PUBLIC, PRIVATE, two(N, T), two(X, Y), enc(N, KEY)] {
            assert!(!shares(variable.clone(), other.clone()), "{other:?}");
        }
    }
    assert!(literal::shares(&[], &U, &V), "a foreign one");
}

/// A class is for nonces wherever the nonce variable came into it.
#[test]
fn a_class_with_a_nonce_variable() {
    for other in [A, PUBLIC, two(Y, Y), enc(Y, KEY)] {
        assert!(!shares(two(X, X), two(U, other.clone())));
        assert!(!shares(two(X, X), two(other.clone(), U)));
        let way = |one: Term, two_: Term, three: Term| two(one, two(two_, three));
        assert!(!shares(way(X, X, X), way(Y, U, other.clone())));
        assert!(!shares(way(X, X, X), way(other.clone(), Z, U)));
        assert!(!shares(way(X, Y, X), way(U, Y, other.clone())));
        assert!(!shares(way(X, Y, two(X, Y)), way(U, Z, two(Z, other))));
    }
    assert!(shares(two(X, X), two(U, N)));
    assert!(shares(two(X, X), two(U, V)));
    assert!(!shares(two(X, two(X, X)), two(U, two(N, T))));
    assert!(!shares(two(U, U), two(N, T)));
    assert!(!shares(two(X, X), two(U, two(U, U))));
}

#[test]
fn a_mark_for_a_nonce() {
    let with = |sent| judged(&[enc(M, KEY)], &[], None, sent);
    assert_eq!(with(enc(N, KEY)), ACCEPTED);
    assert_eq!(with(enc(U, KEY)), ACCEPTED);
    assert_eq!(with(enc(X, KEY)), (12, 4, 1));
    assert_eq!(with(enc(PRIVATE, KEY)), (12, 4, 1));
    assert_eq!(with(enc(two(N, T), KEY)), (12, 4, 2));
    assert_eq!(judged(&[enc(U, KEY)], &[], None, enc(N, KEY)), (12, 4, 1));
}

#[test]
fn every_nonce_variable_is_risky() {
    let mut parts = Parts::usual();
    parts.secrets = vec![PRIVATE];
    parts.rules = vec![(None, U)];
    assert_eq!(spot(&parts.bytes()), (12, 3, 0), "no secret is a nonce");
    parts.rules = vec![(Some(U), U)];
    assert_eq!(spot(&parts.bytes()), ACCEPTED);
    parts.rules = vec![(Some(X), U)];
    assert_eq!(spot(&parts.bytes()), (12, 3, 1), "another variable");
    parts.rules = vec![(Some(U), X)];
    assert_eq!(spot(&parts.bytes()), (12, 3, 1));
    parts.rules = vec![(Some(V), U)];
    assert_eq!(spot(&parts.bytes()), (12, 3, 1));
}

/// A subterm with a nonce variable shares an instance with a secret only if the
/// secret has a nonce there.
#[test]
fn nested_secrets() {
    let with = |secret: Term| {
        let mut parts = Parts::usual();
        parts.secrets.push(secret);
        parts.rules = vec![(Some(U), two(U, T))];
        spot(&parts.bytes())
    };
    assert_eq!(with(two(N, T)), (12, 5, 1));
    assert_eq!(with(two(PRIVATE, T)), ACCEPTED);
    assert_eq!(with(two(enc(N, KEY), T)), (10, 3, 0));
    assert_eq!(with(two(T, N)), ACCEPTED);
}

/// What shares no instance with a good pattern does not close.
#[test]
fn open_places() {
    let good = [enc(two(U, S), KEY)];
    let shown = |field: Term| {
        let premise = Some(enc(two(field, Y), KEY));
        judged(&good, &[], premise, Y)
    };
    for field in [A, PUBLIC, two(A, A), enc(A, KEY)] {
        assert_eq!(shown(field).0, 0);
    }
    assert_eq!(shown(T), (12, 4, 4));
    assert_eq!(shown(V), (12, 4, 4));
    assert_eq!(shown(X), (12, 4, 4));
}

#[test]
fn exceptions_for_nonces() {
    let good = [enc(S, KEY)];
    let bad = |field: Term| [enc(two(field, Y), KEY)];
    let sent = |field: Term| enc(two(field, N), KEY);
    let with = |field: Term| judged(&good, &bad(U), None, sent(field));
    assert_eq!(with(A), ACCEPTED);
    assert_eq!(with(two(A, A)), ACCEPTED);
    assert_eq!(with(T), (12, 5, 3));
    let taken = |field: Term| {
        let premise = Some(enc(two(field, Z), KEY));
        judged(&good, &bad(U), premise, Z)
    };
    assert_eq!(taken(T), ACCEPTED);
    assert_eq!(taken(V), ACCEPTED);
    assert_eq!(taken(A), (12, 5, 4));
    assert_eq!(taken(X), (12, 5, 4), "a plain variable is none");
}

#[test]
fn marks_for_nonces_in_bad_patterns() {
    let good = [enc(S, KEY)];
    let bad = [enc(two(X, M), KEY)];
    let sent = |one: Term, other: Term| judged(&good, &bad, None, enc(two(one, other), KEY));
    assert_eq!(sent(N, T), ACCEPTED);
    assert_eq!(sent(T, N), (12, 5, 3));
    assert_eq!(sent(T, two(N, T)), ACCEPTED);
    let shown = |one: Term, other: Term, it: Term| {
        judged(
            &good,
            &bad,
            Some(enc(two(one, other), KEY)),
            enc(it, OPEN_KEY),
        )
    };
    assert_eq!(shown(X, U, U), ACCEPTED);
    assert_eq!(shown(X, U, X), (12, 5, 5));
    assert_eq!(shown(X, Y, Y), (12, 5, 5));
}

/// Tag 6 where 4 may stand, tag 7 where 5 may, 0 to 7.
#[test]
fn number_7() {
    let rule = || vec![(None, enc(N, KEY))];
    let mut parts = Parts::usual();
    parts.rules = rule();
    parts.goods = vec![enc(
        two(Term::PlainNonce(7), two(Term::MarkedNonce(7), S)),
        KEY,
    )];
    parts.bads = parts.goods.clone();
    assert_eq!(spot(&parts.bytes()), (12, 5, 1));
    for (variable, place) in [(Term::PlainNonce(8), 2), (Term::MarkedNonce(8), 2)] {
        parts.goods = vec![enc(two(variable.clone(), S), KEY)];
        assert_eq!(spot(&parts.bytes()), (7, 3, place));
        parts.goods = Parts::usual().goods;
        parts.bads = vec![enc(two(variable, S), KEY)];
        assert_eq!(spot(&parts.bytes()), (7, 4, place));
    }
    parts.bads.clear();
    for variable in [U, M] {
        let mut with_secret = parts.clone();
        with_secret.secrets.push(two(N, variable));
        assert_eq!(spot(&with_secret.bytes()), (7, 3, 2));
    }
    let of = |premise: Term, conclusion: Term| {
        let mut parts = Parts::usual();
        parts.rules = vec![(Some(premise), conclusion)];
        spot(&parts.bytes())
    };
    assert_eq!(of(Term::PlainNonce(7), Term::PlainNonce(7)), ACCEPTED);
    assert_eq!(of(M, N), (7, 4, 0));
    assert_eq!(of(N, two(T, M)), (7, 4, 3));
    assert_eq!(of(Term::PlainNonce(8), N), (7, 4, 0));
}

#[test]
fn tags_10_and_above() {
    for tag in [10, 11, 255] {
        let mut parts = Parts::usual();
        parts.rules = vec![(None, enc(N, KEY))];
        let mut blocks = parts.blocks();
        blocks[4] = block(5, &[], &[tag, 0, 0, 0]);
        assert_eq!(spot(&blocks.concat()), (7, 4, 0));
    }
}

/// Number 8 for a nonce variable as a whole pattern.
#[test]
fn a_nonce_variable_is_no_pattern() {
    assert_eq!(judged(&[M], &[], None, T), (8, 3, 0));
    assert_eq!(judged(&[], &[U], None, T), (8, 3, 0));
}
