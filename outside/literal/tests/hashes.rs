//! Document 02, No. 7: hashes and signatures, by hand.

mod common;

use common::*;
use literal::term::{places, subterms};
use literal::{decode, encode, Term};

const PRIVATE: Term = Term::Atom(3);
const U: Term = Term::PlainNonce(0);
/// A's keys and the intruder's.
const KEY: u16 = 2;
const SIGNS: u16 = 3;
const OPEN_KEY: u16 = 4;
const OPEN_SIGNS: u16 = 5;
const ACCEPTED: (u32, u32, u32) = (0, 0, 0);

/// The good {*s}2 and this rule.
fn usual(premise: Option<Term>, conclusion: Term) -> (u32, u32, u32) {
    judged(&[enc(S, KEY)], &[], premise, conclusion)
}

/// N, 3 and these secrets, the good {*s}2 and the rule to T.
fn with_secrets(more: &[Term]) -> (u32, u32, u32) {
    let mut parts = Parts::usual();
    parts.secrets.extend(more.to_vec());
    parts.rules = vec![(None, T)];
    spot(&parts.bytes())
}

/// The secrets N, 3 and this one, and this rule.
fn with_secret(secret: Term, premise: Option<Term>, conclusion: Term) -> (u32, u32, u32) {
    let mut parts = Parts::usual();
    parts.secrets.push(secret);
    parts.rules = vec![(premise, conclusion)];
    spot(&parts.bytes())
}

#[test]
fn entries() {
    let term = sig(two(hash(N), X), SIGNS);
    let bytes = encode(&term);
    let first = [9, 0, 3, 0, 2, 0, 0, 0, 8, 0, 0, 0, 1, 0, 6, 0, 4, 0, 0, 0];
    assert_eq!(bytes, first);
    assert_eq!(decode(&bytes), Some(term));
    assert_eq!(decode(&bytes[..16]), None);
    assert_eq!(decode(&[8, 0, 1, 0, 1, 0, 0, 0]), None);
    assert_eq!(decode(&[8, 0, 0, 0]), None);
    assert_eq!(decode(&[9, 0, 3, 0]), None);
}

/// The hash is one, nothing below it is; below a signature all is as before.
#[test]
fn which_entries_are_places() {
    let term = two(
        sig(two(hash(two(N, sig(X, SIGNS))), T), SIGNS),
        hash(hash(enc(Y, KEY))),
    );
    let entries: Vec<usize> = places(&term).iter().map(|place| place.entry).collect();
    assert_eq!(entries, [0, 1, 2, 3, 8, 9]);
    let all: Vec<usize> = subterms(&term).iter().map(|s| s.entry).collect();
    assert_eq!(all, (0..term.size()).collect::<Vec<_>>());
}

#[test]
fn nothing_below_a_hash_is_risky() {
    for inner in [N, X, two(N, X), sig(N, SIGNS), enc(N, OPEN_KEY), hash(N)] {
        assert_eq!(usual(None, hash(inner)), ACCEPTED);
    }
    assert_eq!(usual(None, two(hash(two(N, X)), N)), (12, 4, 5));
    assert_eq!(usual(None, two(hash(two(N, X)), Y)), (12, 4, 5));
}

#[test]
fn nothing_below_a_hash_is_open() {
    assert_eq!(usual(Some(hash(X)), X), (12, 4, 2));
    assert_eq!(usual(Some(hash(sig(X, OPEN_SIGNS))), X), (12, 4, 3));
    assert_eq!(usual(Some(hash(N)), T), ACCEPTED);
    assert_eq!(usual(Some(two(hash(N), N)), T), (15, 4, 3));
    assert_eq!(usual(Some(hash(X)), hash(X)), ACCEPTED);
}

#[test]
fn below_a_signature_all_is_as_before() {
    assert_eq!(usual(None, sig(N, SIGNS)), (12, 4, 1));
    assert_eq!(usual(None, sig(N, OPEN_SIGNS)), (12, 4, 1));
    assert_eq!(usual(None, sig(enc(N, KEY), SIGNS)), ACCEPTED);
    assert_eq!(usual(None, enc(sig(N, SIGNS), KEY)), ACCEPTED);
    assert_eq!(usual(Some(sig(X, SIGNS)), X), ACCEPTED);
    assert_eq!(usual(Some(sig(enc(X, KEY), SIGNS)), X), (12, 4, 3));
    assert_eq!(usual(Some(enc(sig(X, SIGNS), KEY)), X), (12, 4, 3));
    assert_eq!(usual(Some(sig(N, SIGNS)), T), (15, 4, 1));
}

#[test]
fn a_signing_key_is_no_place() {
    assert_eq!(usual(None, sig(T, SIGNS)), ACCEPTED);
    assert_eq!(usual(Some(sig(T, SIGNS)), PRIVATE), (12, 4, 2));
    assert_eq!(usual(Some(sig(T, SIGNS)), sig(T, SIGNS)), ACCEPTED);
}

/// A signature under a good pattern's key is no hat and closes nothing.
#[test]
fn a_signature_is_no_hat() {
    let mut parts = Parts::usual();
    parts.atoms[2][1] = 0;
    parts.secrets.push(Term::Atom(KEY));
    parts.goods = vec![enc(S, SIGNS)];
    let mut judged = |premise, conclusion| {
        parts.rules = vec![(premise, conclusion)];
        spot(&parts.bytes())
    };
    assert_eq!(judged(None, enc(N, SIGNS)), ACCEPTED);
    assert_eq!(judged(None, sig(N, SIGNS)), (12, 5, 1));
    assert_eq!(judged(Some(enc(X, SIGNS)), X), (12, 5, 2));
    assert_eq!(judged(Some(sig(X, SIGNS)), X), ACCEPTED);
    let mut patterns = Parts::usual();
    patterns.rules = vec![(None, T)];
    for root in [hash(S), sig(S, SIGNS)] {
        patterns.goods = vec![root.clone()];
        assert_eq!(spot(&patterns.bytes()), (8, 3, 0));
        patterns.goods.clear();
        patterns.bads = vec![root];
        assert_eq!(spot(&patterns.bytes()), (8, 3, 0));
        patterns.bads.clear();
    }
}

#[test]
fn number_10() {
    assert_eq!(with_secrets(&[hash(N)]), ACCEPTED);
    assert_eq!(with_secrets(&[hash(T)]), (10, 3, 0));
    assert_eq!(with_secrets(&[hash(two(N, T))]), (10, 3, 0));
    assert_eq!(with_secrets(&[hash(two(N, T)), two(N, T)]), ACCEPTED);
    assert_eq!(with_secrets(&[sig(N, OPEN_SIGNS)]), ACCEPTED);
    assert_eq!(with_secrets(&[sig(T, SIGNS)]), ACCEPTED);
    assert_eq!(with_secrets(&[sig(T, OPEN_SIGNS)]), (10, 3, 0));
    assert_eq!(with_secrets(&[hash(sig(T, SIGNS))]), (10, 3, 0));
    assert_eq!(with_secrets(&[enc(hash(T), OPEN_KEY)]), (10, 3, 0));
    let mut parts = Parts::usual();
    parts.atoms[2][1] = 0;
    parts.atoms[3][1] = 1;
    parts.secrets = vec![Term::Atom(KEY), sig(T, SIGNS)];
    parts.goods.clear();
    parts.rules = vec![(None, T)];
    assert_eq!(spot(&parts.bytes()), (10, 2, 0), "the inverse is no help");
}

/// A hash or a signature is a risky place if it shares an instance with a secret.
#[test]
fn listed_hashes_and_signatures() {
    let h = |premise, conclusion| with_secret(hash(N), premise, conclusion);
    assert_eq!(h(None, hash(N)), (12, 5, 0));
    assert_eq!(h(None, hash(X)), (12, 5, 0));
    assert_eq!(h(None, hash(T)), ACCEPTED);
    assert_eq!(h(Some(X), hash(X)), (12, 5, 1), "its message is not it");
    assert_eq!(h(Some(hash(X)), hash(X)), ACCEPTED);
    assert_eq!(h(None, enc(hash(N), KEY)), ACCEPTED);
    assert_eq!(h(Some(hash(N)), T), (15, 5, 0));
    let s = |premise, conclusion| with_secret(sig(T, SIGNS), premise, conclusion);
    assert_eq!(s(None, sig(T, SIGNS)), (12, 5, 0));
    assert_eq!(s(None, sig(T, OPEN_SIGNS)), ACCEPTED);
    assert_eq!(s(Some(sig(X, SIGNS)), sig(X, SIGNS)), ACCEPTED);
    assert_eq!(s(Some(X), sig(X, SIGNS)), (12, 5, 1));
}

#[test]
fn matching_and_sharing() {
    let matches = |pattern: Term, term: Term| literal::matches(&[], &pattern, &term);
    let shares = |one: Term, other: Term| literal::shares(&[], &one, &other);
    assert!(matches(hash(X), hash(N)) && shares(hash(X), hash(N)));
    assert!(!matches(hash(N), hash(X)) && shares(hash(N), hash(X)));
    assert!(!matches(hash(N), hash(T)) && !shares(hash(N), hash(T)));
    assert!(matches(sig(X, 3), sig(N, 3)) && shares(sig(X, 3), sig(N, 3)));
    assert!(!matches(sig(X, 3), sig(N, 5)) && !shares(sig(X, 3), sig(N, 5)));
    for other in [enc(X, 3), sig(X, 3), two(X, X)] {
        assert!(!shares(hash(X), other.clone()) && !matches(hash(X), other));
    }
    assert!(!shares(sig(X, 3), enc(X, 3)) && !matches(sig(X, 3), enc(X, 3)));
    for one in [hash(N), sig(N, 3)] {
        assert!(matches(X, one.clone()) && shares(X, one.clone()));
        assert!(!matches(U, one.clone()) && !shares(U, one.clone()));
        assert!(!shares(two(X, X), two(one.clone(), U)));
    }
    assert!(!shares(two(X, X), two(Y, hash(Y))));
    assert!(!shares(two(X, X), two(Y, sig(Y, 3))));
    assert!(matches(hash(two(X, X)), hash(two(N, N))));
    assert!(!matches(hash(two(X, X)), hash(two(N, T))));
}

/// A mark below a hash: of a good pattern it covers nothing, of a bad one it
/// stands below what is above it.
#[test]
fn marks_below_a_hash() {
    let good = [enc(S, KEY)];
    let hidden = [enc(hash(S), KEY)];
    assert_eq!(judged(&hidden, &[], None, enc(hash(N), KEY)), ACCEPTED);
    assert_eq!(judged(&hidden, &[], None, enc(N, KEY)), (12, 4, 1));
    assert_eq!(judged(&good, &hidden, None, enc(X, KEY)), (12, 5, 1));
    assert_eq!(judged(&good, &hidden, None, enc(N, KEY)), ACCEPTED);
    let beside = [enc(two(hash(S), X), KEY)];
    let sent = |one: Term, other: Term| judged(&good, &beside, None, enc(two(one, other), KEY));
    assert_eq!(sent(hash(T), N), ACCEPTED, "a marked one");
    assert_eq!(sent(X, N), (12, 5, 2));
    let taken = |it: Term| judged(&good, &beside, Some(enc(two(hash(X), Y), KEY)), it);
    assert_eq!(taken(Y), (12, 5, 5), "a marked one opens at its marks only");
    assert_eq!(taken(hash(X)), ACCEPTED);
}

/// Tag 8 with value 0, tag 9 with a private key's number.
#[test]
fn number_7() {
    let with_entry = |entry: [u8; 4]| {
        let mut blocks = Parts::usual().blocks();
        blocks.push(block(5, &[], &[&entry[..], &[1, 0, 7, 0]].concat()));
        spot(&blocks.concat())
    };
    assert_eq!(with_entry([8, 0, 0, 0]), ACCEPTED);
    for wrong in [[8, 0, 1, 0], [8, 0, 0, 1], [8, 1, 0, 0]] {
        assert_eq!(with_entry(wrong), (7, 4, 0));
    }
    for key in 0..8 {
        let expected = if [3, 5].contains(&key) {
            ACCEPTED
        } else {
            (7, 4, 0)
        };
        assert_eq!(with_entry([9, 0, key, 0]), expected, "{key}");
    }
    assert_eq!(with_entry([9, 0, 8, 0]), (7, 4, 0));
    assert_eq!(with_entry([9, 0, 3, 1]), (7, 4, 0));
    assert_eq!(with_entry([9, 1, 3, 0]), (7, 4, 0));
}

/// Keys of the second atom block sign too.
#[test]
fn keys_of_a_second_block() {
    let mut parts = Parts::joined();
    for (key, expected) in [
        (125, ACCEPTED),
        (126, (7, 7, 0)),
        (127, ACCEPTED),
        (128, (7, 7, 0)),
        (129, (7, 7, 0)),
        (130, (7, 7, 0)),
    ] {
        parts.rules = vec![(None, sig(T, key))];
        assert_eq!(spot(&parts.bytes()), expected, "{key}");
    }
    parts.secrets.push(sig(T, 127));
    parts.rules = vec![(None, sig(T, 125))];
    assert_eq!(spot(&parts.bytes()), ACCEPTED);
    parts.rules = vec![(None, sig(T, 127))];
    assert_eq!(spot(&parts.bytes()), (12, 8, 0));
}

#[test]
fn longest_terms() {
    let signed = |count: usize, inner: Term| (0..count).fold(inner, |t, _| sig(t, SIGNS));
    assert_eq!(usual(None, signed(62, N)), (12, 4, 62));
    assert_eq!(usual(Some(signed(62, X)), signed(62, X)), ACCEPTED);
    assert_eq!(usual(Some(signed(62, N)), T), (15, 4, 62));
    let hashed = (0..62).fold(N, |t, _| hash(t));
    assert_eq!(usual(Some(hashed.clone()), hashed), ACCEPTED);
    let late = two(hash(signed(59, N)), N);
    assert_eq!(late.size(), 63);
    assert_eq!(usual(None, late), (12, 4, 62));
}
