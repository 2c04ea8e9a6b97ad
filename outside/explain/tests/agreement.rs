//! The reasons are those of the checker: a mismatch is found just where a term does
//! not match, and a clash only where two terms share no instance.

use explain::mismatch::{clash, exchanged, mended_by_exchange, mismatch, Why};
use explain::source::down;
use generate::pairs::{atoms, term_pair};
use literal::{matches, shares};

#[test]
fn mismatches() {
    let atoms = atoms();
    let mut found = [0; 3];
    for seed in 0..50_000 {
        let (pattern, term) = term_pair(seed);
        let mismatch = mismatch(&atoms, &pattern, &term);
        assert_eq!(
            mismatch.is_none(),
            matches(&atoms, &pattern, &term),
            "seed {seed}"
        );
        let Some(mismatch) = mismatch else { continue };
        let (one, other) = (down(&pattern, &mismatch.path), down(&term, &mismatch.path));
        match mismatch.why {
            Why::Symbol => {
                assert!(!one.is_variable() && one.symbol() != other.symbol());
                found[0] += 1;
            }
            Why::StandsFor(first) => {
                assert!(one.is_variable() && first != *other);
                found[1] += 1;
            }
            Why::NoNonce => {
                assert!(one.is_nonce_variable());
                found[2] += 1;
            }
        }
    }
    println!("{found:?}");
    assert!(found.iter().all(|count| *count > 500), "{found:?}");
}

#[test]
fn clashes() {
    let atoms = atoms();
    let (mut told, mut untold) = (0, 0);
    for seed in 0..50_000 {
        let (pattern, term) = term_pair(seed);
        match (
            clash(&atoms, &pattern, &term),
            shares(&atoms, &pattern, &term),
        ) {
            (Some(path), shared) => {
                assert!(!shared, "seed {seed}");
                let (one, other) = (down(&pattern, &path), down(&term, &path));
                assert_ne!(one.symbol(), other.symbol());
                told += 1;
            }
            (None, false) => untold += 1,
            (None, true) => {}
        }
    }
    println!("{told} clashes told, {untold} by what variables stand for");
    assert!(told > 5_000 && untold > 100);
}

/// With the halves exchanged the pattern does match, and exchanging twice is nothing.
#[test]
fn exchanges() {
    let atoms = atoms();
    let mut mended = 0;
    for seed in 0..50_000 {
        let (pattern, term) = term_pair(seed);
        let Some(found) = mismatch(&atoms, &pattern, &term) else {
            continue;
        };
        let Some(path) = mended_by_exchange(&atoms, &pattern, &term, &found) else {
            continue;
        };
        let other = exchanged(&pattern, &path);
        assert!(matches(&atoms, &other, &term), "seed {seed}");
        assert_eq!(exchanged(&other, &path), pattern, "seed {seed}");
        mended += 1;
    }
    println!("{mended} patterns mended");
    assert!(mended > 100);
}
