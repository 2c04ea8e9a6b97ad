//! Sharing against a naive unifier that carries a substitution, and matching
//! against sharing with the term's variables frozen.

use generate::pairs::{atoms, small_term_pair, term_pair};
use literal::term::{is_one_nonce, subterms};
use literal::{common_instance, decode, encode, Filling, Term};
use std::time::Instant;

fn shares(left: &Term, right: &Term) -> bool {
    literal::shares(&atoms(), left, right)
}

fn matches(pattern: &Term, term: &Term) -> bool {
    literal::matches(&atoms(), pattern, term)
}

/// Variables of the right side get other numbers.
fn moved_apart(term: &Term) -> Term {
    match term {
        Term::Plain(n) => Term::Plain(n + 100),
        Term::Marked(n) => Term::Marked(n + 100),
        Term::PlainNonce(n) => Term::PlainNonce(n + 100),
        Term::MarkedNonce(n) => Term::MarkedNonce(n + 100),
        _ => term.with_parts(moved_apart),
    }
}

type Substitution = Vec<(Term, Term)>;

fn replaced(term: &Term, variable: &Term, by: &Term) -> Term {
    if term == variable {
        return by.clone();
    }
    term.with_parts(|part| replaced(part, variable, by))
}

fn contains(term: &Term, variable: &Term) -> bool {
    term == variable || term.parts().any(|part| contains(part, variable))
}

/// Terms above this size are not worth the naive way.
const TOO_LARGE: usize = 3_000;

/// Solves the equations one by one, replacing everywhere at once.
fn naive_unifier(left: &Term, right: &Term) -> Option<Substitution> {
    naive_answer(left, right).expect("small terms stay small")
}

/// The same, or an error where the terms grow too large.
fn naive_answer(left: &Term, right: &Term) -> Result<Option<Substitution>, ()> {
    let mut equations = vec![(left.clone(), right.clone())];
    let mut solved: Substitution = Vec::new();
    while let Some((l, r)) = equations.pop() {
        if l.size() + r.size() > TOO_LARGE {
            return Err(());
        }
        match (&l, &r) {
            _ if l == r => {}
            _ if l.is_variable() || r.is_variable() => {
                let Some((v, body)) = solved_for(&l, &r) else {
                    return Ok(None);
                };
                for (a, b) in &mut equations {
                    *a = replaced(a, v, body);
                    *b = replaced(b, v, body);
                }
                for (_, b) in &mut solved {
                    *b = replaced(b, v, body);
                }
                solved.push((v.clone(), body.clone()));
            }
            (Term::Pair(a, b), Term::Pair(c, d)) => {
                equations.push(((**a).clone(), (**c).clone()));
                equations.push(((**b).clone(), (**d).clone()));
            }
            (Term::Encryption(a, k), Term::Encryption(b, k2))
            | (Term::Signature(a, k), Term::Signature(b, k2))
                if k == k2 =>
            {
                equations.push(((**a).clone(), (**b).clone()));
            }
            (Term::Hash(a), Term::Hash(b)) => equations.push(((**a).clone(), (**b).clone())),
            _ => return Ok(None),
        }
    }
    Ok(Some(solved))
}

/// Which of two different terms is a variable, and what it must be: any term
/// without it, for a nonce variable a nonce atom or a nonce variable.
fn solved_for<'a>(l: &'a Term, r: &'a Term) -> Option<(&'a Term, &'a Term)> {
    let may_be = |variable: &Term, body: &Term| match variable {
        Term::Plain(_) | Term::Marked(_) => !contains(body, variable),
        Term::PlainNonce(_) | Term::MarkedNonce(_) => is_one_nonce(&atoms(), body),
        _ => false,
    };
    [(l, r), (r, l)]
        .into_iter()
        .find(|(v, body)| may_be(v, body))
}

/// The message that a solution makes, a foreign atom for each variable left.
fn message(term: &Term, solved: &Substitution) -> Term {
    let mut whole = term.clone();
    for (variable, body) in solved {
        whole = replaced(&whole, variable, body);
    }
    with_atoms(&whole, FOREIGN)
}

/// Numbers that are no nonces', and foreign ones.
const NO_NONCES: u16 = 300;
const FOREIGN: u16 = 1_000;

/// Each variable as an atom of its own, for one nonce a foreign one.
fn frozen(term: &Term) -> Term {
    with_atoms(term, NO_NONCES)
}

/// Each variable as an atom of its own: a nonce variable as a foreign one, the
/// others from this number on.
fn with_atoms(term: &Term, others: u16) -> Term {
    match term {
        Term::Plain(n) => Term::Atom(others + *n as u16),
        Term::Marked(n) => Term::Atom(others + 300 + *n as u16),
        Term::PlainNonce(n) => Term::Atom(2_000 + *n as u16),
        Term::MarkedNonce(n) => Term::Atom(3_000 + *n as u16),
        _ => term.with_parts(|part| with_atoms(part, others)),
    }
}

#[test]
fn sharing_agrees_with_a_naive_unifier() {
    let mut yes = 0;
    for seed in 0..100_000 {
        let (left, right) = small_term_pair(seed);
        let right_apart = moved_apart(&right);
        let solution = naive_unifier(&left, &right_apart);
        assert_eq!(shares(&left, &right), solution.is_some(), "seed {seed}");
        assert_eq!(shares(&right, &left), solution.is_some(), "seed {seed}");
        if let Some(solved) = solution {
            yes += 1;
            let common = message(&left, &solved);
            assert_eq!(common, message(&right_apart, &solved), "seed {seed}");
            assert!(
                matches(&left, &common) && matches(&right, &common),
                "seed {seed}"
            );
        }
    }
    println!("{yes} of 100000 small pairs share an instance");
    assert!((20_000..80_000).contains(&yes));
}

/// Also deep terms and chains, as far as the naive way can go.
#[test]
fn sharing_agrees_with_a_naive_unifier_on_deep_terms() {
    let (mut yes, mut no, mut left_out) = (0, 0, 0);
    for seed in 0..20_000 {
        let (pattern, term) = term_pair(seed);
        match naive_answer(&pattern, &moved_apart(&term)) {
            Err(()) => left_out += 1,
            Ok(answer) => {
                assert_eq!(shares(&pattern, &term), answer.is_some(), "seed {seed}");
                *(if answer.is_some() { &mut yes } else { &mut no }) += 1;
            }
        }
    }
    println!("{yes} yes, {no} no, {left_out} too large for the naive way");
    assert!(yes > 5_000 && no > 5_000 && left_out < 2_000);
}

/// Matching is sharing once the term's variables are atoms.
#[test]
fn matching_agrees_with_sharing_of_frozen_terms() {
    let mut yes = 0;
    for seed in 0..50_000 {
        let (pattern, term) = term_pair(seed);
        let expected = shares(&pattern, &frozen(&term));
        assert_eq!(matches(&pattern, &term), expected, "seed {seed}");
        assert!(!expected || shares(&pattern, &term), "seed {seed}");
        yes += u32::from(expected);
    }
    println!("{yes} of 50000 pairs match");
    assert!(yes > 5_000);
}

#[test]
fn no_pair_takes_long() {
    let (mut yes, mut largest) = (0, 0);
    for seed in 0..50_000 {
        let (pattern, term) = term_pair(seed);
        largest = largest.max(pattern.size()).max(term.size());
        let start = Instant::now();
        yes += u32::from(shares(&pattern, &term));
        assert!(start.elapsed().as_secs() < 5, "seed {seed}");
    }
    println!("{yes} of 50000 pairs share an instance, the largest has {largest} entries");
    assert_eq!(largest, 63);
    assert!((10_000..40_000).contains(&yes));
}

#[test]
fn terms_come_back_from_their_entries() {
    for seed in 0..20_000 {
        let (pattern, term) = term_pair(seed);
        let pair = generate::pair(seed);
        assert_eq!(decode(&pair.pattern), Some(pattern.clone()));
        assert_eq!(decode(&pair.term), Some(term.clone()));
        assert_eq!(encode(&pattern).len(), 4 * pattern.size());
        let cut = &pair.term[..pair.term.len() - 4];
        assert_eq!(decode(cut), None);
        assert_eq!(
            decode(&[pair.term.clone(), vec![4, 0, 0, 0]].concat()),
            None
        );
    }
}

/// Nonce variables decide: many pairs share or match only if they are taken for
/// ordinary ones, and many do so though they are not.
#[test]
fn nonce_variables_decide() {
    let (mut with, mut shared, mut not_shared, mut matched, mut not_matched) = (0, 0, 0, 0, 0);
    for seed in 0..20_000 {
        let (pattern, term) = term_pair(seed);
        let ordinary = (ordinary(&pattern), ordinary(&term));
        if ordinary == (pattern.clone(), term.clone()) {
            assert_eq!(
                shares(&pattern, &term),
                literal::shares(&[], &pattern, &term)
            );
            continue;
        }
        with += 1;
        let answers = [shares(&pattern, &term), matches(&pattern, &term)];
        let otherwise = [
            shares(&ordinary.0, &ordinary.1),
            matches(&ordinary.0, &ordinary.1),
        ];
        assert!(
            answers.iter().zip(&otherwise).all(|(a, b)| !a || *b),
            "seed {seed}"
        );
        shared += u32::from(answers[0]);
        matched += u32::from(answers[1]);
        not_shared += u32::from(otherwise[0] && !answers[0]);
        not_matched += u32::from(otherwise[1] && !answers[1]);
    }
    println!(
        "{with} pairs with nonce variables: {shared} share, {not_shared} not because of them; \
         {matched} match, {not_matched} not because of them"
    );
    assert!(with > 5_000 && shared > 1_000 && not_shared > 500);
    assert!(matched > 300 && not_matched > 300);
}

/// Hashes and signatures decide: many pairs have them, share and match so, and
/// many do so only if a signature's key, or what kind of symbol it is, is left out.
#[test]
fn hashes_and_signatures_decide() {
    let (mut with, mut shared, mut matched, mut by_keys, mut by_kinds) = (0, 0, 0, 0, 0);
    for seed in 0..20_000 {
        let (pattern, term) = term_pair(seed);
        let all_hashes = (all_hashes(&pattern), all_hashes(&term));
        if pattern == all_hashes.0 && term == all_hashes.1 {
            continue;
        }
        with += 1;
        let answer = shares(&pattern, &term);
        shared += u32::from(answer);
        matched += u32::from(matches(&pattern, &term));
        let one_key = (one_signing_key(&pattern), one_signing_key(&term));
        by_keys += u32::from(!answer && shares(&one_key.0, &one_key.1));
        by_kinds += u32::from(!answer && shares(&all_hashes.0, &all_hashes.1));
    }
    println!(
        "{with} pairs with signatures: {shared} share, {matched} match; {by_keys} do not share \
         because of keys, {by_kinds} because of keys or hashes"
    );
    assert!(with > 5_000 && shared > 1_000 && matched > 300);
    assert!(by_keys > 50 && by_kinds > 200);
}

/// Every signature with the same key.
fn one_signing_key(term: &Term) -> Term {
    match term {
        Term::Signature(message, _) => Term::signature(one_signing_key(message), 3),
        _ => term.with_parts(one_signing_key),
    }
}

/// Every signature as a hash.
fn all_hashes(term: &Term) -> Term {
    match term {
        Term::Signature(message, _) => Term::hash(all_hashes(message)),
        _ => term.with_parts(all_hashes),
    }
}

/// Every nonce variable as an ordinary one of a number of its own.
fn ordinary(term: &Term) -> Term {
    match term {
        Term::PlainNonce(n) => Term::Plain(n + 8),
        Term::MarkedNonce(n) => Term::Marked(n + 8),
        _ => term.with_parts(ordinary),
    }
}

/// An example of a common instance is an instance of both terms, without
/// variables, and there is one just where they share. Only a chain's is too long.
#[test]
fn examples_of_common_instances() {
    let filling = Filling {
        message: &Term::pair(Term::Atom(0), Term::Atom(6)),
        nonce: &Term::Atom(7),
    };
    let (mut found, mut too_long) = (0, 0);
    for seed in 0..20_000 {
        let (pattern, term) = term_pair(seed);
        match common_instance(&atoms(), &pattern, &term, filling, TOO_LARGE) {
            Some(message) => {
                assert!(matches(&pattern, &message), "seed {seed}");
                assert!(matches(&term, &message), "seed {seed}");
                assert!(!subterms(&message).iter().any(|p| p.subterm.is_variable()));
                assert!(message.size() <= TOO_LARGE);
                found += 1;
            }
            None if shares(&pattern, &term) => too_long += 1,
            None => {}
        }
    }
    println!("{found} examples, {too_long} too long");
    assert!(found > 5_000 && too_long > 0 && too_long < found / 10);
}
