//! The walk refuses an attack with any one thing wrong.

mod common;

use attack::{walk, Attack, Derivation, Move, Step};
use common::certificate;
use literal::read::Certificate;
use literal::Term;

const TEXT: &str = "
atom A principal known
atom KA public known partner KAi
atom KAi private unknown partner KA
atom KI public known partner KIi
atom KIi private known partner KI
atom K symmetric unknown
atom N nonce unknown
atom T nonce known
secret N
secret KAi
rule -> {K}KI
rule (?x, h(?n!y)) -> {(?x, N)}K
";
const A: u16 = 0;
const KI: u16 = 3;
const KII: u16 = 4;
const K: u16 = 5;
const N: u16 = 6;
const T: u16 = 7;

fn atom(number: u16) -> Term {
    Term::Atom(number)
}

fn hash() -> Term {
    Term::hash(atom(T))
}

fn pair() -> Term {
    Term::pair(atom(A), hash())
}

/// {K}KI
fn first() -> Term {
    Term::encryption(atom(K), KI)
}

/// {(A, N)}K
fn second() -> Term {
    Term::encryption(Term::pair(atom(A), atom(N)), K)
}

fn right() -> Attack {
    let premise = vec![
        Move::Has(atom(A)),
        Move::Has(atom(T)),
        Move::Hashes(hash()),
        Move::Pairs(pair()),
    ];
    let last = vec![
        Move::Has(first()),
        Move::Has(atom(KII)),
        Move::Decrypts(first()),
        Move::Has(second()),
        Move::Decrypts(second()),
        Move::Right(Term::pair(atom(A), atom(N))),
    ];
    let replacement = vec![(Term::Plain(0), atom(A)), (Term::PlainNonce(0), atom(T))];
    let begin = Step {
        rule: 0,
        replacement: vec![],
        premise: None,
    };
    let go_on = Step {
        rule: 1,
        replacement,
        premise: Some(Derivation { moves: premise }),
    };
    Attack {
        steps: vec![begin, go_on],
        secret: 0,
        derivation: Derivation { moves: last },
    }
}

fn the_certificate() -> Certificate {
    certificate(TEXT)
}

/// What the walk says of the attack after the change.
fn told(change: impl FnOnce(&mut Attack)) -> String {
    let mut attack = right();
    change(&mut attack);
    walk::check(&the_certificate(), &attack).expect_err("a wrong attack")
}

fn premise(attack: &mut Attack) -> &mut Vec<Move> {
    &mut attack.steps[1].premise.as_mut().expect("a premise").moves
}

fn replacement(attack: &mut Attack) -> &mut Vec<(Term, Term)> {
    &mut attack.steps[1].replacement
}

fn last(attack: &mut Attack) -> &mut Vec<Move> {
    &mut attack.derivation.moves
}

#[test]
fn the_right_attack() {
    assert_eq!(walk::check(&the_certificate(), &right()), Ok(()));
}

#[test]
fn every_move_is_needed() {
    let moves = |attack: &mut Attack| (premise(attack).len(), last(attack).len());
    let (of_premise, of_last) = moves(&mut right());
    (0..of_premise).for_each(|place| drop(told(|attack| drop(premise(attack).remove(place)))));
    (0..of_last).for_each(|place| drop(told(|attack| drop(last(attack).remove(place)))));
}

#[test]
fn moves_too_early() {
    let early = told(|attack| last(attack).swap(2, 4));
    assert_eq!(
        early,
        "the secret: move 3: {(0, 6)}5 was not derived before"
    );
    let early = told(|attack| premise(attack).swap(1, 2));
    assert_eq!(early, "step 2: move 2: 7 was not derived before");
}

#[test]
fn without_the_inverse_key() {
    let without = told(|attack| drop(last(attack).remove(1)));
    assert_eq!(without, "the secret: move 2: 4 was not derived before");
    let with_the_key_itself = told(|attack| last(attack)[1] = Move::Has(atom(KI)));
    assert_eq!(
        with_the_key_itself,
        "the secret: move 3: 4 was not derived before"
    );
    let not_had = told(|attack| last(attack)[2] = Move::Has(atom(K)));
    assert_eq!(not_had, "the secret: move 3: the intruder does not have 5");
}

#[test]
fn moves_on_other_forms() {
    let wrong = |step: Move| told(|attack| premise(attack).insert(3, step));
    let form = "step 2: move 4: h(7) is not of that form";
    for make in [
        Move::Left,
        Move::Right,
        Move::Decrypts,
        Move::Reads,
        Move::Pairs,
    ] {
        assert_eq!(wrong(make(hash())), form);
    }
    assert_eq!(
        wrong(Move::Signs(atom(A))),
        "step 2: move 4: 0 is not of that form"
    );
    assert_eq!(
        wrong(Move::Hashes(pair())),
        "step 2: move 4: (0, h(7)) is not of that form"
    );
}

/// With a public key nothing is signed, and so nothing is read.
#[test]
fn signing_with_other_keys() {
    let signed = Term::signature(atom(T), KI);
    let wrong = told(|attack| {
        let moves = [
            Move::Has(atom(KI)),
            Move::Signs(signed.clone()),
            Move::Reads(signed.clone()),
        ];
        premise(attack).splice(2..2, moves);
    });
    assert_eq!(
        wrong,
        "step 2: move 4: sig(7)3 has another atom for its key"
    );
    let put = told(|attack| replacement(attack)[0].1 = signed.clone());
    assert_eq!(put, "step 2: sig(7)3 in sig(7)3 is no message");
}

#[test]
fn encrypting_with_a_nonce() {
    let encrypted = Term::encryption(atom(A), T);
    let wrong = told(|attack| premise(attack).insert(2, Move::Encrypts(encrypted)));
    assert_eq!(wrong, "step 2: move 3: {0}7 has another atom for its key");
}

#[test]
fn replacements() {
    let missing = told(|attack| drop(replacement(attack).pop()));
    assert_eq!(missing, "step 2: 1 variables replaced, the rule has 2");
    let twice = told(|attack| replacement(attack)[1].0 = Term::Plain(0));
    assert_eq!(twice, "step 2: ?n!0 is not replaced");
    let more = told(|attack| replacement(attack).push((Term::Plain(1), atom(A))));
    assert_eq!(more, "step 2: 3 variables replaced, the rule has 2");
    let no_nonce = told(|attack| replacement(attack)[1].1 = pair());
    assert_eq!(no_nonce, "step 2: ?n!0 is for a nonce, (0, h(7)) is none");
    let principal = told(|attack| replacement(attack)[1].1 = atom(A));
    assert_eq!(principal, "step 2: ?n!0 is for a nonce, 0 is none");
}

#[test]
fn what_is_no_message() {
    let put = |message: Term| told(|attack| replacement(attack)[0].1 = message);
    assert_eq!(put(atom(8)), "step 2: 8 in 8 is no message");
    assert_eq!(put(atom(999)), "step 2: 999 in 999 is no message");
    let unlisted = Term::encryption(atom(A), 1_000);
    assert_eq!(put(unlisted), "step 2: {0}1000 in {0}1000 is no message");
    let nonce = Term::pair(atom(A), Term::encryption(atom(A), T));
    assert_eq!(put(nonce), "step 2: {0}7 in (0, {0}7) is no message");
    assert_eq!(put(Term::Plain(0)), "step 2: ?0 in ?0 is no message");
}

#[test]
fn foreign_atoms_are_had_and_are_nonces() {
    let mut attack = right();
    replacement(&mut attack)[1].1 = atom(1_000);
    let hash = Term::hash(atom(1_000));
    premise(&mut attack).splice(
        1..,
        [
            Move::Has(atom(1_000)),
            Move::Hashes(hash.clone()),
            Move::Pairs(Term::pair(atom(A), hash)),
        ],
    );
    assert_eq!(walk::check(&the_certificate(), &attack), Ok(()));
}

#[test]
fn other_ends() {
    let other = told(|attack| attack.secret = 1);
    assert_eq!(other, "the secret: the moves do not end with 2");
    assert_eq!(told(|attack| attack.secret = 2), "there is no secret 2");
    let premise = told(|attack| {
        let other = Term::pair(atom(T), hash());
        premise(attack)[3] = Move::Pairs(other);
    });
    assert_eq!(premise, "step 2: the moves do not end with (0, h(7))");
    let nothing = told(|attack| last(attack).clear());
    assert_eq!(nothing, "the secret: the moves do not end with 6");
}

#[test]
fn premises_and_rules() {
    let none = told(|attack| attack.steps[1].premise = None);
    assert_eq!(none, "step 2: no derivation of the rule's premise");
    let some = told(|attack| attack.steps[0].premise = Some(Derivation::default()));
    assert_eq!(some, "step 1: a derivation, and the rule has no premise");
    assert_eq!(
        told(|attack| attack.steps[0].rule = 2),
        "step 1: there is no rule 2"
    );
}

/// A conclusion is had from its step on, not before.
#[test]
fn conclusions_before_their_step() {
    let mut attack = right();
    let pair = Term::pair(first(), hash());
    replacement(&mut attack)[0].1 = first();
    premise(&mut attack)[0] = Move::Has(first());
    premise(&mut attack)[3] = Move::Pairs(pair);
    let conclusion = Term::encryption(Term::pair(first(), atom(N)), K);
    let opened = Term::pair(first(), atom(N));
    last(&mut attack).splice(
        3..,
        [
            Move::Has(conclusion.clone()),
            Move::Decrypts(conclusion),
            Move::Right(opened),
        ],
    );
    assert_eq!(walk::check(&the_certificate(), &attack), Ok(()));
    attack.steps.swap(0, 1);
    let wrong = walk::check(&the_certificate(), &attack).expect_err("a step too early");
    assert_eq!(wrong, "step 1: move 1: the intruder does not have {5}3");
}
