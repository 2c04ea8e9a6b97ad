//! Document 02, No. 1: a second block of atoms, by hand.

mod common;

use common::*;
use literal::{line, seal, verdict, Term};

/// Two atom blocks, three secrets, two goods, and the rule to {129}126.
fn joined() -> Vec<Vec<u8>> {
    let mut parts = Parts::joined();
    parts.rules = vec![(None, enc(Term::Atom(129), 126))];
    parts.blocks()
}

fn answer(blocks: &[Vec<u8>]) -> (u32, u32, u32) {
    spot(&blocks.concat())
}

/// Changes a block and seals it again.
fn change(blocks: &mut [Vec<u8>], number: usize, how: impl Fn(&mut [u8])) {
    how(&mut blocks[number]);
    seal(&mut blocks[number]).unwrap();
}

/// With one block changed and sealed again.
fn changed(number: usize, how: impl Fn(&mut [u8])) -> (u32, u32, u32) {
    let mut blocks = joined();
    change(&mut blocks, number, how);
    answer(&blocks)
}

/// With this rule.
fn with_rule(premise: Option<Term>, conclusion: Term) -> (u32, u32, u32) {
    let mut parts = Parts::joined();
    parts.rules = vec![(premise, conclusion)];
    spot(&parts.bytes())
}

/// Full blocks of atoms: nonces, but for symmetric keys at these numbers.
fn full(keys: [u8; 2]) -> Parts {
    let mut parts = Parts::usual();
    parts.atoms.resize(252, [2, 0, 0]);
    for key in keys {
        parts.atoms[key as usize] = [5, 0, key];
    }
    parts
}

/// A change of entry i's kind, known byte or partner.
fn set(i: usize, byte: usize, value: u8) -> impl Fn(&mut [u8]) {
    move |block| block[4 + 4 * i + byte] = value
}

const ACCEPTED: (u32, u32, u32) = (0, 0, 0);

#[test]
fn a_rule_with_atoms_of_the_second_block() {
    let file = joined().concat();
    let expected = b"accepted blocks=8 secrets=3 good=2 bad=0 rules=1\n";
    assert_eq!(line(&verdict(&file)), expected);
    let (nonce, key) = (Term::Atom(129), Term::Atom(128));
    assert_eq!(with_rule(None, enc(nonce.clone(), 128)), ACCEPTED);
    assert_eq!(with_rule(None, enc(nonce.clone(), 130)), (12, 7, 1));
    assert_eq!(with_rule(None, enc(nonce.clone(), 4)), (12, 7, 1));
    assert_eq!(with_rule(None, two(T, key.clone())), (12, 7, 2));
    assert_eq!(with_rule(Some(enc(X, 128)), X), (12, 7, 2));
    assert_eq!(with_rule(Some(enc(X, 130)), X), ACCEPTED);
    assert_eq!(with_rule(Some(nonce), key), (15, 7, 0));
    assert_eq!(with_rule(None, Term::Atom(3)), ACCEPTED);
}

#[test]
fn number_2_and_3_of_the_second() {
    let mut blocks = joined();
    blocks[1][510] ^= 1;
    assert_eq!(answer(&blocks), (2, 1, 0));
    assert_eq!(changed(1, |b| b[0] = 6), (6, 0, 125));
    assert_eq!(changed(0, |b| b[0] = 2), (3, 0, 0));
    let mut first = Parts::usual();
    first.rules = vec![(None, T)];
    let mut blocks = first.blocks();
    change(&mut blocks, 1, |b| b[0] = 1);
    change(&mut blocks, 0, |b| b[0] = 5);
    assert_eq!(answer(&blocks), (3, 0, 0));
}

#[test]
fn the_first_must_be_full() {
    let mut parts = Parts::usual();
    parts.rules = vec![(None, enc(N, 2))];
    let with_second = |parts: &Parts| {
        let mut blocks = parts.blocks();
        blocks.insert(1, atom_block(&[[2, 0, 0]]));
        blocks
    };
    assert_eq!(answer(&with_second(&parts)), (5, 1, 0));
    parts.atoms.resize(125, [2, 0, 0]);
    assert_eq!(answer(&parts.blocks()), ACCEPTED);
    assert_eq!(answer(&with_second(&parts)), (5, 1, 0));
    let mut blocks = with_second(&parts);
    blocks[1][500] = 1;
    assert_eq!(answer(&blocks), (2, 1, 0));
    change(&mut blocks, 0, set(0, 0, 9));
    assert_eq!(answer(&blocks), (2, 1, 0));
    change(&mut blocks, 1, |b| b[500] = 0);
    assert_eq!(answer(&blocks), (5, 1, 0));
    parts.atoms.resize(126, [2, 0, 0]);
    assert_eq!(answer(&with_second(&parts)), ACCEPTED);
}

#[test]
fn number_5_of_the_second() {
    assert_eq!(changed(1, |b| b[1] = 0), (5, 1, 0));
    assert_eq!(changed(1, |b| b[1] = 127), (5, 1, 0));
    assert_eq!(changed(1, |b| b[1] = 4), (5, 1, 0));
    assert_eq!(changed(1, |b| b[2] = 1), (5, 1, 0));
    assert_eq!(changed(1, |b| b[3] = 1), (5, 1, 0));
    assert_eq!(changed(1, |b| b[507] = 1), (5, 1, 0));
    assert_eq!(changed(0, |b| b[1] = 127), (5, 0, 0));
}

/// A wrong check or layout of block 1 comes before a wrong entry of block 0.
#[test]
fn number_6_after_both_blocks_passed() {
    let mut blocks = joined();
    change(&mut blocks, 0, set(0, 0, 9));
    assert_eq!(answer(&blocks), (6, 0, 0));
    blocks[1][509] ^= 1;
    assert_eq!(answer(&blocks), (2, 1, 0));
    change(&mut blocks, 1, |b| b[3] = 1);
    assert_eq!(answer(&blocks), (5, 1, 0));
    change(&mut blocks, 1, |b| b[3] = 0);
    change(&mut blocks, 1, set(0, 0, 9));
    assert_eq!(answer(&blocks), (6, 0, 0));
    change(&mut blocks, 0, set(0, 0, 1));
    assert_eq!(answer(&blocks), (6, 1, 0));
}

/// With one atom block 6 comes before the next block's 2.
#[test]
fn number_6_of_one_block() {
    let mut parts = Parts::usual();
    parts.rules = vec![(None, T)];
    let mut blocks = parts.blocks();
    change(&mut blocks, 0, set(7, 0, 9));
    blocks[1][509] ^= 1;
    assert_eq!(answer(&blocks), (6, 0, 7));
}

#[test]
fn number_6_before_the_third_block() {
    let mut blocks = joined();
    blocks[2][509] ^= 1;
    assert_eq!(answer(&blocks), (2, 2, 0));
    change(&mut blocks, 1, set(3, 1, 2));
    assert_eq!(answer(&blocks), (6, 1, 3));
    change(&mut blocks, 2, |b| b[0] = 1);
    assert_eq!(answer(&blocks), (6, 1, 3));
    change(&mut blocks, 1, set(3, 1, 0));
    assert_eq!(answer(&blocks), (3, 2, 0));
}

#[test]
fn a_third_atom_block() {
    let mut blocks = joined();
    blocks.insert(2, blocks[0].clone());
    assert_eq!(answer(&blocks), (3, 2, 0));
    let mut blocks = full([126, 251]).blocks();
    blocks.insert(2, blocks[1].clone());
    assert_eq!(answer(&blocks), (3, 2, 0));
}

/// Block and place of a 6 are the block's own and the entry's within it.
#[test]
fn places_of_number_6() {
    assert_eq!(changed(1, set(0, 0, 0)), (6, 1, 0));
    assert_eq!(changed(1, set(3, 0, 6)), (6, 1, 3));
    assert_eq!(changed(1, set(3, 1, 2)), (6, 1, 3));
    assert_eq!(changed(1, set(3, 3, 1)), (6, 1, 3));
    assert_eq!(changed(0, set(125, 1, 2)), (6, 0, 125));
}

#[test]
fn partners_in_either_block() {
    assert_eq!(changed(0, set(125, 2, 126)), (6, 0, 125));
    assert_eq!(changed(0, set(125, 2, 4)), (6, 0, 125));
    assert_eq!(changed(1, set(4, 2, 126)), (6, 0, 125));
    assert_eq!(changed(1, set(4, 0, 4)), (6, 0, 125));
    assert_eq!(changed(1, set(1, 0, 3)), (6, 1, 0));
    assert_eq!(changed(1, set(0, 2, 1)), (6, 1, 0));
    assert_eq!(changed(1, set(0, 2, 130)), (6, 1, 0));
    assert_eq!(changed(1, set(0, 2, 131)), (6, 1, 0));
    let mut parts = full([126, 250]);
    parts.atoms[0] = [3, 1, 251];
    parts.atoms[251] = [4, 0, 0];
    parts.rules = vec![(None, T)];
    assert_eq!(spot(&parts.bytes()), ACCEPTED);
    parts.atoms[0] = [3, 1, 252];
    assert_eq!(spot(&parts.bytes()), (6, 0, 0));
    parts.atoms[0] = [3, 1, 251];
    parts.atoms[251] = [4, 0, 252];
    assert_eq!(spot(&parts.bytes()), (6, 0, 0));
}

/// A symmetric key of the second block names its joined number.
#[test]
fn symmetric_keys_of_the_second() {
    assert_eq!(changed(1, set(2, 2, 2)), (6, 1, 2));
    assert_eq!(changed(1, set(2, 2, 127)), (6, 1, 2));
    assert_eq!(changed(1, set(2, 2, 128)), ACCEPTED);
}

#[test]
fn numbers_in_terms() {
    assert_eq!(with_rule(None, Term::Atom(130)), ACCEPTED);
    assert_eq!(with_rule(None, Term::Atom(131)), (7, 7, 0));
    assert_eq!(with_rule(None, enc(T, 130)), ACCEPTED);
    assert_eq!(with_rule(None, enc(T, 129)), (7, 7, 0));
    assert_eq!(with_rule(None, enc(T, 131)), (7, 7, 0));
    let mut parts = full([126, 251]);
    parts.rules = vec![(None, enc(Term::Atom(250), 251))];
    assert_eq!(spot(&parts.bytes()), ACCEPTED);
    parts.rules = vec![(None, enc(Term::Atom(252), 251))];
    assert_eq!(spot(&parts.bytes()), (7, 5, 1));
    parts.rules = vec![(None, enc(T, 252))];
    assert_eq!(spot(&parts.bytes()), (7, 5, 0));
    parts.rules = vec![(None, Term::Atom(251 + 256))];
    assert_eq!(spot(&parts.bytes()), (7, 5, 0));
}

#[test]
fn two_atom_blocks_alone() {
    let blocks = joined();
    assert_eq!(answer(&blocks[..2]), (4, 2, 0));
    assert_eq!(answer(&blocks[..7]), (4, 7, 0));
    assert_eq!(answer(&[&blocks[..2], &blocks[7..]].concat()), (4, 3, 0));
}

/// 9, 10 and 11 over the joined list.
#[test]
fn secrets_of_the_second() {
    let with = |secrets: Vec<Term>, goods: Vec<Term>| {
        let parts = Parts {
            secrets,
            goods,
            rules: vec![(None, T)],
            ..Parts::joined()
        };
        spot(&parts.bytes())
    };
    let atom = |number| Term::Atom(number);
    assert_eq!(with(vec![atom(129), atom(126)], vec![]), (9, 3, 0));
    assert_eq!(with(vec![atom(129), two(T, atom(128))], vec![]), (10, 3, 0));
    assert_eq!(with(vec![atom(128), enc(T, 128)], vec![]), ACCEPTED);
    assert_eq!(with(vec![atom(2 + 126), enc(T, 2)], vec![]), (10, 3, 0));
    assert_eq!(with(vec![atom(127)], vec![enc(S, 126)]), ACCEPTED);
    assert_eq!(with(vec![atom(125)], vec![enc(S, 130)]), ACCEPTED);
    assert_eq!(with(vec![atom(127)], vec![enc(S, 130)]), (11, 3, 0));
    assert_eq!(with(vec![atom(128)], vec![enc(S, 2)]), (11, 3, 0));
}

#[test]
fn blocks_counts_both() {
    let mut parts = Parts::joined();
    parts.rules = vec![(None, enc(Term::Atom(129), 126)); 57];
    let bytes = parts.bytes();
    assert_eq!(bytes.len(), 32_768);
    let expected = b"accepted blocks=64 secrets=3 good=2 bad=0 rules=57\n";
    assert_eq!(line(&verdict(&bytes)), expected);
    parts.rules.push((None, T));
    assert_eq!(spot(&parts.bytes()), (1, 0, 0));
}

/// No number of the second block stands for one of the first.
#[test]
fn numbers_126_or_128_apart() {
    for other in [129 - 126, 129 - 128] {
        assert_eq!(with_rule(None, Term::Atom(other)), ACCEPTED);
        assert_eq!(
            with_rule(Some(Term::Atom(other)), Term::Atom(129)),
            (12, 7, 1)
        );
    }
}
