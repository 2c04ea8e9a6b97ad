//! The numbers 2 to 12 and 15 by hand, their order, and the readings.

mod common;

use common::*;
use literal::{encode, seal, Term};

/// Case a as blocks: atoms, two secrets, a good, a rule.
fn case_a() -> Vec<Vec<u8>> {
    let mut parts = Parts::usual();
    parts.rules = vec![(None, enc(N, 2))];
    parts.blocks()
}

/// Case a with one block changed and sealed again.
fn changed(number: usize, change: impl Fn(&mut Vec<u8>)) -> (u32, u32, u32) {
    let mut blocks = case_a();
    change(&mut blocks[number]);
    seal(&mut blocks[number]).unwrap();
    spot(&blocks.concat())
}

/// Case a with another rule block.
fn with_rule(block: Vec<u8>) -> (u32, u32, u32) {
    let mut blocks = case_a();
    blocks[4] = block;
    spot(&blocks.concat())
}

#[test]
fn number_2() {
    for block in 0..5 {
        let mut blocks = case_a();
        blocks[block][510] ^= 1;
        assert_eq!(spot(&blocks.concat()), (2, block as u32, 0));
        blocks[block][510] ^= 1;
        blocks[block][300] = 1;
        assert_eq!(spot(&blocks.concat()), (2, block as u32, 0));
    }
}

/// Reading 2: a remainder stored with 65,521 added is wrong.
#[test]
fn number_2_asks_for_remainders() {
    let mut blocks = case_a();
    assert_eq!(blocks[1][508..510], [2 + 1 + 1 + 6, 0]);
    blocks[1][508..510].copy_from_slice(&(65_521u16 + 10).to_le_bytes());
    assert_eq!(spot(&blocks.concat()), (2, 1, 0));
}

#[test]
fn number_3() {
    let mut blocks = case_a();
    blocks.swap(2, 3);
    assert_eq!(spot(&blocks.concat()), (3, 3, 0));
    let mut blocks = case_a();
    blocks.insert(2, blocks[0].clone());
    assert_eq!(spot(&blocks.concat()), (3, 2, 0));
    let mut blocks = case_a();
    blocks.remove(0);
    assert_eq!(spot(&blocks.concat()), (3, 0, 0));
    for kind in [0, 6, 255] {
        assert_eq!(changed(3, |b| b[0] = kind), (3, 3, 0));
        assert_eq!(changed(0, |b| b[0] = kind), (3, 0, 0));
    }
}

#[test]
fn number_4_comes_after_all_blocks() {
    let blocks = case_a();
    assert_eq!(spot(&blocks[..4].concat()), (4, 4, 0));
    assert_eq!(spot(&blocks[0]), (4, 1, 0));
    let no_secret = [&blocks[0][..], &blocks[3], &blocks[4]].concat();
    assert_eq!(spot(&no_secret), (4, 3, 0));
    let mut wrong = blocks[4].clone();
    wrong[4] = 9;
    seal(&mut wrong).unwrap();
    assert_eq!(spot(&[&blocks[0][..], &wrong].concat()), (7, 1, 0));
}

#[test]
fn number_5() {
    assert_eq!(changed(0, |b| b[1] = 0), (5, 0, 0));
    assert_eq!(changed(0, |b| b[1] = 127), (5, 0, 0));
    assert_eq!(changed(0, |b| b[2] = 1), (5, 0, 0));
    assert_eq!(changed(1, |b| b[1] = 0), (5, 1, 0));
    assert_eq!(changed(1, |b| b[1] = 64), (5, 1, 0));
    assert_eq!(changed(2, |b| b[2] = 1), (5, 2, 0));
    assert_eq!(changed(3, |b| b[3] = 1), (5, 3, 0));
    assert_eq!(changed(3, |b| b[1] = 1), (5, 3, 0));
    assert_eq!(changed(4, |b| b[2] = 0), (5, 4, 0));
    assert_eq!(changed(4, |b| b[2] = 64), (5, 4, 0));
    assert_eq!(changed(4, |b| b[1] = 64), (5, 4, 0));
    assert_eq!(changed(4, |b| b[507] = 1), (5, 4, 0));
}

#[test]
fn number_6() {
    assert_eq!(changed(0, |b| b[4] = 6), (6, 0, 0));
    assert_eq!(changed(0, |b| b[4] = 0), (6, 0, 0));
    assert_eq!(changed(0, |b| b[9] = 2), (6, 0, 1));
    assert_eq!(changed(0, |b| b[6] = 1), (6, 0, 0));
    assert_eq!(changed(0, |b| b[14] = 8), (6, 0, 2));
    assert_eq!(changed(0, |b| b[15] = 1), (6, 0, 2));
    assert_eq!(changed(0, |b| b[14] = 5), (6, 0, 2));
    assert_eq!(changed(0, |b| b[18] = 4), (6, 0, 2));
    assert_eq!(changed(0, |b| b[16] = 3), (6, 0, 2));
    assert_eq!(changed(0, |b| b[28] = 5), (6, 0, 6));
    let a_symmetric_key = |b: &mut Vec<u8>| b[28..32].copy_from_slice(&[5, 0, 6, 0]);
    assert_eq!(changed(0, a_symmetric_key), (0, 0, 0));
}

/// Reading 4: a wrong known byte is that entry's own fault.
#[test]
fn number_6_at_the_entry_itself() {
    assert_eq!(changed(0, |b| b[17] = 2), (6, 0, 3));
}

#[test]
fn number_7() {
    assert_eq!(changed(1, |b| b[4] = 0), (7, 1, 0));
    assert_eq!(changed(1, |b| b[4] = 6), (7, 1, 0));
    assert_eq!(changed(1, |b| b[5] = 1), (7, 1, 0));
    assert_eq!(changed(1, |b| b[6] = 8), (7, 1, 0));
    assert_eq!(changed(1, |b| b[7] = 1), (7, 1, 0));
    assert_eq!(
        changed(1, |b| b[4..8].copy_from_slice(&[4, 0, 0, 0])),
        (7, 1, 0)
    );
    assert_eq!(changed(3, |b| b[10] = 8), (7, 3, 1));
    assert_eq!(changed(3, |b| b[6] = 6), (7, 3, 0));
    assert_eq!(
        changed(4, |b| b[8..12].copy_from_slice(&[5, 0, 0, 0])),
        (7, 4, 1)
    );
    assert_eq!(with_rule(block(5, &[], &[2, 0, 1, 0])), (7, 4, 0));
    let mut blocks = case_a();
    blocks.insert(4, block(4, &encode(&enc(S, 2)), &[]));
    assert_eq!(spot(&blocks.concat()), (12, 5, 1), "a mark in a bad one");
}

#[test]
fn number_8() {
    assert_eq!(
        changed(1, |b| b[4..8].copy_from_slice(&[2, 0, 0, 0])),
        (8, 1, 0)
    );
    let two_terms = [encode(&N), encode(&N)].concat();
    assert_eq!(with_rule(block(5, &two_terms, &encode(&N))), (8, 4, 0));
    assert_eq!(with_rule(block(5, &encode(&N), &two_terms)), (8, 4, 1));
    let mut blocks = case_a();
    blocks[3] = block(3, &encode(&two(S, S)), &[]);
    assert_eq!(spot(&blocks.concat()), (8, 3, 0));
    blocks[3] = block(3, &encode(&S), &[]);
    assert_eq!(spot(&blocks.concat()), (8, 3, 0));
}

/// Reading 1: 7 over both terms, then 8 for the premise, then for the other.
#[test]
fn seven_before_eight() {
    let no_term = encode(&two(N, N))[..8].to_vec();
    let wrong_tag = [9, 0, 0, 0];
    assert_eq!(with_rule(block(5, &no_term, &wrong_tag)), (7, 4, 2));
    assert_eq!(with_rule(block(5, &no_term, &no_term)), (8, 4, 0));
    assert_eq!(with_rule(block(5, &encode(&N), &no_term)), (8, 4, 1));
}

#[test]
fn a_block_is_judged_whole_before_the_next() {
    let mut blocks = case_a();
    blocks[1][4] = 9;
    seal(&mut blocks[1]).unwrap();
    blocks[2][500] = 1;
    assert_eq!(spot(&blocks.concat()), (7, 1, 0));
    blocks[0][100] = 1;
    assert_eq!(spot(&blocks.concat()), (2, 0, 0));
}

/// 9 over all blocks before 10, 10 before 11, 11 before 15, 15 before 12.
#[test]
fn numbers_9_10_11_15_and_12_in_turn() {
    let mut parts = Parts::usual();
    parts.rules = vec![(None, enc(N, 4))];
    assert_eq!(spot(&parts.bytes()), (12, 4, 1));
    parts.rules.push((Some(N), T));
    assert_eq!(spot(&parts.bytes()), (15, 5, 0));
    parts.goods.push(enc(S, 4));
    assert_eq!(spot(&parts.bytes()), (11, 4, 0));
    parts.secrets.insert(0, two(T, I));
    assert_eq!(spot(&parts.bytes()), (10, 1, 0));
    parts.secrets.push(T);
    assert_eq!(spot(&parts.bytes()), (9, 4, 0));
}

/// Reading 5: for {m}k the key itself, not its inverse.
#[test]
fn weakly_closed() {
    let closed = |secret: Term| {
        let mut parts = Parts::usual();
        parts.secrets.push(secret);
        parts.rules = vec![(None, T)];
        spot(&parts.bytes())
    };
    assert_eq!(closed(two(N, T)), (0, 0, 0));
    assert_eq!(closed(two(T, N)), (0, 0, 0));
    assert_eq!(closed(enc(N, 4)), (0, 0, 0));
    assert_eq!(closed(enc(T, 3)), (0, 0, 0));
    assert_eq!(closed(enc(T, 2)), (10, 3, 0));
    assert_eq!(closed(two(T, two(N, T))), (10, 3, 0));
}

/// Reading 6: a good pattern without marks closes places and needs 11.
#[test]
fn good_without_marks() {
    let mut parts = Parts::usual();
    parts.goods = vec![enc(X, 2)];
    parts.rules = vec![(None, enc(N, 2))];
    assert_eq!(spot(&parts.bytes()), (12, 4, 1));
    parts.rules = vec![(Some(enc(X, 2)), X)];
    assert_eq!(spot(&parts.bytes()), (12, 4, 2));
    parts.goods.push(enc(X, 4));
    assert_eq!(spot(&parts.bytes()), (11, 4, 0));
}

/// Reading 7: match and mark come from one and the same good pattern.
#[test]
fn match_and_mark_of_one_pattern() {
    let mut parts = Parts::usual();
    parts.goods = vec![enc(two(X, T), 2), enc(two(S, I), 2)];
    parts.rules = vec![(None, enc(two(N, T), 2))];
    assert_eq!(spot(&parts.bytes()), (12, 5, 2));
}

/// Reading 8: 15 by equality, risky by sharing; every variable is risky.
#[test]
fn equality_and_sharing() {
    let mut parts = Parts::usual();
    parts.secrets.push(two(N, T));
    parts.rules = vec![(None, two(X, T))];
    assert_eq!(spot(&parts.bytes()), (12, 5, 0));
    parts.rules = vec![(Some(two(X, T)), N)];
    assert_eq!(spot(&parts.bytes()), (12, 5, 3));
    parts.rules = vec![(Some(two(N, T)), Y)];
    assert_eq!(spot(&parts.bytes()), (15, 5, 0));
    parts.rules = vec![(Some(T), Y)];
    assert_eq!(spot(&parts.bytes()), (12, 5, 1));
}

/// A plain and a marked variable of one number are two variables.
#[test]
fn marked_and_plain_apart() {
    let mut parts = Parts::usual();
    parts.goods = vec![enc(two(X, S), 2)];
    parts.rules = vec![(None, enc(two(T, N), 2))];
    assert_eq!(spot(&parts.bytes()), (0, 0, 0));
}

#[test]
fn first_bad_counts_too() {
    let mut parts = Parts::usual();
    parts.bads = vec![enc(two(I, X), 2), enc(two(T, X), 2)];
    parts.rules = vec![(None, enc(two(I, N), 2))];
    assert_eq!(spot(&parts.bytes()), (12, 6, 3));
    parts.rules = vec![(None, enc(two(T, N), 2))];
    assert_eq!(spot(&parts.bytes()), (12, 6, 3));
    parts.rules = vec![(None, enc(two(N, N), 2))];
    assert_eq!(spot(&parts.bytes()), (0, 0, 0));
}

#[test]
fn longest_terms_and_last_places() {
    let chain = |inside: Term| (0..62).fold(inside, |term, _| enc(term, 4));
    let answer = |premise: Term, conclusion: Term| {
        let mut parts = Parts::usual();
        parts.rules = vec![(Some(chain(premise)), chain(conclusion))];
        spot(&parts.bytes())
    };
    assert_eq!(answer(X, X), (0, 0, 0));
    assert_eq!(answer(X, N), (12, 4, 125));
    assert_eq!(answer(N, X), (15, 4, 62));
}
