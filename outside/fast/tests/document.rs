//! The document's certificates to try, its lengths, marks in bad patterns, nonce
//! variables, open secrets, and two atom blocks.

mod common;

use common::{answer, file, joined, refused, usual, with_bads, with_good};
use fast::check;
use text::document::{GOOD, SECRETS};

#[test]
fn cases_a_to_d() {
    assert_eq!(usual("rule -> {N}KA"), 0);
    assert_eq!(usual("rule -> {N}KI"), refused(12, 4, 1));
    assert_eq!(usual("rule {?x}KA -> {?x}KI"), refused(12, 4, 3));
    assert_eq!(usual("rule {?x}KI -> ?x"), 0);
}

#[test]
fn cases_e_to_g() {
    let e = "rule {(I, ?x)}KA -> {?x}KI";
    let g = "rule {(T, ?x)}KA -> {?x}KA";
    for good in ["good {(T, *s)}KA", "good {*s}KA"] {
        let with_bad = format!("{SECRETS}{good}\nbad {{(I, ?x)}}KA\n");
        assert_eq!(answer(&format!("{with_bad}{e}")), 0);
        assert_eq!(answer(&format!("{with_bad}{g}")), refused(12, 5, 5));
    }
    assert_eq!(answer(&format!("{SECRETS}good {{(T, *s)}}KA\n{e}")), 0);
}

#[test]
fn cases_h_to_k() {
    let rest = format!("{GOOD}rule -> {{N}}KA");
    assert_eq!(answer(&format!("secret N\n{rest}")), refused(11, 2, 0));
    let i = format!("secret T\n{SECRETS}{rest}");
    assert_eq!(answer(&i), refused(9, 1, 0));
    assert_eq!(answer(&format!("secret (N, T)\n{rest}")), refused(10, 1, 0));
    assert_eq!(usual("rule N -> KAi"), refused(15, 4, 0));
}

/// (x, x) and (y, (T, y)) share no instance, so the place of x is open.
#[test]
fn case_l() {
    let rule = "rule {(?x, ?x)}KA -> ?x";
    let l = format!("{SECRETS}good {{(?y, (T, ?y))}}KA\n{rule}");
    assert_eq!(answer(&l), 0);
    let shared = format!("{SECRETS}good {{(?y, (T, ?z))}}KA\n{rule}");
    assert_eq!(answer(&shared), refused(12, 4, 4));
}

#[test]
fn marks_of_bad_patterns_for_sure_hats() {
    let sent = "-> {(I, (N, T))}KA";
    let refused_at_n = refused(12, 5, 4);
    assert_eq!(with_bads(&["{(I, (?x, ?y))}KA"], sent), refused_at_n);
    assert_eq!(with_bads(&["{(I, (?x, *y))}KA"], sent), 0);
    assert_eq!(with_bads(&["{(I, (*x, ?y))}KA"], sent), refused_at_n);
    assert_eq!(with_bads(&["{(I, *m)}KA"], sent), refused_at_n);
    for bad in ["{(I, *m)}KA", "{(I, (?x, *y))}KA", "{((*x, ?y), I)}KA"] {
        let below = with_bads(&[bad], "{(T, ?x)}KA -> {?x}KA");
        assert_eq!(below, refused(12, 5, 5), "{bad}");
    }
    let [one, other] = ["{(I, (?x, *y))}KA", "{(T, (*x, ?y))}KA"];
    assert_eq!(with_bads(&[one, other], sent), 0);
    assert_eq!(with_bads(&[other, one], sent), 0);
    let twice = "-> {(I, (N, N))}KA";
    assert_eq!(with_bads(&[one], twice), refused(12, 5, 5));
}

#[test]
fn marks_of_bad_patterns_for_open_places() {
    let shown = "{(I, (?x, ?y))}KA -> {?x}KI";
    for bad in ["{(I, *m)}KA", "{(I, (*x, ?y))}KA", "{(I, (?x, ?y))}KA"] {
        assert_eq!(with_bads(&[bad], shown), 0, "{bad}");
    }
    let [one, other] = ["{(I, (?x, *y))}KA", "{(T, (*x, ?y))}KA"];
    assert_eq!(with_bads(&[one], shown), refused(12, 5, 7));
    assert_eq!(with_bads(&[one, other], shown), refused(12, 6, 7));
    assert_eq!(with_bads(&[other, one], shown), refused(12, 6, 7));
    let pair = |bad: &str| {
        let rule = "rule {(I, (N, T))}KA -> N";
        answer(&format!("{SECRETS}secret (N, T)\n{GOOD}bad {bad}\n{rule}"))
    };
    assert_eq!(pair("{(I, *m)}KA"), refused(15, 6, 3));
    assert_eq!(pair("{(I, (?x, *m))}KA"), refused(12, 6, 6));
    assert_eq!(usual("bad *m\nrule -> T"), refused(8, 4, 0));
    assert_eq!(usual("rule *m -> T"), refused(7, 4, 0));
}

#[test]
fn nonce_variables_of_patterns_match_nonces() {
    let one = "{*n!n}KA";
    assert_eq!(with_good(one, "-> {N}KA"), 0);
    assert_eq!(with_good(one, "{?n!x}KA -> {?n!x}KA"), 0);
    assert_eq!(with_good(one, "{?x}KA -> {?x}KA"), refused(12, 4, 3));
    assert_eq!(with_good(one, "-> {KAi}KA"), refused(12, 4, 1));
    assert_eq!(with_good(one, "-> {(N, T)}KA"), refused(12, 4, 2));
    let after = "{(?n!x, *s)}KA";
    assert_eq!(with_good(after, "-> {(T, N)}KA"), 0);
    assert_eq!(with_good(after, "-> {(A, N)}KA"), refused(12, 4, 3));
    let rule = "?n!y -> {(?n!y, (T, N))}KA";
    assert_eq!(with_good("{(?n!x, (?n!y, *s))}KA", rule), 0);
    let twice = with_good("{(?n!x, (?n!x, *s))}KA", rule);
    assert_eq!(twice, refused(12, 4, 6));
}

#[test]
fn nonce_variables_share_nonces() {
    let after = "{(?n!x, *s)}KA";
    for field in ["A", "KI", "(T, T)", "{T}KI"] {
        let rule = format!("{{({field}, ?y)}}KA -> ?y");
        assert_eq!(with_good(after, &rule), 0, "{field}");
    }
    for field in ["T", "N", "?n!x", "?x"] {
        let rule = format!("{{({field}, ?y)}}KA -> ?y");
        assert_eq!(with_good(after, &rule), refused(12, 4, 4), "{field}");
    }
    let tied = "{(?x, (?x, *s))}KA";
    for (one, other) in [("?n!x", "KI"), ("A", "?n!x"), ("?n!x", "{?z}KI")] {
        for rule in [
            format!("{{({one}, ({other}, ?y))}}KA -> ?y"),
            format!("{{({other}, ({one}, ?y))}}KA -> ?y"),
        ] {
            assert_eq!(with_good(tied, &rule), 0, "{rule}");
        }
    }
    let rule = "{(?x, (?x, ?y))}KA -> ?y";
    assert_eq!(with_good("{(?n!x, ({?z}KI, *s))}KA", rule), 0);
    let with_nonce = with_good("{(?n!x, (T, *s))}KA", rule);
    assert_eq!(with_nonce, refused(12, 4, 6));
}

#[test]
fn places_of_nonce_variables() {
    assert_eq!(usual("rule -> ?n!x"), refused(12, 4, 0));
    assert_eq!(usual("rule ?n!0 -> ?n!0"), 0);
    assert_eq!(usual("rule ?0 -> ?n!0"), refused(12, 4, 1));
    assert_eq!(usual("rule ?n!0 -> ?0"), refused(12, 4, 1));
    let pair = |secret: &str| {
        let rule = "rule ?n!x -> (?n!x, T)";
        answer(&format!("{SECRETS}secret {secret}\n{GOOD}{rule}"))
    };
    assert_eq!(pair("(N, T)"), refused(12, 5, 1));
    assert_eq!(pair("(KAi, T)"), 0);
    let bad = "{(?x, *n!y)}KA";
    assert_eq!(with_bads(&[bad], "-> {(N, T)}KA"), 0);
    assert_eq!(with_bads(&[bad], "-> {(T, N)}KA"), refused(12, 5, 3));
    assert_eq!(with_bads(&[bad], "-> {(T, (N, T))}KA"), 0);
    assert_eq!(usual("rule -> {*n!x}KA"), refused(7, 4, 1));
    let in_secret = answer(&format!("secret (N, ?n!x)\n{SECRETS}{GOOD}rule -> T"));
    assert_eq!(in_secret, refused(7, 1, 2));
}

#[test]
fn open_secrets() {
    assert_eq!(usual("rule (T, (N, N)) -> T"), refused(15, 4, 3));
    assert_eq!(usual("rule {(T, {N}KI)}KI -> {N}KA"), refused(15, 4, 4));
    assert_eq!(usual("rule {N}KA -> T"), 0);
    assert_eq!(usual("rule {{N}KA}KI -> T"), 0);
    assert_eq!(usual("rule {T}KAi -> T"), 0);
    assert_eq!(usual("rule (?x, ?n!x) -> T"), 0);
    let good = "{(T, *s)}KA";
    assert_eq!(with_good(good, "{(A, N)}KA -> T"), refused(15, 4, 3));
    assert_eq!(with_good(good, "{(?x, N)}KA -> T"), 0);
    let bad = "{(I, (*x, ?y))}KA";
    let at = with_bads(&[bad], "{(I, (N, T))}KA -> T");
    assert_eq!(at, refused(15, 5, 4));
    assert_eq!(with_bads(&[bad], "{(I, (T, N))}KA -> T"), 0);
    let nested = |premise: &str| {
        let rule = format!("rule {premise} -> T");
        answer(&format!("{SECRETS}secret (N, T)\n{GOOD}{rule}"))
    };
    assert_eq!(nested("(A, (N, T))"), refused(15, 5, 2));
    assert_eq!(nested("(A, (T, N))"), refused(15, 5, 4));
    assert_eq!(nested("(A, (?x, T))"), 0);
}

#[test]
fn open_secrets_before_what_is_not_covered() {
    let fifteen = "rule (T, N) -> T\n";
    let twelve = "rule -> N\n";
    let both = "rule N -> KAi\n";
    let answer = |rules: &[&str]| usual(&rules.concat());
    assert_eq!(answer(&[twelve, twelve, fifteen]), refused(15, 6, 2));
    assert_eq!(answer(&[fifteen, both, twelve]), refused(15, 4, 2));
    assert_eq!(answer(&[twelve, both, fifteen]), refused(15, 5, 0));
    assert_eq!(answer(&["rule T -> T\n", twelve]), refused(12, 5, 0));
    assert_eq!(usual(&format!("good {{*s}}KI\n{both}")), refused(11, 4, 0));
}

#[test]
fn lengths() {
    for length in [0, 511, 513, 33_280] {
        assert_eq!(check(&vec![0; length]), refused(1, 0, 0));
    }
    assert_eq!(check(&vec![0; 32_768]), refused(3, 0, 0));
    let rules = "rule -> {N}KA\n".repeat(60);
    assert_eq!(usual(&rules), 0);
    let mut longer = file(&format!("{SECRETS}{GOOD}{rules}"));
    longer.extend_from_within(32_256..);
    assert_eq!(check(&longer), refused(1, 0, 0));
}

/// The answer after these changes of bytes, each with its block sealed again.
fn after(changes: &[(usize, usize, u8)]) -> u32 {
    let mut blocks = joined("good {*s}K\nrule {(Q, ?x)}S -> ({M}K, ?x)");
    for (block, byte, value) in changes {
        blocks[*block][*byte] = *value;
        literal::seal(&mut blocks[*block]).expect("a block");
    }
    check(&blocks.concat())
}

#[test]
fn atoms_of_a_second_block() {
    assert_eq!(after(&[]), 0);
    let answer = |rest: &str| check(&joined(rest).concat());
    assert_eq!(answer("good {*s}K\nrule -> {M}Q"), refused(12, 5, 1));
    assert_eq!(answer("good {*s}Q\nrule -> {M}Q"), refused(11, 4, 0));
    assert_eq!(answer("secret Q\nrule -> Q"), refused(9, 4, 0));
    assert_eq!(answer("secret (S, K)\nrule -> Q"), refused(10, 4, 0));
    assert_eq!(answer("rule M -> L"), refused(15, 4, 0));
    assert_eq!(answer("rule x3 -> M"), refused(12, 4, 1));
    assert_eq!(answer("rule x1 -> M"), refused(12, 4, 1));
    assert_eq!(answer("rule -> (x1, (x2, (x3, x4)))"), 0);
    assert_eq!(check(&joined("")[..2].concat()), refused(4, 2, 0));
}

#[test]
fn faults_of_two_atom_blocks() {
    assert_eq!(after(&[(0, 1, 125)]), refused(5, 0, 0));
    assert_eq!(
        after(&[(0, 1, 125), (0, 504, 0), (0, 506, 0)]),
        refused(5, 1, 0)
    );
    assert_eq!(after(&[(0, 4, 9)]), refused(6, 0, 0));
    assert_eq!(after(&[(0, 4, 9), (1, 3, 1)]), refused(5, 1, 0));
    assert_eq!(after(&[(0, 4, 9), (1, 4, 9)]), refused(6, 0, 0));
    assert_eq!(after(&[(1, 4, 9)]), refused(6, 0, 125));
    assert_eq!(after(&[(1, 8, 9)]), refused(6, 1, 1));
    assert_eq!(after(&[(1, 18, 3)]), refused(6, 1, 3));
    assert_eq!(after(&[(1, 10, 2)]), refused(6, 1, 1));
    assert_eq!(after(&[(1, 10, 252)]), refused(6, 1, 1));
    assert_eq!(after(&[(2, 0, 1)]), refused(3, 2, 0));
    assert_eq!(after(&[(2, 6, 131)]), refused(7, 2, 0));
    assert_eq!(after(&[(2, 6, 252)]), refused(7, 2, 0));
    assert_eq!(after(&[(0, 0, 2)]), refused(3, 0, 0));
    assert_eq!(after(&[(1, 0, 2)]), refused(6, 0, 125));
}

#[test]
fn a_wrong_check_before_a_wrong_atom() {
    let mut blocks = joined("good {*s}K\nrule -> {M}K");
    blocks[0][4] = 9;
    literal::seal(&mut blocks[0]).expect("a block");
    blocks[1][509] ^= 1;
    assert_eq!(check(&blocks.concat()), refused(2, 1, 0));
    blocks[1][509] ^= 1;
    blocks[2][509] ^= 1;
    assert_eq!(check(&blocks.concat()), refused(6, 0, 0));
    let one_atom_block = [&blocks[..1], &blocks[2..]].concat();
    assert_eq!(check(&one_atom_block.concat()), refused(6, 0, 0));
}
