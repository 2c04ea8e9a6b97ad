//! Hashes `h(T)` and signatures `sig(T)KEY`: places, hats, matching and sharing
//! through them, and the numbers 7, 8 and 10.

mod common;

use common::{answer, file, joined, refused, usual, with_bads, with_good};
use fast::check;
use text::document::{GOOD, SECRETS};

/// With this secret too, so that the rule's block is 5.
fn with_secret(secret: &str, rule: &str) -> u32 {
    answer(&format!("{SECRETS}secret {secret}\n{GOOD}rule {rule}"))
}

#[test]
fn nothing_below_a_hash_of_a_conclusion_is_a_place() {
    for hidden in [
        "N",
        "?x",
        "?n!x",
        "KAi",
        "{N}KI",
        "sig(N)KIi",
        "h(N)",
        "(N, ?x)",
    ] {
        assert_eq!(usual(&format!("rule -> h({hidden})")), 0, "{hidden}");
        assert_eq!(
            usual(&format!("rule -> h(sig({hidden})KIi)")),
            0,
            "{hidden}"
        );
        assert_eq!(usual(&format!("rule -> {{h({hidden})}}KI")), 0, "{hidden}");
    }
    assert_eq!(usual("rule -> (h(N), N)"), refused(12, 4, 3));
    assert_eq!(usual("rule -> (h(?x), ?x)"), refused(12, 4, 3));
    let later = "rule -> (h(N), (h(?x), (T, ?n!x)))";
    assert_eq!(usual(later), refused(12, 4, 8));
}

#[test]
fn nothing_below_a_hash_of_a_premise_is_a_place() {
    for hidden in ["N", "{N}KI", "sig(N)KIi", "h(N)", "(T, N)"] {
        assert_eq!(usual(&format!("rule h({hidden}) -> T")), 0, "{hidden}");
    }
    assert_eq!(usual("rule (h(N), N) -> T"), refused(15, 4, 3));
    assert_eq!(usual("rule h(?x) -> ?x"), refused(12, 4, 2));
    assert_eq!(usual("rule h(sig(?x)KIi) -> ?x"), refused(12, 4, 3));
    assert_eq!(usual("rule (sig(h(?x))KIi, T) -> ?x"), refused(12, 4, 5));
    assert_eq!(usual("rule (h(?x), ?x) -> ?x"), 0);
    assert_eq!(usual("rule (?x, h(?x)) -> (h(?x), ?x)"), 0);
}

#[test]
fn a_hash_is_a_place() {
    let with = |rule: &str| with_secret("h(N)", rule);
    for sent in ["h(N)", "h(?x)", "h(?n!x)"] {
        assert_eq!(with(&format!("-> {sent}")), refused(12, 5, 0), "{sent}");
        let signed = with(&format!("-> sig({sent})KIi"));
        assert_eq!(signed, refused(12, 5, 1), "{sent}");
        assert_eq!(with(&format!("-> {{{sent}}}KA")), 0, "{sent}");
        assert_eq!(with(&format!("-> h({sent})")), 0, "{sent}");
    }
    for sent in ["h(T)", "h((N, N))", "h({?x}KI)"] {
        assert_eq!(with(&format!("-> {sent}")), 0, "{sent}");
    }
    assert_eq!(with("h(N) -> T"), refused(15, 5, 0));
    assert_eq!(with("(T, sig(h(N))KAi) -> T"), refused(15, 5, 3));
    assert_eq!(with("h(h(N)) -> T"), 0);
    assert_eq!(with("h({h(N)}KI) -> T"), 0);
    assert_eq!(with("{h(N)}KA -> T"), 0);
    assert_eq!(with("h(?x) -> T"), 0);
}

#[test]
fn the_same_hash_at_an_open_place() {
    let with = |rule: &str| with_secret("h(N)", rule);
    assert_eq!(with("h(?x) -> h(?x)"), 0);
    assert_eq!(with("sig(h(?x))KAi -> h(?x)"), 0);
    assert_eq!(with("(?y, h(?x)) -> (h(?x), ?y)"), 0);
    assert_eq!(with("h(?y) -> h(?x)"), refused(12, 5, 2));
    assert_eq!(with("h(h(?x)) -> h(?x)"), refused(12, 5, 3));
    assert_eq!(with("{h(?x)}KA -> h(?x)"), refused(12, 5, 3));
}

#[test]
fn below_a_signature_all_is_as_before() {
    assert_eq!(usual("rule -> sig(N)KIi"), refused(12, 4, 1));
    assert_eq!(usual("rule -> sig(N)KAi"), refused(12, 4, 1));
    assert_eq!(usual("rule -> sig((T, ?x))KAi"), refused(12, 4, 3));
    assert_eq!(usual("rule -> sig({N}KA)KIi"), 0);
    assert_eq!(usual("rule -> {sig((N, ?x))KIi}KA"), 0);
    assert_eq!(usual("rule -> {sig(N)KIi}KI"), refused(12, 4, 2));
    assert_eq!(usual("rule sig(?x)KIi -> ?x"), 0);
    assert_eq!(usual("rule sig(sig(?x)KAi)KIi -> {?x}KI"), 0);
    assert_eq!(usual("rule {sig(?x)KIi}KA -> ?x"), refused(12, 4, 3));
    assert_eq!(usual("rule {sig(?x)KIi}KI -> ?x"), 0);
    assert_eq!(usual("rule sig(N)KAi -> T"), refused(15, 4, 1));
    assert_eq!(usual("rule sig({N}KA)KAi -> T"), 0);
}

#[test]
fn the_key_of_a_signature_is_no_place() {
    assert_eq!(usual("rule -> sig(T)KAi"), 0);
    assert_eq!(usual("rule sig(T)KAi -> T"), 0);
    assert_eq!(usual("rule sig(T)KAi -> KAi"), refused(12, 4, 2));
    assert_eq!(usual("rule sig(?x)KIi -> sig(?x)KAi"), 0);
    let with = |rule: &str| with_secret("sig(N)KAi", rule);
    assert_eq!(with("?x -> sig(?x)KAi"), refused(12, 5, 1));
    assert_eq!(with("sig(?x)KIi -> sig(?x)KAi"), refused(12, 5, 2));
    assert_eq!(with("sig(?x)KAi -> sig(?x)KIi"), 0);
    assert_eq!(with("sig(?x)KAi -> sig(?x)KAi"), 0);
    assert_eq!(with("sig((N, N))KAi -> T"), refused(15, 5, 2));
    assert_eq!(with("{sig(N)KAi}KI -> T"), refused(15, 5, 1));
    assert_eq!(with("{sig(N)KAi}KA -> T"), 0);
}

#[test]
fn neither_is_a_pattern() {
    for root in ["h(*s)", "sig(*s)KAi", "sig({*s}KA)KAi", "h({*s}KA)"] {
        assert_eq!(with_good(root, "-> T"), refused(8, 3, 0), "{root}");
        assert_eq!(with_bads(&[root], "-> T"), refused(8, 4, 0), "{root}");
    }
}

#[test]
fn matching_goes_through_both() {
    let signed = "{sig(*s)KIi}KA";
    assert_eq!(with_good(signed, "-> {sig(N)KIi}KA"), 0);
    assert_eq!(with_good(signed, "-> {sig(N)KAi}KA"), refused(12, 4, 2));
    assert_eq!(with_good(signed, "-> {{N}KIi}KA"), refused(12, 4, 2));
    assert_eq!(with_good(signed, "-> {N}KA"), refused(12, 4, 1));
    let beside = "{(h(?x), *s)}KA";
    for field in ["h(T)", "h(?x)", "h((T, sig(?x)KIi))"] {
        let rule = format!("-> {{({field}, (T, T))}}KA");
        assert_eq!(with_good(beside, &rule), 0, "{field}");
    }
    assert_eq!(with_good(beside, "-> {(h(?x), N)}KA"), 0);
    assert_eq!(with_good(beside, "-> {(T, N)}KA"), refused(12, 4, 3));
    assert_eq!(
        with_good(beside, "-> {(sig(T)KIi, N)}KA"),
        refused(12, 4, 4)
    );
    let twice = "{(h(?x), (?x, *s))}KA";
    assert_eq!(
        with_good(twice, "-> {(h(sig(T)KI), (sig(T)KI, N))}KA"),
        refused(7, 4, 3)
    );
    assert_eq!(with_good(twice, "-> {(h(sig(T)KIi), (sig(T)KIi, N))}KA"), 0);
    let other = with_good(twice, "-> {(h(sig(T)KIi), (sig(T)KAi, N))}KA");
    assert_eq!(other, refused(12, 4, 8));
}

#[test]
fn a_mark_below_a_hash_covers_no_place() {
    let with =
        |good: &str, rule: &str| answer(&format!("{SECRETS}secret h(N)\ngood {good}\nrule {rule}"));
    assert_eq!(with("{h(*s)}KA", "-> {h(N)}KA"), refused(12, 5, 1));
    assert_eq!(with("{*s}KA", "-> {h(N)}KA"), 0);
    assert_eq!(
        with("{(h(*s), ?x)}KA", "-> {(h(T), N)}KA"),
        refused(12, 5, 4)
    );
    assert_eq!(with("{(h(*s), *x)}KA", "-> {(h(T), N)}KA"), 0);
    assert_eq!(with("{h(*s)}KA", "{h(?x)}KA -> h(?x)"), refused(12, 5, 3));
}

#[test]
fn sharing_goes_through_both() {
    // With the entry of the conclusion's variable.
    let fields = [
        ("h(A)", 5),
        ("sig(A)KIi", 5),
        ("sig(A)KAi", 5),
        ("{A}KIi", 5),
        ("(A, A)", 6),
        ("A", 4),
    ];
    for (i, pattern) in ["h(?x)", "sig(?x)KIi", "sig(?x)KAi", "{?x}KIi"]
        .iter()
        .enumerate()
    {
        let good = format!("{{({pattern}, *s)}}KA");
        for (j, (field, entry)) in fields.iter().enumerate() {
            let expected = if i == j { refused(12, 4, *entry) } else { 0 };
            let found = with_good(&good, &format!("{{({field}, ?y)}}KA -> ?y"));
            assert_eq!(found, expected, "{pattern} {field}");
        }
    }
    let twice = "{(h(?x), (?x, *s))}KA";
    assert_eq!(
        with_good(twice, "{(?z, (?w, ?y))}KA -> ?y"),
        refused(12, 4, 6)
    );
    for below in ["h(?z)", "sig(?z)KIi", "?z"] {
        let rule = format!("{{(?z, ({below}, ?y))}}KA -> ?y");
        assert_eq!(with_good(twice, &rule), 0, "{below}");
    }
}

#[test]
fn neither_is_a_nonce() {
    let nonce_first = "{(?n!x, *s)}KA";
    for field in ["h(T)", "sig(T)KIi"] {
        let sent = with_good(nonce_first, &format!("-> {{({field}, N)}}KA"));
        assert_eq!(sent, refused(12, 4, 4), "{field}");
        for rule in [
            format!("{{({field}, (?n!x, ?y))}}KA -> ?y"),
            format!("{{(?n!x, ({field}, ?y))}}KA -> ?y"),
        ] {
            assert_eq!(with_good("{(?x, (?x, *s))}KA", &rule), 0, "{rule}");
        }
        let shown = format!("{{({field}, ?y)}}KA -> ?y");
        assert_eq!(with_good(nonce_first, &shown), 0, "{field}");
        let good = format!("{{({field}, *s)}}KA");
        assert_eq!(with_good(&good, "{(?n!x, ?y)}KA -> ?y"), 0, "{field}");
        let plain = with_good(&good, "{(?x, ?y)}KA -> ?y");
        assert_eq!(plain, refused(12, 4, 4), "{field}");
    }
    assert_eq!(with_good("{(h(?n!x), *s)}KA", "-> {(h(T), N)}KA"), 0);
    let principal = with_good("{(h(?n!x), *s)}KA", "-> {(h(A), N)}KA");
    assert_eq!(principal, refused(12, 4, 4));
}

/// By path: a mark below a hash is below what stands above the hash, and at or
/// above no place.
#[test]
fn marks_of_bad_patterns_below_a_hash() {
    let one = "{h(*s)}KA";
    assert_eq!(with_bads(&[one], "-> {?x}KA"), refused(12, 5, 1));
    for sent in ["N", "(N, T)", "sig(N)KIi", "?n!x"] {
        let rule = format!("-> {{{sent}}}KA");
        assert_eq!(with_bads(&[one], &rule), 0, "{sent}");
    }
    let beside = "{(h(*s), ?y)}KA";
    assert_eq!(with_bads(&[beside], "-> {(h(T), N)}KA"), 0);
    assert_eq!(with_bads(&[beside], "-> {(?x, N)}KA"), refused(12, 5, 2));
    let plain = with_bads(&["{(h(?s), ?y)}KA"], "-> {(h(T), N)}KA");
    assert_eq!(plain, refused(12, 5, 4));
    let with = |bad: &str| {
        let bad = format!("bad {bad}\nrule -> {{(h(N), T)}}KA");
        answer(&format!("{SECRETS}secret h(N)\n{GOOD}{bad}"))
    };
    assert_eq!(with(beside), refused(12, 6, 2));
    assert_eq!(with("{(h(?s), *y)}KA"), 0);
    assert_eq!(with("{(h(sig(*s)KIi), ?y)}KA"), 0);
    let shown = "{(h(?z), ?y)}KA -> ?y";
    assert_eq!(with_bads(&[beside], shown), refused(12, 5, 5));
    assert_eq!(with_bads(&["{(h(?s), ?y)}KA"], shown), 0);
    assert_eq!(with_bads(&["{(h(?s), *y)}KA"], shown), 0);
}

/// The answer to these secrets, one block each, from block 1 on.
fn secrets(all: &[&str]) -> u32 {
    let lines: String = all.iter().map(|s| format!("secret {s}\n")).collect();
    answer(&format!("{OTHER_KEYS}{lines}rule -> T"))
}

const OTHER_KEYS: &str = "\
atom V private unknown partner W
atom W public unknown partner V
";

#[test]
fn listed_hashes_and_signatures_are_weakly_closed() {
    assert_eq!(secrets(&["h(N)", "N"]), 0);
    assert_eq!(secrets(&["N", "h(T)"]), refused(10, 2, 0));
    assert_eq!(secrets(&["N", "h((N, T))"]), refused(10, 2, 0));
    assert_eq!(secrets(&["N", "h((N, T))", "(N, T)"]), 0);
    assert_eq!(secrets(&["N", "h(h(N))"]), refused(10, 2, 0));
    assert_eq!(secrets(&["h(h(N))", "h(N)", "N"]), 0);
    assert_eq!(secrets(&["KAi", "h(sig(T)KAi)"]), refused(10, 2, 0));
    assert_eq!(secrets(&["sig(N)KIi", "N"]), 0);
    assert_eq!(secrets(&["sig(T)V", "V"]), 0);
    assert_eq!(secrets(&["W", "sig(T)V"]), refused(10, 2, 0));
    assert_eq!(secrets(&["V", "W", "sig(T)KAi"]), refused(10, 3, 0));
    assert_eq!(secrets(&["V", "sig(h(T))V", "sig(sig(h(T))V)KIi"]), 0);
    assert_eq!(
        secrets(&["V", "sig(h(T))V", "sig(sig(T)V)KIi"]),
        refused(10, 3, 0)
    );
    assert_eq!(secrets(&["V", "sig(T)V", "{sig(T)V}KI", "(sig(T)V, A)"]), 0);
}

/// The answer after these bytes of one entry of the rule.
fn with_entry(rule: &str, entry: usize, bytes: [u8; 4]) -> u32 {
    let mut file = file(&format!("{SECRETS}{GOOD}rule {rule}"));
    let rule = file.len() - 512;
    file[rule + 4 + 4 * entry..][..4].copy_from_slice(&bytes);
    literal::seal(&mut file[rule..]).expect("a block");
    check(&file)
}

#[test]
fn values_of_both() {
    let changed = |bytes| with_entry("h(T) -> (T, sig(A)KIi)", 4, bytes);
    assert_eq!(changed([9, 0, 5, 0]), 0);
    assert_eq!(changed([9, 0, 3, 0]), 0);
    for wrong in [[9, 0, 2, 0], [9, 0, 4, 0], [9, 0, 0, 0], [9, 0, 7, 0]] {
        assert_eq!(changed(wrong), refused(7, 4, 4), "{wrong:?}");
    }
    for wrong in [[9, 0, 8, 0], [9, 0, 255, 0], [9, 0, 3, 1], [9, 1, 3, 0]] {
        assert_eq!(changed(wrong), refused(7, 4, 4), "{wrong:?}");
    }
    assert_eq!(changed([8, 0, 0, 0]), 0);
    for wrong in [[8, 0, 1, 0], [8, 0, 0, 1], [8, 1, 0, 0], [8, 0, 3, 0]] {
        assert_eq!(changed(wrong), refused(7, 4, 4), "{wrong:?}");
    }
    for tag in [0, 10, 11, 15, 16, 24, 25, 255] {
        assert_eq!(changed([tag, 0, 0, 0]), refused(7, 4, 4), "{tag}");
    }
}

#[test]
fn signing_keys_of_two_atom_blocks() {
    let answer = |rest: &str| check(&joined(rest).concat());
    assert_eq!(answer("rule -> (sig(x1)P, sig(x1)L)"), 0);
    assert_eq!(answer("rule -> sig(M)L"), refused(12, 4, 1));
    for key in ["Q", "K", "S", "M", "x0"] {
        let rule = format!("rule -> sig(x1){key}");
        assert_eq!(answer(&rule), refused(7, 4, 0), "{key}");
    }
    assert_eq!(answer("secret sig(x1)L\nrule -> x1"), 0);
    assert_eq!(answer("secret sig(x1)P\nrule -> x1"), refused(10, 4, 0));
    assert_eq!(answer("secret sig(M)P\nrule -> sig(M)L"), refused(12, 5, 1));
}

#[test]
fn both_have_one_child() {
    for bytes in [[8, 0, 0, 0], [9, 0, 3, 0]] {
        let end = |rule, entry| with_entry(rule, entry, bytes);
        assert_eq!(end("-> T", 0), refused(8, 4, 0));
        assert_eq!(end("T -> T", 0), refused(8, 4, 0));
        assert_eq!(end("T -> (T, T)", 3), refused(8, 4, 1));
        assert_eq!(end("(T, T) -> T", 0), refused(8, 4, 0));
        assert_eq!(end("T -> {T}KI", 1), 0);
    }
}
