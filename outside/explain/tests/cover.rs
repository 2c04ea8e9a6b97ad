//! What is said of a 12: the place, why it is risky, why no hat and why the premise
//! does not cover it; and the slips of three designers.

mod common;

use common::{assert_says, both_whys, of_text, texts, why};
use text::document::{ATOMS, GOOD, SECRETS};

/// Of the document's atoms and secrets and these lines, from line 11 on.
fn said_of(lines: &str) -> String {
    let [said, of_bytes] = both_whys(&format!("{ATOMS}{SECRETS}{lines}"));
    assert_says(&of_bytes, "The file came as bytes");
    assert_says(&of_bytes, "a risky place of the conclusion is not covered");
    said
}

/// Of these lines behind the usual good pattern, from line 12 on.
fn usual(lines: &str) -> String {
    said_of(&format!("{GOOD}{lines}"))
}

#[test]
fn where_it_is() {
    let said = usual("rule {?x}KI -> ?x\n\trule  {?x}KA ->\t{ ?x }KI # sends on\n");
    assert_says(&said, "lane.txt:13:2: block 5, kind 5 (a rule)\n");
    assert_says(
        &said,
        "lane.txt:13:20: block 5, entry 3: a risky place of the conclusion",
    );
    assert_says(&said, "   13 | \trule  {?x}KA ->\t{ ?x }KI # sends on\n");
    assert_says(&said, "      | \t               \t  ^^\n");
}

#[test]
fn why_risky() {
    assert_says(
        &usual("rule -> N\n"),
        "it is listed: secret N (line 9, block 1)",
    );
    let variable = usual("rule {?x}KA -> ?x\n");
    assert_says(&variable, "?x is a variable: it may stand for N, a secret");
    let nonce = usual("rule {?n!x}KA -> ?n!x\n");
    assert_says(
        &nonce,
        "?n!x is a nonce variable: it may stand for N, a secret",
    );
    let atoms = "atom K symmetric unknown\n";
    let none = both_whys(&format!("{atoms}secret K\nrule -> ?n!x\n"));
    assert_says(
        &none[0],
        "every one in a conclusion is risky, also if no secret is a nonce",
    );
    let shared = said_of("secret (N, T)\ngood {?x}KA\nrule {(?x, ?y)}KA -> (?x, ?y)\n");
    let words = "(?x, ?y) shares an instance with secret (N, T) (line 11, block 3): (N, T)";
    assert_says(&shared, words);
}

#[test]
fn why_no_hat() {
    let none = usual("rule {?x}KA -> (T, ?x)\n");
    assert_says(&none, "no encryption stands above it, so everybody gets it");
    let signed = usual("rule {?x}KA -> sig(?x)KAi\n");
    assert_says(&signed, "sig(?x)KAi (12:16, entry 2) hides nothing");
    let key = usual("rule {?x}KA -> {?x}KI\n");
    assert_says(&key, "{?x}KI (12:16, entry 2) is no sure hat:");
    assert_says(
        &key,
        "good {*s}KA (line 11, block 3): another key at the root",
    );
    let field = said_of("good {(T, *s)}KA\nrule -> {(I, N)}KA\n");
    let words = "does not match: it has T (11:8, entry 2), and here is the atom I";
    assert_says(&field, words);
    let twice = said_of("good {(?x, (?x, *s))}KA\nrule -> {(I, (T, N))}KA\n");
    let words = "?x (11:13, entry 4) stands for I already, and here is the atom T";
    assert_says(&twice, words);
    let nonce = said_of("good {*n!s}KA\nrule {?x}KA -> {?x}KA\n");
    let words = "it has *n!s (11:7, entry 1), which takes one nonce, and here is the variable ?x";
    assert_says(&nonce, words);
    let [no_goods, _] = both_whys(&format!("{ATOMS}{SECRETS}rule -> {{N}}KA\n"));
    assert_says(&no_goods, "the certificate has no good pattern");
}

#[test]
fn why_no_mark() {
    let other = said_of("good {(?x, *s)}KA\nrule -> {(N, T)}KA\n");
    let words = "matches, but has no mark at or above the place: it marks *s (11:12, entry 3)";
    assert_says(&other, words);
    let hint = "hint: here it has ?x (11:8, entry 2); a mark `*` in place of `?` would protect";
    assert_says(&other, hint);
    let atom = said_of("good {(N, *s)}KA\nrule -> {(N, T)}KA\n");
    let words = "hint: here it has N (11:8, entry 2); a marked variable in its place would protect";
    assert_says(&atom, words);
    let twice = said_of("good {(?x, ?x)}KA\nrule -> {(N, N)}KA\n");
    assert_says(
        &twice,
        "a mark `*` in place of `?` at all its places would protect the place",
    );
    let taken = said_of("good {(?s, *s)}KA\nrule -> {(N, T)}KA\n");
    assert_says(
        &taken,
        "here it has ?s (11:8, entry 2); a mark of another name in its place would",
    );
    let lower = said_of("secret (N, T)\ngood {(*s, ?t)}KA\nrule -> {(N, T)}KA\n");
    assert_says(&lower, "it marks *s (12:8, entry 2) below the place");
    let bad = "bad {(I, ?k)}KA\n";
    let taken = said_of(&format!(
        "good {{(?a, ?k)}}KA\n{bad}rule -> {{(?x, N)}}KA\n"
    ));
    let words =
        "here it has ?a (11:8, entry 2); a mark `*` in place of `?` is wanted; and then\n      bad";
    assert_says(&taken, words);
    let below = said_of("good {(?x, *s)}KA\nrule -> {((T, N), T)}KA\n");
    assert_says(&below, hint);
}

/// The same fields in another order, or bracketed otherwise.
#[test]
fn why_another_order() {
    let order = said_of("good {(*s, T)}KA\nrule -> {(T, N)}KA\n");
    assert_says(
        &order,
        "hint: with the halves of its (*s, T) (11:7, entry 1) exchanged it would match\n",
    );
    let no_mark = said_of("good {(?s, T)}KA\nrule -> {(T, N)}KA\n");
    assert_says(
        &no_mark,
        "exchanged it would match, but has no mark for the place\n",
    );
    let brackets = said_of("good {((A, I), *s)}KA\nrule -> {(A, (I, N))}KA\n");
    assert_says(
        &brackets,
        "hint: its fields are the same, but bracketed otherwise",
    );
    let other = said_of("good {((A, A), *s)}KA\nrule -> {(A, (I, N))}KA\n");
    assert!(!other.contains("bracketed"), "{other}");
}

#[test]
fn why_a_bad_pattern() {
    let whole = usual("bad {(I, ?x)}KA\nrule {(T, ?x)}KA -> {?x}KA\n");
    assert_says(
        &whole,
        "good {*s}KA (line 11, block 3) matches, with a mark, but\n",
    );
    let words = "bad {(I, ?x)}KA (line 12, block 4) shares an instance: {(I, N)}KA; it has no mark";
    assert_says(&whole, words);
    let marked =
        |bad: &str, message: &str| usual(&format!("bad {bad}\nrule {{(T, ?x)}}KA -> {message}\n"));
    let below = marked("{(I, *x)}KA", "{?x}KA");
    assert_says(&below, "its *x (12:10, entry 3) stands below the place");
    let at = marked("{(I, *x)}KA", "{(I, ?x)}KA");
    assert_says(&at, "its *x (12:10, entry 3) stands at the place");
    let above = marked("{(I, *x)}KA", "{(I, (T, ?x))}KA");
    assert_says(&above, "its *x (12:10, entry 3) stands above the place");
    let beside = marked("{(*y, ?x)}KA\nbad {(T, (I, ?x))}KA", "{(T, ?x)}KA");
    assert_says(
        &beside,
        "bad {(T, (I, ?x))}KA (line 13, block 5) shares an instance",
    );
    assert!(!beside.contains("its *y"), "{beside}");
}

#[test]
fn why_not_the_premise() {
    assert_says(&usual("rule -> ?x\n"), "the rule has no premise");
    let closed = usual("rule (T, {(?x, T)}KA) -> ?x\n");
    assert_says(&closed, "?x (12:12, entry 4) is no open place:");
    let words = "{(?x, T)}KA (12:10, entry 2) closes it: \
                 it shares an instance with good {*s}KA (line 11, block 3): {(N, T)}KA";
    assert_says(&closed, words);
    let hash = usual("rule h(?x) -> ?x\n");
    assert_says(
        &hash,
        "?x (12:8, entry 1) stands below a hash, which shows nothing of it",
    );
    let marks = usual("bad {(*y, ?x)}KA\nrule {(T, ?x)}KA -> ?x\n");
    let words =
        "bad {(*y, ?x)}KA (line 12, block 4) matches, but has no mark at or above the place";
    assert_says(&marks, words);
    let narrow = usual("bad {(I, ?x)}KA\nrule {?m}KA -> ?m\n");
    let words = "bad {(I, ?x)}KA (line 12, block 4) would open it if it matched; \
                 but it has (I, ?x) (12:6, entry 1), and here is the variable ?m";
    assert_says(&narrow, words);
    let elsewhere = usual("bad {(*y, (I, ?x))}KA\nrule {(T, ?m)}KA -> ?m\n");
    assert!(!elsewhere.contains("would open it"), "{elsewhere}");
    let sorts = usual("rule ?n!x -> ?x\n");
    assert_says(&sorts, "?x does not stand in the premise");
    assert_says(&sorts, "hint: ?n!x and ?x are two variables, of two sorts");
    let ground = usual("rule T -> ?x\n");
    assert_says(&ground, "the premise has no variable");
    assert_says(&usual("rule T -> N\n"), "N does not stand in the premise\n");
    let key = usual("rule {T}KAi -> KAi\n");
    assert_says(
        &key,
        "KAi does not stand in the premise but as a key, and keys are no places",
    );
    let field = said_of("good {(*k, ?t)}KA\nrule {(?k, ?t)}KA -> ?t\n");
    let words = "hint: it closes all below it, marked or not; \
                 if this field is for everybody, `bad {(?k, *t)}KA` opens it";
    assert_says(&field, words);
    let opened = "good {(*k, ?t)}KA\nbad {(?k, *t)}KA\nrule {(?k, ?t)}KA -> ?t\n";
    let opened = of_text(&format!("{ATOMS}{SECRETS}{opened}"));
    assert!(common::line(&opened).starts_with("accepted "));
    let marked = usual("rule {(?k, ?t)}KA -> ?t\n");
    assert!(!marked.contains("closes all below it"), "{marked}");
}

/// An attack that does without the refused rule says so.
#[test]
fn attacks_of_other_rules() {
    let other = usual("rule {?x}KA -> {?x}KI\nrule -> {N}KI\n");
    assert_says(&other, "Broken: after this run the intruder has secret N");
    assert_says(&other, "The refused rule takes no part in this run");
    let own = usual("rule -> {N}KI\n");
    assert!(!own.contains("takes no part"), "{own}");
}

/// Of many patterns the near ones are told, the rest is counted.
#[test]
fn many_patterns() {
    let goods: String = (0..9)
        .map(|i| format!("good {{(KA, (T, (*s, ?{})))}}KA\n", i % 8))
        .collect();
    let near = "good {(I, (A, (*s, A)))}KA\n";
    let said = said_of(&format!("{goods}{near}rule -> {{(I, (T, (N, A)))}}KA\n"));
    assert_says(&said, "4 more good patterns under this key do not match");
    let first = said.find("does not match").unwrap();
    assert_says(&said[first - 60..first], near.trim());
}

/// A long example of a common instance is not printed: here each variable would
/// be a pair of two of the next.
#[test]
fn long_examples() {
    let bad = "{((?0, (?1, (?2, (?3, (?4, ?5))))), (?1, (?2, (?3, (?4, ?5)))))}KA";
    let pairs = "((?1, ?1), ((?2, ?2), ((?3, ?3), ((?4, ?4), ((?5, ?5), (?6, ?6))))))";
    let rule = format!("rule -> {{({pairs}, (?1, (?2, (?3, (?4, ?5)))))}}KA\n");
    let said = usual(&format!("bad {bad}\n{rule}"));
    assert_says(
        &said,
        "shares an instance: one of more than 40 symbols, too long to print",
    );
}

/// Each refused example says the words that it asks for.
#[test]
fn examples_say_their_words() {
    let mut asked = 0;
    for (name, text) in texts("../../examples") {
        let path = format!("{name}.txt");
        let source = explain::source::Source::of_text(&path, text.as_bytes()).unwrap();
        let said = why(&source);
        for words in text.lines().filter_map(|line| line.strip_prefix("# why: ")) {
            assert!(
                said.contains(words),
                "{name}: `{words}` is not said:\n{said}"
            );
            asked += 1;
        }
    }
    assert!(asked > 12);
}

/// The three slips, and that the certificates are accepted without them.
#[test]
fn slips_mended() {
    let slips = [
        ("slip-pattern-order", "(*g, ORDER)", "(ORDER, *g)"),
        (
            "slip-forgotten-mark",
            "good {(OPEN, ?g)}",
            "good {(OPEN, *g)}",
        ),
        ("slip-mistyped-variable", "(BOARD, ?n)", "(BOARD, ?m)"),
    ];
    let all = texts("../../examples");
    for (name, wrong, right) in slips {
        let (_, text) = all.iter().find(|(other, _)| other == name).unwrap();
        let mended = of_text(&text.replace(wrong, right));
        let line = common::line(&mended);
        assert!(line.starts_with("accepted "), "{name}: {line}");
    }
}
