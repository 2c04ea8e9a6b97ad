//! What is suspect, each by a text that has just that.

mod common;

use common::{assert_says, lint, of_text};
use explain::lint::suspects;
use explain::scene::Scene;
use explain::source::Source;

/// Every atom is used, and the intruder has keys of its own.
const CLEAN: &str = "\
atom A principal known
atom KA public known partner KAi
atom KAi private unknown partner KA
atom KI public known partner KIi
atom KIi private known partner KI
atom KX symmetric known
atom N nonce unknown
secret N
secret KAi
good {(A, *s)}KA
bad {(A, (KX, ?x))}KA
rule -> {(A, N)}KA
rule -> {(A, (KX, A))}KA
rule {?x}KI -> ?x
";

/// The suspects of a text that the checker accepts.
fn words_of(text: &str) -> Vec<String> {
    let source = of_text(text);
    assert!(common::line(&source).starts_with("accepted "), "{text}");
    words_in(&source)
}

fn words_in(source: &Source) -> Vec<String> {
    let certificate = &literal::read::read(&source.file).unwrap();
    let found = suspects(Scene {
        source,
        certificate,
    });
    let words = |suspect: &explain::lint::Suspect| {
        format!("{}: {}", source.label(suspect.at), suspect.words)
    };
    found.iter().map(words).collect()
}

/// The one suspect of the clean text with these lines exchanged.
fn one(old: &str, new: &str) -> String {
    let changed = CLEAN.replace(old, new);
    assert_ne!(changed, CLEAN);
    let words = words_of(&changed);
    assert_eq!(words.len(), 1, "{words:?}");
    words[0].clone()
}

#[test]
fn nothing() {
    assert_eq!(words_of(CLEAN), Vec::<String>::new());
    let said = lint(&of_text(CLEAN));
    assert!(said.ends_with("\nnothing is suspect\n"), "{said}");
}

#[test]
fn a_variable_of_the_conclusion_only() {
    let found = one("{(A, N)}KA", "{(A, ((?z, ?y), A))}KA");
    assert_says(
        &found,
        "lane.txt:12:16: block 5, entry 5: only the conclusion has ?z and ?y",
    );
    let other_sort = one("rule {?x}KI -> ?x", "rule {?x}KI -> {(A, ?n!x)}KA");
    assert_says(
        &other_sort,
        "only the conclusion has ?n!x: the rule sends any nonce, a secret one too",
    );
    let no_secret = CLEAN
        .replace("secret N\n", "")
        .replace("(A, N)", "(A, ?n!x)");
    let words = words_of(&no_secret);
    assert_says(
        &words[0],
        "only the conclusion has ?n!x: the rule sends any nonce there",
    );
}

#[test]
fn no_key_of_the_intruder() {
    let unknown = one("KX symmetric known", "KX symmetric unknown");
    assert_says(&unknown, "lane.txt: no symmetric key is known");
    let none = one("atom KX symmetric known", "atom KX nonce known");
    assert_says(&none, "lane.txt: no symmetric key is listed or known");
    let private = one("KIi private known", "KIi private unknown");
    assert_says(&private, "lane.txt: no private key is known");
}

#[test]
fn a_good_pattern_without_a_mark() {
    let found = one("bad {", "good {(A, ?y)}KA\nbad {");
    assert_says(
        &found,
        "lane.txt:11:1: block 4: a good pattern without a mark",
    );
}

#[test]
fn a_pattern_without_use() {
    let good = one("bad {", "good {(KI, *s)}KA\nbad {");
    assert_says(
        &good,
        "lane.txt:11:1: block 4: no encryption at a place of any rule matches",
    );
    let bad = one(
        "bad {(A, (KX, ?x))}KA",
        "bad {(A, (KX, ?x))}KA\nbad {(A, A)}KA",
    );
    assert_says(
        &bad,
        "lane.txt:12:1: block 5: no encryption at a place of any rule matches",
    );
    let below_a_hash = "rule -> h({(A, A)}KA)\nrule {?x}KI -> ?x";
    let hidden = CLEAN.replace("bad {", "bad {(A, A)}KA\nbad {");
    let words = words_of(&hidden.replace("rule {?x}KI -> ?x", below_a_hash));
    assert_eq!(words.len(), 1, "{words:?}");
}

#[test]
fn a_bad_pattern_without_a_good_one() {
    let lines = "bad {KX}KI\nrule -> {KX}KI\n";
    let (bad, rule) = lines.split_once('\n').unwrap();
    let text = CLEAN.replace(
        "rule -> {(A, N)}KA",
        &format!("{bad}\nrule -> {{(A, N)}}KA"),
    );
    let words = words_of(&(text + rule));
    assert_eq!(words.len(), 1, "{words:?}");
    assert_says(
        &words[0],
        "lane.txt:12:1: block 5: no good pattern shares an instance with",
    );
}

/// A key that the intruder has need not stand in a term: it may encrypt with it.
#[test]
fn keys_of_the_intruder_are_used() {
    let text = CLEAN.replace("atom N ", "atom KY symmetric known\natom N ");
    assert_eq!(words_of(&text), Vec::<String>::new());
}

#[test]
fn an_atom_without_use() {
    let found = one("atom N ", "atom M nonce known\natom N ");
    assert_says(&found, "lane.txt:7:1: block 0, entry 6: no term uses M");
    let two = one(
        "atom N ",
        "atom M nonce known\natom L principal known\natom N ",
    );
    assert_says(&two, "block 0, entry 6: no term uses M, L");
}

#[test]
fn equal_blocks() {
    let found = one("rule {?x}KI -> ?x", "rule {?x}KI -> ?x\nrule {?y}KI -> ?y");
    assert_says(
        &found,
        "lane.txt:15:1: block 8: this block is equal to an earlier one, line 14, block 7",
    );
}

/// A refused file that can be read is looked at too; another one is not.
#[test]
fn refused_files() {
    let source = of_text(&format!("{CLEAN}rule -> N\n"));
    assert!(common::line(&source).starts_with("refused 12 "));
    assert_eq!(words_in(&source).len(), 0);
    let unread = lint(&of_text("atom A principal known\nsecret ?x\n"));
    assert_says(
        &unread,
        "The file cannot be read as a certificate: --why tells the cause.",
    );
}

/// The corpus has a file whose missing key hides an attack.
#[test]
fn the_trap() {
    let all = common::texts("../corpus");
    let (_, text) = all
        .iter()
        .find(|(name, _)| name == "trap-no-intruder-key")
        .unwrap();
    let said = lint(&of_text(text));
    assert_says(
        &said,
        "no symmetric key is known: attacks with one of the intruder's own",
    );
}
