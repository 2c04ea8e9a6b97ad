//! What is said of each number: where, what was expected and what was found.

mod common;

use common::{assert_says, both_whys, of_text, why};
use explain::source::Source;
use text::document::{nonces, ATOMS, GOOD, SECRETS};

/// The text of the document's atoms and these lines, from line 9 on.
fn with_atoms(lines: &str) -> String {
    format!("{ATOMS}{lines}")
}

/// Of the document's atoms and these lines.
fn said_of(lines: &str) -> String {
    why(&of_text(&with_atoms(lines)))
}

/// Of the usual certificate with these bytes changed, and sealed again if wanted.
fn said_of_bytes(changes: &[(usize, u8)], sealed: bool) -> String {
    let text = with_atoms(&format!("{SECRETS}{GOOD}rule {{?x}}KA -> {{?x}}KA\n"));
    let mut file = of_text(&text).file;
    for (at, byte) in changes {
        file[*at] = *byte;
    }
    if sealed {
        for block in file.chunks_mut(512) {
            literal::seal(block).unwrap();
        }
    }
    why(&Source::of_bytes("lane.cert", file))
}

#[test]
fn one_length() {
    let file = of_text(&with_atoms("secret N")).file;
    let cut = why(&Source::of_bytes("lane.cert", file[..700].to_vec()));
    assert_says(&cut, "lane.cert: the length is wrong\n");
    assert_says(&cut, "found    700 bytes: 1 whole block and 188 bytes more");
    assert_says(&cut, "expected 1 to 64 blocks of 512 bytes");
    let empty = why(&of_text("# nothing\n"));
    assert_says(&empty, "found    a text without a line but comments");
    let nothing = why(&Source::of_bytes("lane.cert", Vec::new()));
    assert_says(&nothing, "found    nothing: the file is empty");
    let long = why(&Source::of_bytes("lane.cert", vec![0; 512 * 65]));
    assert_says(&long, "found    33280 bytes: 65 blocks");
}

#[test]
fn two_check() {
    let said = said_of_bytes(&[(512 + 508, 77)], false);
    assert_says(&said, ": block 1: the check is wrong");
    assert_says(&said, "found    77 in bytes 508 and 509, ");
    assert_says(&said, "expected 10 and ");
}

#[test]
fn three_kind() {
    let said = said_of("rule -> {N}KA\nsecret N");
    assert_says(
        &said,
        "lane.txt:10:1: block 2: the kind of the block is out of order",
    );
    assert_says(&said, "   10 | secret N\n      | ^^^^^^^^\n");
    assert_says(
        &said,
        "expected kind 5 (a rule): kinds rise from block to block",
    );
    assert_says(&said, "found    kind 2 (a secret), behind kind 5 (a rule)");
    let first = why(&of_text("rule -> ?x"));
    assert_says(&first, "expected kind 1: atoms come first");
    let unknown = said_of_bytes(&[(512, 9)], true);
    assert_says(&unknown, "found    kind 9 (unknown), behind kind 1 (atoms)");
    assert_says(&unknown, "expected a kind from 2 to 5");
}

#[test]
fn four_missing() {
    let [said, of_bytes] = both_whys(&with_atoms("secret N\n"));
    assert_says(&said, "lane.txt: something is missing\n");
    assert_says(&said, "found    no rule in 2 blocks");
    assert_says(&of_bytes, "found    no rule in 2 blocks");
    assert_says(&said_of("rule -> N"), "found    no secret in 2 blocks");
    assert_says(
        &said_of(""),
        "found    neither a secret nor a rule in 1 block",
    );
}

#[test]
fn five_counts() {
    let first = said_of_bytes(&[(513, 64)], true);
    assert_says(
        &first,
        "block 1: a count, byte 3 or an unused entry is wrong",
    );
    assert_says(
        &first,
        "expected a first count (byte 1) from 1 to 63\nfound    64",
    );
    let second = said_of_bytes(&[(514, 1)], true);
    assert_says(
        &second,
        "expected zero as the second count (byte 2)\nfound    1",
    );
    let of_rule = said_of_bytes(&[(4 * 512 + 2, 0)], true);
    assert_says(
        &of_rule,
        "expected a second count (byte 2) from 1 to 63\nfound    0",
    );
    let byte = said_of_bytes(&[(515, 7)], true);
    assert_says(&byte, "expected zero in byte 3\nfound    7");
    let unused = said_of_bytes(&[(512 + 4 + 5 * 4 + 1, 3)], true);
    assert_says(
        &unused,
        "expected zeros in every entry from 1 on: 1 are used",
    );
    assert_says(&unused, "found    [0, 3, 0, 0] in entry 5");
    let mut file = of_text(&format!("{}secret x0", nonces(127))).file;
    file[1] = 125;
    file[504..508].fill(0);
    file.chunks_mut(512)
        .for_each(|block| assert_eq!(literal::seal(block), Ok(4)));
    let not_full = why(&Source::of_bytes("lane.cert", file));
    assert_says(
        &not_full,
        "expected 126 atoms in block 0 before there is a second block of them",
    );
    assert_says(&not_full, "found    125 atoms in block 0");
}

#[test]
fn six_atoms() {
    let said = said_of("atom K symmetric unknown partner A\nsecret N\nrule -> T");
    assert_says(
        &said,
        "lane.txt:9:1: block 0, entry 8: the entry of an atom is wrong",
    );
    assert_says(
        &said,
        "expected partner K: a symmetric key is its own partner\nfound    partner A",
    );
    let private = said_of("atom K private unknown partner KA\nsecret N\nrule -> T");
    assert_says(
        &private,
        "expected a public key that names K as its partner too",
    );
    assert_says(
        &private,
        "found    partner KA, a public key, whose partner is KAi",
    );
    let nonce = said_of("atom M nonce known partner T\nsecret N\nrule -> T");
    assert_says(
        &nonce,
        "expected no partner, which is 0: a nonce has none\nfound    partner T",
    );
    let kind = said_of_bytes(&[(4, 9)], true);
    assert_says(&kind, "block 0, entry 0: ");
    assert_says(&kind, "found    kind 9");
    let known = said_of_bytes(&[(5, 2)], true);
    assert_says(
        &known,
        "expected 0 (unknown) or 1 (known)\nfound    2 as known",
    );
    let far = said_of_bytes(&[(4 + 4 * 2 + 2, 200)], true);
    assert_says(&far, "found    partner 200; 8 atoms are listed");
}

#[test]
fn seven_entries() {
    let said = said_of("secret (N, ?x)\nrule -> T");
    assert_says(
        &said,
        "lane.txt:9:12: block 1, entry 2: a tag, zero byte or value is wrong",
    );
    assert_says(&said, "    9 | secret (N, ?x)\n      |            ^^\n");
    assert_says(
        &said,
        "expected a secret without variables\nfound    a variable",
    );
    let marked = said_of("secret N\nrule -> {*s}KA");
    assert_says(
        &marked,
        "expected marked variables in good and bad patterns only",
    );
    let key = said_of("secret N\nrule -> (T, {N}A)");
    assert_says(&key, "lane.txt:10:13: block 2, entry 2");
    assert_says(
        &key,
        "expected a key to encrypt under\nfound    A, a principal",
    );
    let signed = said_of("secret N\nrule -> sig(N)KA");
    assert_says(
        &signed,
        "expected a private key to sign with\nfound    KA, a public key",
    );
    let at = 512 + 4;
    let tag = said_of_bytes(&[(at, 10)], true);
    assert_says(&tag, "expected a tag from 1 to 9\nfound    tag 10");
    let zero = said_of_bytes(&[(at + 1, 5)], true);
    assert_says(
        &zero,
        "expected zero in the entry's second byte\nfound    5",
    );
    let number = said_of_bytes(&[(at + 2, 8)], true);
    assert_says(
        &number,
        "expected an atom's number from 0 to 7: so many are listed\nfound    8",
    );
    let variable = said_of_bytes(&[(4 * 512 + 4 + 4 + 2, 8)], true);
    assert_says(
        &variable,
        "expected a variable's number from 0 to 7\nfound    8",
    );
    let hash = said_of_bytes(&[(at, 8)], true);
    assert_says(&hash, "expected value 0 of a hash\nfound    value 6");
    let pair = said_of_bytes(&[(at, 2)], true);
    assert_says(&pair, "expected value 0 of a pair\nfound    value 6");
}

#[test]
fn eight_terms() {
    let roots = [
        ("good (A, *s)", "a pair"),
        ("good N", "an atom"),
        ("bad *s", "a variable"),
        ("good h(*s)", "a hash, which is no hat"),
        ("bad sig(*s)KAi", "a signature, which hides nothing"),
    ];
    for (pattern, found) in roots {
        let said = said_of(&format!("secret N\n{pattern}\nrule -> T"));
        assert_says(
            &said,
            "block 2, entry 0: the entries are not exactly one term",
        );
        assert_says(
            &said,
            "expected an encryption {..}KEY at the root of a pattern",
        );
        assert_says(&said, &format!("found    {found}\n"));
    }
    let more = said_of_bytes(&[(513, 2), (512 + 8, 1)], true);
    assert_says(&more, "expected entries that are exactly one term");
    assert_says(&more, "found    a whole term, and behind it 1 entry");
    let less = said_of_bytes(&[(4 * 512 + 4 + 8, 2), (4 * 512 + 4 + 8 + 2, 0)], true);
    assert_says(&less, "block 4, entry 2: ");
    assert_says(&less, "found    2 entries, which need 1 term more");
}

#[test]
fn nine_known() {
    let [said, of_bytes] = both_whys(&with_atoms("secret N\nsecret T\nrule -> A\n"));
    assert_says(&said, "lane.txt:10:1: block 2: a secret is a known atom");
    assert_says(
        &said,
        "found    T, which the intruder knows from the beginning",
    );
    assert_says(
        &said,
        "lane.txt:8:1: block 0, entry 7: T is known\n    8 | atom T nonce known\n",
    );
    assert_says(&of_bytes, "found    n7, which the intruder knows");
}

#[test]
fn ten_not_closed() {
    let said = |secret: &str| said_of(&format!("secret {secret}\nrule -> A\n"));
    assert_says(
        &said("(N, T)"),
        "lane.txt:9:1: block 1: a secret is not weakly closed",
    );
    assert_says(
        &said("(N, T)"),
        "expected `secret N` or `secret T` among the secrets",
    );
    assert_says(&said("{N}KA"), "expected `secret N` or `secret KA` among");
    assert_says(
        &said("sig(N)KAi"),
        "expected `secret N` or `secret KAi` among",
    );
    assert_says(&said("h(N)"), "expected `secret N` among the secrets");
    assert_says(&said("h(N)"), "whoever has the message makes the hash");
}

#[test]
fn eleven_key_not_kept() {
    let said = said_of("secret N\ngood {*s}KA\nrule -> A\n");
    assert_says(
        &said,
        "lane.txt:10:1: block 2: the inverse of a good pattern's root key",
    );
    assert_says(&said, "expected `secret KAi` among the secrets");
    assert_says(&said, "KAi opens what is encrypted under KA");
    assert_says(&said, "lane.txt:4:1: block 0, entry 3: the atom KAi\n");
}

/// A key that everybody has protects nothing, so listing it does not help.
#[test]
fn eleven_key_known() {
    let said = said_of("secret N\ngood {*s}KI\nrule -> A\n");
    assert_says(
        &said,
        "expected a key whose inverse the intruder does not have",
    );
    assert_says(
        &said,
        "found    KIi, which opens what is under KI and is known: drop the pattern",
    );
}

#[test]
fn fifteen_open_secret() {
    let said = said_of(&format!("{SECRETS}{GOOD}rule (T, {{N}}KI) -> T\n"));
    assert_says(
        &said,
        "lane.txt:12:11: block 4, entry 3: the premise has a listed secret",
    );
    assert_says(&said, "   12 | rule (T, {N}KI) -> T\n      |           ^\n");
    assert_says(
        &said,
        "{N}KI (12:10, entry 2) shares an instance with no good pattern",
    );
    assert_says(
        &said,
        "good {*s}KA (line 11, block 3): another key at the root",
    );
    let bare = said_of(&format!("{SECRETS}{GOOD}rule N -> T\n"));
    assert_says(&bare, "no encryption stands above it");
    let no_goods = said_of(&format!("{SECRETS}rule {{N}}KA -> T\n"));
    assert_says(
        &no_goods,
        "shares an instance with no good pattern:\n    the certificate has none\n",
    );
    assert_says(
        &no_goods,
        "or give that message a good pattern, or drop the rule",
    );
    let bad = said_of(&format!(
        "{SECRETS}{GOOD}bad {{(I, *x)}}KA\nrule {{(I, N)}}KA -> T\n"
    ));
    assert_says(
        &bad,
        "does not close it: it is bad {(I, *x)}KA (line 12, block 4)",
    );
    let clash = said_of(&format!(
        "{SECRETS}good {{(T, *s)}}KA\nrule {{(I, N)}}KA -> T\n"
    ));
    assert_says(&clash, "it has T (11:8, entry 2), and here is the atom I");
    let twice = said_of(&format!(
        "{SECRETS}good {{(?x, (?x, *s))}}KA\nrule {{(I, (T, N))}}KA -> T\n"
    ));
    assert_says(
        &twice,
        "a variable would have to be two messages, or hold itself",
    );
}

/// An accepted file needs no reason, and a verdict that differs is told.
#[test]
fn accepted_and_different() {
    let text = with_atoms(&format!("{SECRETS}{GOOD}rule -> {{N}}KA\n"));
    let source = of_text(&text);
    assert_says(&why(&source), "Nothing is to be explained");
    assert!(!why(&source).contains("DIFFER"));
    let other = explain::why(&source, "refused 12 block=4 place=1");
    assert_says(&other, "WARNING: THE TWO VERDICTS DIFFER");
    assert_says(
        &other,
        "proved:  refused 12 block=4 place=1\nliteral: accepted blocks=5 ",
    );
}
