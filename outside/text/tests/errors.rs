//! What is said of texts that cannot be assembled.

use text::document::{nonces, ATOMS};
use text::{assemble, Error};

fn error_of(text: &str) -> Error {
    assemble(text).unwrap_err()
}

/// What is said of this line when it stands after the atoms.
fn error_after_atoms(line: &str) -> Error {
    error_of(&format!("{ATOMS}{line}"))
}

/// The error as a paragraph of the tables has it: the line, carets below the
/// piece, what was expected and found, and the hint.
fn paragraph(line: &str, error: &Error) -> String {
    let indent = " ".repeat(error.at.column - 1);
    let carets = "^".repeat(error.at.width);
    let Error {
        expected, found, ..
    } = error;
    let hint = error.hint.as_ref().map(|hint| format!("\nhint: {hint}"));
    let hint = hint.unwrap_or_default();
    format!("{line}\n{indent}{carets}\nexpected {expected}, found {found}{hint}")
}

/// Each paragraph begins with a line that cannot be read after the atoms.
fn compare_table(table: &str) {
    for wanted in table.trim_end().split("\n\n") {
        let line = wanted.lines().next().unwrap();
        let error = error_after_atoms(line);
        assert_eq!(error.at.line, 9, "{line}");
        assert_eq!(paragraph(line, &error), wanted);
    }
}

#[test]
fn wrong_terms() {
    compare_table(include_str!("wrong/terms.txt"));
}

#[test]
fn wrong_signs_and_names() {
    compare_table(include_str!("wrong/signs.txt"));
}

#[test]
fn wrong_atoms_and_first_words() {
    compare_table(include_str!("wrong/atoms.txt"));
}

/// Characters that show as nothing are told by their numbers.
#[test]
fn signs_that_cannot_be_seen() {
    let control = error_after_atoms("secret \u{1}N").to_string();
    let words = "9:8: expected a term, found the control character U+0001";
    assert_eq!(control, words);
    let no_width = error_after_atoms("secret (N\u{200B}, A)").to_string();
    assert_eq!(no_width, "9:10: expected `,`, found U+200B");
}

/// Letters of other alphabets, as atoms' names, for the Latin ones.
#[test]
fn letters_that_look_alike() {
    let cyrillic = ("АВЕЅІЈКМНОРСТХаеіјорсух", "ABESIJKMHOPCTXaeijopcyx");
    let greek = ("ΑΒΕΖΗΙΚΜΝΟΡΤΥΧονι", "ABEZHIKMNOPTYXovi");
    let full_width = ("ＡＺａｚ０９", "AZaz09");
    for (others, latin) in [cyrillic, greek, full_width] {
        let pairs: Vec<(char, char)> = others.chars().zip(latin.chars()).collect();
        assert_eq!(pairs.len(), latin.len());
        let hints = pairs.iter().map(|(other, latin)| {
            let text = format!("atom {latin} nonce known\nsecret {other}");
            error_of(&text).hint.unwrap_or_default()
        });
        let wanted = latin
            .chars()
            .map(|latin| format!("did you mean `{latin}`?"));
        assert_eq!(hints.collect::<Vec<_>>(), wanted.collect::<Vec<_>>());
    }
}

#[test]
fn first_words() {
    let first = "expected `atom`, `secret`, `good`, `bad` or `rule`, found";
    for (text, words) in [
        ("foo", "1:1: EXPECTED `foo`"),
        ("\n  ( A", "2:3: EXPECTED `(`"),
        ("h(A)", "1:1: EXPECTED `h(`"),
        ("sig(A)", "1:1: EXPECTED `sig(`"),
        ("// atoms", "1:1: EXPECTED `//`; a comment begins with #"),
        ("\u{FEFF}atom A principal known", "1:1: EXPECTED U+FEFF"),
    ] {
        let expected = words.replace("EXPECTED", first);
        assert_eq!(error_of(text).to_string(), expected);
    }
}

#[test]
fn lines_of_errors() {
    let no_atom = error_of("\n# note\nsecret N").to_string();
    let words = "3:8: expected an atom's name, found `N`, which is no atom; \
                 an atom needs a line `atom N ..`, and a variable is written `?N`";
    assert_eq!(no_atom, words);
    let late = error_after_atoms("secret N\natom M nonce known\natom L nonce known");
    let words = "10:1: expected `secret`, `good`, `bad` or `rule`, found `atom`; \
                 atoms come before all other lines";
    assert_eq!(late.to_string(), words);
    let mistyped = error_of("Atom A principal known\natom B principal known\n").to_string();
    assert!(
        mistyped.ends_with("found `Atom`; did you mean `atom`?"),
        "{mistyped}"
    );
}

/// `h` and `sig` may be atoms, and are no names only directly before `(`.
#[test]
fn an_atom_named_h_before_a_parenthesis() {
    let apart = error_after_atoms("atom h nonce known\nrule -> h (h)").to_string();
    let words = "10:11: expected the end of the line, found `(`; write `h(` without a space";
    assert_eq!(apart, words);
}

#[test]
fn more_than_blocks_hold() {
    let hint = "each atom, variable, pair, encryption, hash and signature is an entry";
    let long = error_after_atoms(&format!("secret {}N{} ", "(N, ".repeat(32), ")".repeat(32)));
    let words = "9:8: expected a term of at most 63 entries, found one of 65; ";
    assert_eq!(long.to_string(), format!("{words}{hint}"));
    assert_eq!(long.at.width, 5 * 32 + 1);
    let deep = error_after_atoms(&format!("secret {}", "(".repeat(100_000)));
    let words = "9:71: expected a term of at most 63 entries, found one that is nested deeper; ";
    assert_eq!(deep.to_string(), format!("{words}{hint}"));
    let blocks = error_of(&"rule -> ?x\n".repeat(65));
    let words = "65:1: expected at most 64 blocks, found one more; \
                 each secret, pattern and rule is a block, and the atoms are one or two";
    assert_eq!(blocks.to_string(), words);
    assert_eq!(blocks.at.width, 10);
    let atoms = error_of(&nonces(253)).to_string();
    assert_eq!(atoms, "253:6: expected at most 252 atoms, found one more");
}

#[test]
fn a_ninth_variable() {
    let ninth = error_after_atoms("rule -> (?a, (?b, (?c, (?1, (?e, (?f, (?g, (?h, ?i))))))))");
    let words = "9:49: expected one of the block's eight plain variables, found `?i`; \
                 a block has at most eight variables of each sort: \
                 `?a`, `?1`, `?b`, `?c`, `?e`, `?f`, `?g`, `?h`";
    assert_eq!(ninth.to_string(), words);
    let nested = "*n!a, (*n!b, (*n!c, (*n!d, (*n!e, (*n!f, (*n!g, (*n!h, *n!i";
    let marked = error_after_atoms(&format!("good {{({nested}))))))))}}KA"));
    assert_eq!(
        marked.expected,
        "one of the block's eight marked nonce variables"
    );
    assert_eq!(marked.found, "`*n!i`");
}

/// Of a long name only the beginning is told.
#[test]
fn long_names() {
    let error = error_after_atoms(&format!("secret {}", "x".repeat(1_000_000)));
    assert_eq!(
        error.found,
        format!("`{}..`, which is no atom", "x".repeat(40))
    );
    assert_eq!(error.hint, None);
    assert_eq!((error.at.column, error.at.width), (8, 1_000_000));
    assert!(
        error
            .told("a.txt", &format!("{ATOMS}secret {}", "x".repeat(1_000_000)))
            .len()
            < 1_000
    );
}

#[test]
fn told_with_the_line() {
    let text = format!("{ATOMS}secret (N, A, T)");
    assert_eq!(
        error_of(&text).told("lane.txt", &text),
        "\
lane.txt:9:13: expected `)`, found `,`
    9 | secret (N, A, T)
      |             ^
hint: a tuple is pairs: (N, (A, A))"
    );
    let text = format!("{ATOMS}\tsecret\t{{N}}KAA?x # why\n");
    assert_eq!(
        error_of(&text).told("standard input", &text),
        "\
standard input:9:12: expected a key's name, found `KAA`, which is no atom
    9 | \tsecret\t{N}KAA?x # why
      | \t      \t   ^^^
hint: did you mean `KAi`?"
    );
    let text = "rule ?x\r\n";
    let words = error_of(text).told("a", text);
    let lines: Vec<&str> = words.lines().collect();
    assert_eq!(lines[1], "    1 | rule ?x");
    assert_eq!(lines[2], "      |        ^");
}
