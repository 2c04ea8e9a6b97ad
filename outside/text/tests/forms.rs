//! The text form: the document's cases as text, and what its lines stand for.

mod common;

use common::{line_of, notes, usual, NONE};
use text::document::{nonces, ATOMS, GOOD, SECRETS};
use text::{assemble, print};

#[test]
fn the_documents_cases() {
    let accepted = "accepted blocks=5 secrets=2 good=1 bad=0 rules=1";
    assert_eq!(usual("rule -> {N}KA"), accepted);
    assert_eq!(usual("rule -> {N}KI"), "refused 12 block=4 place=1");
    assert_eq!(usual("rule {?x}KA -> {?x}KI"), "refused 12 block=4 place=3");
    assert_eq!(usual("rule {?x}KI -> ?x"), accepted);
    let e = format!("{SECRETS}good {{(T, *s)}}KA\nrule {{(I, ?x)}}KA -> {{?x}}KI");
    assert_eq!(line_of(&e), accepted);
    let with_bad = "accepted blocks=6 secrets=2 good=1 bad=1 rules=1";
    assert_eq!(
        usual("bad {(I, ?x)}KA\nrule {(I, ?x)}KA -> {?x}KI"),
        with_bad
    );
    let g = usual("bad {(I, ?x)}KA\nrule {(T, ?x)}KA -> {?x}KA");
    assert_eq!(g, "refused 12 block=5 place=5");
    let h = line_of("secret N\ngood {*s}KA\nrule -> {N}KA");
    assert_eq!(h, "refused 11 block=2 place=0");
    let i = line_of("secret T\nsecret N\nsecret KAi\ngood {*s}KA\nrule -> {N}KA");
    assert_eq!(i, "refused 9 block=1 place=0");
    let j = line_of("secret (N, T)\ngood {*s}KA\nrule -> {N}KA");
    assert_eq!(j, "refused 10 block=1 place=0");
    assert_eq!(usual("rule N -> KAi"), "refused 15 block=4 place=0");
}

#[test]
fn numbers_of_variables() {
    let good = entries_of("good {(?x, (*x, (?y, ?x)))}KA");
    assert_eq!(good[2..], [(4, 0), (2, 0), (5, 0), (2, 0), (4, 1), (4, 0)]);
    let rule = entries_of("rule ?b -> (?a, ?b)");
    assert_eq!(rule, [(4, 0), (2, 0), (4, 1), (4, 0)]);
    let digits = entries_of("rule ?a -> (?0, (?7, ?b))");
    assert_eq!(digits, [(4, 1), (2, 0), (4, 0), (2, 0), (4, 7), (4, 2)]);
}

/// Marks in a bad pattern are written and printed as in a good one.
#[test]
fn marks_in_bad_patterns() {
    let lines = "bad {(?x, (*x, (*y, *x)))}KA\nrule -> {N}KA";
    let file = assemble(&format!("{ATOMS}{SECRETS}{GOOD}{lines}")).unwrap();
    let entries = file[4 * 512 + 4..].chunks(4).map(|e| (e[0], e[2]));
    let expected = [
        (3, 2),
        (2, 0),
        (4, 0),
        (2, 0),
        (5, 0),
        (2, 0),
        (5, 1),
        (5, 0),
    ];
    assert_eq!(entries.take(8).collect::<Vec<_>>(), expected);
    let printed = print(&file);
    assert!(printed.contains("\nbad {(?0, (*0, (*1, *0)))}k2  # block 4\n"));
    assert_eq!(notes(&printed), NONE);
    assert_eq!(assemble(&printed), Ok(file));
    let accepted = "accepted blocks=6 secrets=2 good=1 bad=1 rules=1";
    assert_eq!(
        usual("bad {(I, (?x, *y))}KA\nrule -> {(I, (N, T))}KA"),
        accepted
    );
    let in_rule = print(&assemble(&format!("{ATOMS}rule -> {{*x}}KA")).unwrap());
    assert!(in_rule.contains("# block 1: entry 1: a marked variable in a rule\n"));
}

/// Each of the four sorts is numbered apart, and is written and printed.
#[test]
fn nonce_variables() {
    let lines =
        "good {(?x, (*x, (?n!x, (*n!x, (?n!y, (?n!7, *n!y))))))}KA\nrule ?n!y -> (?x, ?n!y)";
    let file = assemble(&format!("{ATOMS}{SECRETS}{lines}")).unwrap();
    let tags_and_numbers = |block: usize, from: usize, count: usize| {
        let entries = file[512 * block + 4..].chunks(4).map(|e| (e[0], e[2]));
        entries.skip(from).take(count).collect::<Vec<_>>()
    };
    let good: Vec<_> = tags_and_numbers(3, 1, 13)
        .into_iter()
        .filter(|e| e.0 > 3)
        .collect();
    let expected = [(4, 0), (5, 0), (6, 0), (7, 0), (6, 1), (6, 7), (7, 1)];
    assert_eq!(good, expected);
    assert_eq!(tags_and_numbers(4, 0, 4), [(6, 0), (2, 0), (4, 0), (6, 0)]);
    let printed = print(&file);
    let good = "\ngood {(?0, (*0, (?n!0, (*n!0, (?n!1, (?n!7, *n!1))))))}k2  # block 3\n";
    assert!(printed.contains(good), "{printed}");
    assert!(printed.ends_with("\nrule ?n!0 -> (?0, ?n!0)  # block 4\n"));
    assert_eq!(notes(&printed), NONE);
    assert_eq!(assemble(&printed), Ok(file));
}

/// A variable whose name is n is none for a nonce.
#[test]
fn variables_named_n() {
    let file = assemble(&format!("{ATOMS}rule ?n -> (?n, (?n!n, ?m))")).unwrap();
    let printed = print(&file);
    assert!(
        printed.ends_with("\nrule ?0 -> (?0, (?n!0, ?1))  # block 1\n"),
        "{printed}"
    );
}

/// Tag and value of the entries of a line, which stands after the atoms.
fn entries_of(line: &str) -> Vec<(u8, u8)> {
    let file = assemble(&format!("{ATOMS}{line}")).unwrap();
    let used = (file[513] + file[514]) as usize;
    let entries = file[516..516 + 4 * used].chunks(4);
    entries.map(|e| (e[0], e[2])).collect()
}

#[test]
fn entries_of_hashes_and_signatures() {
    assert_eq!(entries_of("secret h(N)"), [(8, 0), (1, 6)]);
    assert_eq!(entries_of("secret sig(N)KAi"), [(9, 3), (1, 6)]);
    let nested = [
        (9, 3),
        (2, 0),
        (8, 0),
        (9, 5),
        (4, 0),
        (3, 2),
        (8, 0),
        (1, 7),
    ];
    assert_eq!(
        entries_of("rule -> sig((h(sig(?x)KIi), {h(T)}KA))KAi"),
        nested
    );
}

#[test]
fn hashes_and_signatures() {
    let lines = "\
        secret h(N)\nsecret sig((N, T))KAi\nsecret N\nsecret KAi\ngood {sig((h(?x), *s))KAi}KA\n\
        bad {(h(*m), sig(?x)KIi)}KA\nrule sig(?x)KIi -> (?x, (h((N, ?y)), {sig((h(T), N))KAi}KA))\n";
    let file = assemble(&format!("{ATOMS}{lines}")).unwrap();
    let printed = print(&file);
    for line in [
        "secret h(n6)",
        "secret sig((n6, n7))k3",
        "good {sig((h(?0), *0))k3}k2",
        "bad {(h(*0), sig(?0)k5)}k2",
        "rule sig(?0)k5 -> (?0, (h((n6, ?1)), {sig((h(n7), n6))k3}k2))",
    ] {
        assert!(
            printed.contains(&format!("\n{line}  # block")),
            "{line}\n{printed}"
        );
    }
    assert_eq!(notes(&printed), NONE);
    assert_eq!(assemble(&printed), Ok(file));
    assert_eq!(
        line_of(lines),
        "accepted blocks=8 secrets=4 good=1 bad=1 rules=1"
    );
}

/// Only directly before `(` are `h` and `sig` no names.
#[test]
fn atoms_named_h_and_sig() {
    let atoms = "\
        atom h nonce known\natom sig private unknown partner H\n\
        atom H public known partner sig\n";
    let lines = "\
        secret sig\nsecret sig(h)sig\nrule (h, ?h) -> (sig(h)sig, (h(h), (h(sig), {h}H)))\n";
    let file = assemble(&format!("{atoms}{lines}")).unwrap();
    let printed = print(&file);
    let rule = "\nrule (n0, ?0) -> (sig(n0)k1, (h(n0), (h(k1), {n0}k2)))  # block 3\n";
    assert!(printed.ends_with(rule), "{printed}");
}

/// The 127th atom and those after it go on in a second block.
#[test]
fn a_second_block_of_atoms() {
    let counts = |atoms: usize| {
        let file = assemble(&nonces(atoms)).unwrap();
        let blocks = file.chunks(512).map(|block| (block[0], block[1]));
        blocks.collect::<Vec<_>>()
    };
    assert_eq!(counts(126), [(1, 126)]);
    assert_eq!(counts(127), [(1, 126), (1, 1)]);
    assert_eq!(counts(252), [(1, 126), (1, 126)]);
    let lines = "\
        atom K public known partner L\natom S symmetric unknown\natom L private unknown partner K\n\
        secret S\nsecret L\ngood {*s}K\nrule {x0}S -> {S}K";
    let file = assemble(&format!("{}{lines}", nonces(125))).unwrap();
    let entries = |from: usize| file[from..from + 8].to_vec();
    assert_eq!(file[..4], [1, 126, 0, 0]);
    assert_eq!(file[504..508], [3, 1, 127, 0]);
    assert_eq!(file[512..516], [1, 2, 0, 0]);
    assert_eq!(entries(516), [5, 0, 126, 0, 4, 0, 125, 0]);
    assert_eq!(entries(5 * 512 + 4), [3, 0, 126, 0, 1, 0, 0, 0]);
    assert_eq!(entries(5 * 512 + 12), [3, 0, 125, 0, 1, 0, 126, 0]);
    let accepted = "accepted blocks=6 secrets=2 good=1 bad=0 rules=1\n";
    assert_eq!(literal::line(&literal::verdict(&file)), accepted.as_bytes());
    let printed = print(&file);
    assert!(printed.contains("\natom k125 public known partner k127\n"));
    assert!(printed.ends_with("\nrule {n0}k126 -> {k126}k125  # block 5\n"));
    assert_eq!(notes(&printed), NONE);
    assert_eq!(assemble(&printed), Ok(file));
}
