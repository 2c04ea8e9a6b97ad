//! Where each part of an assembled text comes from.

mod common;

use common::{cut, cut_all};
use literal::numbers::BLOCK;
use literal::term::subterms;
use literal::Term;
use text::document::{joined_atoms, ATOMS};
use text::{assembled, print, Assembled, BlockOrigin, Span};

/// The text after the document's atoms, and the origins of its blocks.
fn after_atoms(rest: &str) -> (String, Assembled) {
    let text = format!("{ATOMS}{rest}");
    let assembled = assembled(&text).unwrap();
    (text, assembled)
}

/// The subterms of the one line after the document's atoms, as it has them.
fn subterms_of(line: &str) -> Vec<String> {
    let (text, assembled) = after_atoms(line);
    cut_all(&text, &assembled.blocks[1].entries)
}

#[test]
fn pieces_of_a_line() {
    assert_eq!(subterms_of("secret N"), ["N"]);
    assert_eq!(subterms_of("rule -> {?x}KA"), ["{?x}KA", "?x"]);
    let (text, assembled) = after_atoms(" \tbad  {(?x,\t( *x , T))} KA  # a (comment), ?y");
    let origin = &assembled.blocks[1];
    assert_eq!(cut(&text, origin.line), "bad  {(?x,\t( *x , T))} KA");
    let line = Span {
        line: 9,
        column: 3,
        width: 25,
    };
    assert_eq!(origin.line, line);
    assert_eq!(
        cut_all(&text, &origin.entries),
        [
            "{(?x,\t( *x , T))} KA",
            "(?x,\t( *x , T))",
            "?x",
            "( *x , T)",
            "*x",
            "T"
        ]
    );
    let columns: Vec<usize> = origin.entries.iter().map(|e| e.column).collect();
    assert_eq!(columns, [8, 9, 10, 14, 16, 21]);
}

#[test]
fn pieces_of_nested_terms() {
    let line = "rule sig(?x)KIi->(h(?x), {sig((h( T), N))KAi}KA)";
    assert_eq!(
        subterms_of(line),
        [
            "sig(?x)KIi",
            "?x",
            "(h(?x), {sig((h( T), N))KAi}KA)",
            "h(?x)",
            "?x",
            "{sig((h( T), N))KAi}KA",
            "sig((h( T), N))KAi",
            "(h( T), N)",
            "h( T)",
            "T",
            "N"
        ]
    );
}

/// Columns count characters, not bytes.
#[test]
fn letters_of_other_alphabets() {
    let text = "atom Ключ symmetric known\n  secret {(Ключ, Ключ)}Ключ";
    let assembled = assembled(text).unwrap();
    assert_eq!(assembled.atoms, ["Ключ"]);
    let entries = &assembled.blocks[1].entries;
    let pieces = ["{(Ключ, Ключ)}Ключ", "(Ключ, Ключ)", "Ключ", "Ключ"];
    assert_eq!(cut_all(text, entries), pieces);
    assert_eq!((entries[3].column, entries[3].width), (18, 4));
}

#[test]
fn names_of_variables() {
    let rest = "good {(?x, (*x, (?n!x, (*n!t, (*n!s, (?1, ?x))))))}KA\nrule -> ?x\nsecret N";
    let (_, assembled) = after_atoms(rest);
    let expected = [
        (Term::Plain(0), "?x"),
        (Term::Plain(1), "?1"),
        (Term::Marked(0), "*x"),
        (Term::PlainNonce(0), "?n!x"),
        (Term::MarkedNonce(0), "*n!t"),
        (Term::MarkedNonce(1), "*n!s"),
    ];
    let found = &assembled.blocks[1].variables;
    for (variable, name) in expected {
        assert!(found.contains(&(variable, name.to_string())), "{name}");
    }
    assert_eq!(found.len(), 6);
    let in_rule = [(Term::Plain(0), "?x".to_string())];
    assert_eq!(assembled.blocks[2].variables, in_rule);
    assert_eq!(assembled.blocks[3].variables, []);
}

#[test]
fn lines_of_atoms() {
    let text = format!("# atoms\r\n\r\n{}  secret M # end", joined_atoms());
    let assembled = assembled(&text).unwrap();
    assert_eq!(assembled.atoms.len(), 131);
    assert_eq!(assembled.atoms[125..], ["P", "Q", "K", "L", "S", "M"]);
    let counts: Vec<usize> = assembled.blocks.iter().map(|b| b.entries.len()).collect();
    assert_eq!(counts, [126, 5, 1]);
    let line = |origin: &BlockOrigin| cut(&text, origin.line);
    assert_eq!(line(&assembled.blocks[0]), "atom x0 nonce known");
    assert_eq!(line(&assembled.blocks[1]), "atom Q public known partner P");
    assert_eq!(assembled.blocks[1].line.line, 129);
    assert_eq!(line(&assembled.blocks[2]), "secret M");
    let pieces = cut_all(&text, &assembled.blocks[1].entries);
    assert_eq!(
        pieces[3..],
        ["atom S symmetric unknown", "atom M nonce unknown"]
    );
    assert_eq!(assembled.blocks[1].variables, []);
}

/// The subterms of a block of terms, premise first.
fn subterms_of_block(block: &[u8]) -> Vec<Term> {
    let premise_end = 4 + 4 * block[1] as usize;
    let conclusion_end = premise_end + 4 * block[2] as usize;
    let sides = [&block[4..premise_end], &block[premise_end..conclusion_end]];
    let terms = sides.iter().filter_map(|side| literal::decode(side));
    let all = |term: Term| -> Vec<Term> {
        let places = subterms(&term).into_iter();
        places.map(|place| place.subterm.clone()).collect()
    };
    terms.flat_map(all).collect()
}

/// Every piece of a printed certificate, put alone into a rule, is the subterm
/// that its entry holds.
fn compare_pieces(atom_lines: &str, text: &str, assembled: &Assembled) -> usize {
    let blocks = assembled.file.chunks(BLOCK).zip(&assembled.blocks);
    let mut compared = 0;
    for (block, origin) in blocks {
        assert_eq!(origin.entries.len(), (block[1] + block[2]) as usize);
        if block[0] == 1 {
            continue;
        }
        let pieces = cut_all(text, &origin.entries);
        let alone = pieces.iter().map(|piece| conclusion_of(atom_lines, piece));
        assert_eq!(alone.collect::<Vec<_>>(), subterms_of_block(block));
        compared += pieces.len();
    }
    compared
}

/// The term that this piece is as a rule's conclusion.
fn conclusion_of(atom_lines: &str, piece: &str) -> Term {
    let assembled = assembled(&format!("{atom_lines}rule -> {piece}")).unwrap();
    let rule = &assembled.file[assembled.file.len() - BLOCK..];
    literal::decode(&rule[4..4 + 4 * rule[2] as usize]).unwrap()
}

#[test]
fn pieces_of_generated_certificates() {
    let mut compared = 0;
    for seed in 0..150 {
        let text = print(&generate::certificate(seed));
        let Ok(assembled) = assembled(&text) else {
            continue;
        };
        let is_atom = |line: &&str| line.starts_with("atom ");
        let atoms: Vec<&str> = text.lines().filter(is_atom).collect();
        let atom_lines = atoms.join("\n") + "\n";
        compared += compare_pieces(&atom_lines, &text, &assembled);
    }
    assert!(compared > 5_000, "{compared}");
}
