//! Document 01's certificates to try, with the document's answers; case k with
//! that of document 02, No. 4. Case l is about two terms and is asked of the term
//! layer.

use crate::known::Known;
use text::document::{ATOMS, GOOD, SECRETS};

const GOOD_OF_E: &str = "good {(T, *s)}KA\n";
const BAD: &str = "bad {(I, ?x)}KA\n";
const RULE_OF_A: &str = "rule -> {N}KA\n";
const RULE_OF_E: &str = "rule {(I, ?x)}KA -> {?x}KI\n";
const RULE_OF_G: &str = "rule {(T, ?x)}KA -> {?x}KA\n";

const FIVE: &str = "accepted blocks=5 secrets=2 good=1 bad=0 rules=1";
const SIX: &str = "accepted blocks=6 secrets=2 good=1 bad=1 rules=1";

/// Name, what follows the atoms, line, answer of the C call.
pub(crate) type Row = (&'static str, &'static [&'static str], &'static str, u32);

const ROWS: [Row; 13] = [
    ("a", &[SECRETS, GOOD, RULE_OF_A], FIVE, 0),
    (
        "b",
        &[SECRETS, GOOD, "rule -> {N}KI"],
        "refused 12 block=4 place=1",
        787_457,
    ),
    (
        "c",
        &[SECRETS, GOOD, "rule {?x}KA -> {?x}KI"],
        "refused 12 block=4 place=3",
        787_459,
    ),
    ("d", &[SECRETS, GOOD, "rule {?x}KI -> ?x"], FIVE, 0),
    ("e", &[SECRETS, GOOD_OF_E, RULE_OF_E], FIVE, 0),
    ("f", &[SECRETS, GOOD, BAD, RULE_OF_E], SIX, 0),
    (
        "f with e's good",
        &[SECRETS, GOOD_OF_E, BAD, RULE_OF_E],
        SIX,
        0,
    ),
    (
        "g",
        &[SECRETS, GOOD, BAD, RULE_OF_G],
        "refused 12 block=5 place=5",
        787_717,
    ),
    (
        "g with e's good",
        &[SECRETS, GOOD_OF_E, BAD, RULE_OF_G],
        "refused 12 block=5 place=5",
        787_717,
    ),
    (
        "h",
        &["secret N\n", GOOD, RULE_OF_A],
        "refused 11 block=2 place=0",
        721_408,
    ),
    (
        "i",
        &["secret T\n", SECRETS, GOOD, RULE_OF_A],
        "refused 9 block=1 place=0",
        590_080,
    ),
    (
        "j",
        &["secret (N, T)\n", GOOD, RULE_OF_A],
        "refused 10 block=1 place=0",
        655_616,
    ),
    (
        "k",
        &[SECRETS, GOOD, "rule N -> KAi"],
        "refused 15 block=4 place=0",
        984_064,
    ),
];

/// So many zero bytes. 32,768 goes on to the kind of block 0, whose check is right.
const LENGTHS: [(usize, &str, u32); 5] = [
    (0, "refused 1 block=0 place=0", 65_536),
    (511, "refused 1 block=0 place=0", 65_536),
    (513, "refused 1 block=0 place=0", 65_536),
    (33_280, "refused 1 block=0 place=0", 65_536),
    (32_768, "refused 3 block=0 place=0", 196_608),
];

/// The first 508 bytes of a block, and the check that sealing writes: the
/// document's, and one whose sums both pass 65,521.
pub fn sealed() -> [([u8; 508], [u8; 4]); 2] {
    let mut first = [0; 508];
    first[0] = 1;
    [(first, [1, 0, 252, 1]), ([255; 508], [19, 250, 115, 42])]
}

pub fn all() -> Result<Vec<Known>, String> {
    let mut known = of_rows("case", &ROWS)?;
    known.extend(LENGTHS.iter().map(|(length, line, packed)| Known {
        name: format!("{length} zero bytes"),
        file: vec![0; *length],
        line: line.to_string(),
        packed: *packed,
    }));
    known.extend(full_size()?);
    Ok(known)
}

/// The rows as files, with this word before their names.
pub(crate) fn of_rows(word: &str, rows: &[Row]) -> Result<Vec<Known>, String> {
    let of = |(name, rest, line, packed): &Row| {
        of_text(&format!("{word} {name}"), &rest.concat(), line, *packed)
    };
    rows.iter().map(of).collect()
}

/// These lines after the document's atoms.
pub(crate) fn of_text(name: &str, rest: &str, line: &str, packed: u32) -> Result<Known, String> {
    let file = text::assemble(&format!("{ATOMS}{rest}")).map_err(|e| format!("{name}: {e}"))?;
    Ok(Known {
        name: name.to_string(),
        file,
        line: line.to_string(),
        packed,
    })
}

/// Case a with its rule 60 times: 32,768 bytes; and with one block more.
fn full_size() -> Result<[Known; 2], String> {
    let rest = [SECRETS, GOOD, &RULE_OF_A.repeat(60)].concat();
    let line = "accepted blocks=64 secrets=2 good=1 bad=0 rules=60";
    let full = of_text("case a with 60 rules", &rest, line, 0)?;
    let last = full.file[63 * 512..].to_vec();
    let over = Known {
        name: "case a with 61 rules".to_string(),
        file: [full.file.clone(), last].concat(),
        line: "refused 1 block=0 place=0".to_string(),
        packed: 65_536,
    };
    Ok([full, over])
}
