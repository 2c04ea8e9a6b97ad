//! Document 02, No. 3: variables for one nonce, with answers by hand.

use crate::cases::{of_rows, Row};
use crate::known::Known;
use crate::more_atoms::{changed, Change};
use text::document::{GOOD, SECRETS};

/// No secret is a nonce.
const KEY_SECRET: &str = "secret KAi\n";
const PAIR_SECRET: &str = "secret (N, T)\n";
const KEY_PAIR_SECRET: &str = "secret (KAi, T)\n";

// Good patterns: one nonce, a nonce after A, anything after a nonce, anything
// after the same twice.
const ONE_NONCE: &str = "good {*n!n}KA\n";
const AFTER_A: &str = "good {(A, *n!n)}KA\n";
const AFTER_NONCE: &str = "good {(?n!x, *s)}KA\n";
const AFTER_TWICE: &str = "good {(?x, (?x, *s))}KA\n";

// Bad patterns: the field after a nonce, without and with a mark; a nonce that
// is marked.
const BAD_AFTER_NONCE: &str = "bad {(?n!x, ?y)}KA\n";
const MARK_AFTER_NONCE: &str = "bad {(?n!x, *y)}KA\n";
const MARKED_NONCE: &str = "bad {(?x, *n!y)}KA\n";

const SENDS: &str = "rule -> {N}KA\n";

const ACCEPTED: &str = "accepted blocks=5 secrets=2 good=1 bad=0 rules=1";
const WITH_BAD: &str = "accepted blocks=6 secrets=2 good=1 bad=1 rules=1";
const ONE_SECRET: &str = "accepted blocks=4 secrets=1 good=1 bad=0 rules=1";
const WITH_PAIR: &str = "accepted blocks=6 secrets=3 good=1 bad=0 rules=1";

/// A pattern's nonce variable and what is put there.
const MATCHING: [Row; 14] = [
    (
        "a listed nonce at the mark",
        &[SECRETS, ONE_NONCE, SENDS],
        ACCEPTED,
        0,
    ),
    (
        "a nonce variable at the mark",
        &[SECRETS, ONE_NONCE, "rule {?n!x}KA -> {?n!x}KA"],
        ACCEPTED,
        0,
    ),
    (
        "a plain variable at the mark",
        &[SECRETS, ONE_NONCE, "rule {?x}KA -> {?x}KA"],
        "refused 12 block=4 place=3",
        787_459,
    ),
    (
        "a key at the mark",
        &[SECRETS, ONE_NONCE, "rule -> {KAi}KA"],
        "refused 12 block=4 place=1",
        787_457,
    ),
    (
        "a pair at the mark",
        &[SECRETS, ONE_NONCE, "rule -> {(N, T)}KA"],
        "refused 12 block=4 place=2",
        787_458,
    ),
    (
        "an encryption at the mark",
        &[SECRETS, ONE_NONCE, "rule -> {{N}KI}KA"],
        "refused 12 block=4 place=2",
        787_458,
    ),
    (
        "a nonce after A",
        &[SECRETS, AFTER_A, "rule -> {(A, N)}KA"],
        ACCEPTED,
        0,
    ),
    (
        "a principal in place of a nonce",
        &[SECRETS, AFTER_NONCE, "rule -> {(A, N)}KA"],
        "refused 12 block=4 place=3",
        787_459,
    ),
    (
        "a known nonce in place of a nonce",
        &[SECRETS, AFTER_NONCE, "rule -> {(T, N)}KA"],
        ACCEPTED,
        0,
    ),
    (
        "a nonce variable that is shown in place of a nonce",
        &[SECRETS, AFTER_NONCE, "rule ?n!y -> {(?n!y, N)}KA"],
        ACCEPTED,
        0,
    ),
    (
        "a plain variable that is shown in place of a nonce",
        &[SECRETS, AFTER_NONCE, "rule ?y -> {(?y, N)}KA"],
        "refused 12 block=4 place=4",
        787_460,
    ),
    (
        "one nonce variable twice, by one nonce",
        &[
            SECRETS,
            "good {(?n!x, (?n!x, *s))}KA\n",
            "rule -> {(T, (T, N))}KA",
        ],
        ACCEPTED,
        0,
    ),
    (
        "one nonce variable twice, by two nonces",
        &[
            SECRETS,
            "good {(?n!x, (?n!x, *s))}KA\n",
            "rule ?n!y -> {(?n!y, (T, N))}KA",
        ],
        "refused 12 block=4 place=6",
        787_462,
    ),
    (
        "a plain and a nonce variable of one number, by two terms",
        &[
            SECRETS,
            "good {(?0, (?n!0, *s))}KA\n",
            "rule -> {(A, (T, N))}KA",
        ],
        ACCEPTED,
        0,
    ),
];

/// What shares an instance with a good pattern closes.
const SHARING: [Row; 17] = [
    (
        "a principal where the good pattern has a nonce",
        &[SECRETS, AFTER_NONCE, "rule {(A, ?y)}KA -> ?y"],
        ACCEPTED,
        0,
    ),
    (
        "a key where the good pattern has a nonce",
        &[SECRETS, AFTER_NONCE, "rule {(KI, ?y)}KA -> ?y"],
        ACCEPTED,
        0,
    ),
    (
        "a pair where the good pattern has a nonce",
        &[SECRETS, AFTER_NONCE, "rule {((T, T), ?y)}KA -> ?y"],
        ACCEPTED,
        0,
    ),
    (
        "an encryption where the good pattern has a nonce",
        &[SECRETS, AFTER_NONCE, "rule {({T}KI, ?y)}KA -> ?y"],
        ACCEPTED,
        0,
    ),
    (
        "a nonce where the good pattern has one",
        &[SECRETS, AFTER_NONCE, "rule {(T, ?y)}KA -> ?y"],
        "refused 12 block=4 place=4",
        787_460,
    ),
    (
        "a secret nonce where the good pattern has one",
        &[SECRETS, AFTER_NONCE, "rule {(N, ?y)}KA -> ?y"],
        "refused 12 block=4 place=4",
        787_460,
    ),
    (
        "a nonce variable where the good pattern has one",
        &[SECRETS, AFTER_NONCE, "rule {(?n!x, ?y)}KA -> ?y"],
        "refused 12 block=4 place=4",
        787_460,
    ),
    (
        "a plain variable where the good pattern has a nonce",
        &[SECRETS, AFTER_NONCE, "rule {(?x, ?y)}KA -> ?y"],
        "refused 12 block=4 place=4",
        787_460,
    ),
    (
        "a pair under a key that protects one nonce",
        &[SECRETS, ONE_NONCE, "rule {(I, ?y)}KA -> ?y"],
        ACCEPTED,
        0,
    ),
    (
        "a nonce variable, then an encryption",
        &[SECRETS, AFTER_TWICE, "rule {(?n!x, ({?z}KI, ?y))}KA -> ?y"],
        ACCEPTED,
        0,
    ),
    (
        "an encryption, then a nonce variable",
        &[SECRETS, AFTER_TWICE, "rule {({?z}KI, (?n!x, ?y))}KA -> ?y"],
        ACCEPTED,
        0,
    ),
    (
        "a nonce variable, then a key",
        &[SECRETS, AFTER_TWICE, "rule {(?n!x, (KI, ?y))}KA -> ?y"],
        ACCEPTED,
        0,
    ),
    (
        "a nonce variable, then a nonce",
        &[SECRETS, AFTER_TWICE, "rule {(?n!x, (N, ?y))}KA -> ?y"],
        "refused 12 block=4 place=6",
        787_462,
    ),
    (
        "two nonce variables",
        &[SECRETS, AFTER_TWICE, "rule {(?n!x, (?n!z, ?y))}KA -> ?y"],
        "refused 12 block=4 place=6",
        787_462,
    ),
    (
        "a rule's variable between a nonce variable and an encryption",
        &[
            SECRETS,
            "good {(?n!x, ({?z}KI, *s))}KA\n",
            "rule {(?x, (?x, ?y))}KA -> ?y",
        ],
        ACCEPTED,
        0,
    ),
    (
        "a rule's variables between a nonce variable and a pair",
        &[
            SECRETS,
            "good {(?n!x, (?y, (?y, ((A, ?z), *s))))}KA\n",
            "rule {(?x, (?x, (?z, (?z, ?y))))}KA -> ?y",
        ],
        ACCEPTED,
        0,
    ),
    (
        "a rule's variables between a nonce variable and a nonce",
        &[
            SECRETS,
            "good {(?n!x, (?y, (?y, (T, *s))))}KA\n",
            "rule {(?x, (?x, (?z, (?z, ?y))))}KA -> ?y",
        ],
        "refused 12 block=4 place=10",
        787_466,
    ),
];

/// Risky places, places that are shown, secrets in a premise.
const PLACES: [Row; 13] = [
    (
        "a nonce variable that nothing shows",
        &[SECRETS, GOOD, "rule -> ?n!x"],
        "refused 12 block=4 place=0",
        787_456,
    ),
    (
        "a nonce variable though no secret is a nonce",
        &[KEY_SECRET, GOOD, "rule T -> {?n!x}KI"],
        "refused 12 block=3 place=2",
        787_202,
    ),
    (
        "a nonce variable that the premise shows",
        &[KEY_SECRET, GOOD, "rule {?n!x}KI -> ?n!x"],
        ONE_SECRET,
        0,
    ),
    (
        "shown as a plain variable of its number",
        &[SECRETS, GOOD, "rule ?0 -> ?n!0"],
        "refused 12 block=4 place=1",
        787_457,
    ),
    (
        "a plain variable shown as the nonce variable of its number",
        &[SECRETS, GOOD, "rule ?n!0 -> ?0"],
        "refused 12 block=4 place=1",
        787_457,
    ),
    (
        "shown as another nonce variable",
        &[SECRETS, GOOD, "rule ?n!0 -> ?n!1"],
        "refused 12 block=4 place=1",
        787_457,
    ),
    (
        "a nonce variable under a hat for anything",
        &[SECRETS, GOOD, "rule -> {(T, ?n!x)}KA"],
        ACCEPTED,
        0,
    ),
    (
        "a pair that may be a secret one",
        &[SECRETS, PAIR_SECRET, GOOD, "rule ?n!x -> (?n!x, T)"],
        "refused 12 block=5 place=1",
        787_713,
    ),
    (
        "a pair that is a secret one with a key only",
        &[SECRETS, KEY_PAIR_SECRET, GOOD, "rule ?n!x -> (?n!x, T)"],
        WITH_PAIR,
        0,
    ),
    (
        "a pair with a plain variable that may be a secret one",
        &[SECRETS, KEY_PAIR_SECRET, GOOD, "rule ?x -> (?x, T)"],
        "refused 12 block=5 place=1",
        787_713,
    ),
    (
        "an open secret nonce",
        &[SECRETS, AFTER_NONCE, "rule {(A, N)}KA -> KAi"],
        "refused 15 block=4 place=3",
        984_067,
    ),
    (
        "no open secret by a nonce variable",
        &[SECRETS, AFTER_NONCE, "rule {(A, ?n!x)}KA -> KAi"],
        "refused 12 block=4 place=4",
        787_460,
    ),
    (
        "no open secret below a hat for a nonce",
        &[SECRETS, ONE_NONCE, "rule {N}KA -> N"],
        "refused 12 block=4 place=2",
        787_458,
    ),
];

/// Bad patterns with nonce variables.
const EXCEPTIONS: [Row; 14] = [
    (
        "a hat that is no exception by a principal",
        &[SECRETS, GOOD, BAD_AFTER_NONCE, "rule -> {(A, N)}KA"],
        WITH_BAD,
        0,
    ),
    (
        "a hat that is an exception by a nonce",
        &[SECRETS, GOOD, BAD_AFTER_NONCE, "rule -> {(T, N)}KA"],
        "refused 12 block=5 place=3",
        787_715,
    ),
    (
        "a hat that may be an exception by a variable",
        &[SECRETS, GOOD, BAD_AFTER_NONCE, "rule ?x -> {(?x, N)}KA"],
        "refused 12 block=5 place=4",
        787_716,
    ),
    (
        "a hat that may be an exception by a nonce variable",
        &[SECRETS, GOOD, BAD_AFTER_NONCE, "rule ?n!x -> {(?n!x, N)}KA"],
        "refused 12 block=5 place=4",
        787_716,
    ),
    (
        "shown by an exception with a nonce",
        &[SECRETS, GOOD, BAD_AFTER_NONCE, "rule {(T, ?y)}KA -> ?y"],
        WITH_BAD,
        0,
    ),
    (
        "shown by an exception with a nonce variable",
        &[SECRETS, GOOD, BAD_AFTER_NONCE, "rule {(?n!z, ?y)}KA -> ?y"],
        WITH_BAD,
        0,
    ),
    (
        "not shown by an exception with a plain variable",
        &[SECRETS, GOOD, BAD_AFTER_NONCE, "rule {(?z, ?y)}KA -> ?y"],
        "refused 12 block=5 place=4",
        787_716,
    ),
    (
        "not shown by an exception with a principal",
        &[SECRETS, GOOD, BAD_AFTER_NONCE, "rule {(A, ?y)}KA -> ?y"],
        "refused 12 block=5 place=4",
        787_716,
    ),
    (
        "a mark after a nonce, beside the secret",
        &[SECRETS, GOOD, MARK_AFTER_NONCE, "rule -> {(N, T)}KA"],
        WITH_BAD,
        0,
    ),
    (
        "a mark after a nonce, at the secret",
        &[SECRETS, GOOD, MARK_AFTER_NONCE, "rule -> {(T, N)}KA"],
        "refused 12 block=5 place=3",
        787_715,
    ),
    (
        "a marked nonce beside the secret",
        &[SECRETS, GOOD, MARKED_NONCE, "rule -> {(N, T)}KA"],
        WITH_BAD,
        0,
    ),
    (
        "a marked nonce at the secret",
        &[SECRETS, GOOD, MARKED_NONCE, "rule -> {(T, N)}KA"],
        "refused 12 block=5 place=3",
        787_715,
    ),
    (
        "a marked nonce at a secret pair",
        &[SECRETS, GOOD, MARKED_NONCE, "rule -> {(T, (N, T))}KA"],
        WITH_BAD,
        0,
    ),
    (
        "shown by a marked nonce",
        &[SECRETS, GOOD, MARKED_NONCE, "rule {(?x, ?n!y)}KA -> ?n!y"],
        WITH_BAD,
        0,
    ),
];

/// Where nonce variables are refused.
const NUMBERS: [Row; 8] = [
    (
        "a nonce variable in a secret",
        &["secret (N, ?n!x)\n", SECRETS, GOOD, SENDS],
        "refused 7 block=1 place=2",
        459_010,
    ),
    (
        "a marked nonce variable in a secret",
        &["secret {*n!x}KA\n", SECRETS, GOOD, SENDS],
        "refused 7 block=1 place=1",
        459_009,
    ),
    (
        "a marked nonce variable in a premise",
        &[SECRETS, GOOD, "rule {*n!x}KI -> T"],
        "refused 7 block=4 place=1",
        459_777,
    ),
    (
        "a marked nonce variable in a conclusion",
        &[SECRETS, GOOD, "rule T -> {*n!x}KA"],
        "refused 7 block=4 place=2",
        459_778,
    ),
    (
        "a nonce variable as a whole good pattern",
        &[SECRETS, "good *n!x\n", SENDS],
        "refused 8 block=3 place=0",
        525_056,
    ),
    (
        "a nonce variable as a whole bad pattern",
        &[SECRETS, GOOD, "bad ?n!x\n", SENDS],
        "refused 8 block=4 place=0",
        525_312,
    ),
    (
        "all numbers of nonce variables in patterns",
        &[
            SECRETS,
            "good {(?n!0, (?n!7, (*n!0, *n!7)))}KA\n",
            "bad {(?n!7, (*n!7, *n!1))}KA\n",
            "rule -> {(T, (T, (N, N)))}KA",
        ],
        WITH_BAD,
        0,
    ),
    (
        "all numbers of nonce variables in a rule",
        &[SECRETS, GOOD, "rule (?n!0, ?n!7) -> (?n!7, ?n!0)"],
        ACCEPTED,
        0,
    ),
];

/// The second entry of the good pattern and the first of the rule with a number
/// that no variable has, and with a byte that must be zero.
const CHANGES: [(&str, Change, &str, u32); 4] = [
    (
        "good, number 8",
        (3, 10, 8),
        "refused 7 block=3 place=1",
        459_521,
    ),
    (
        "good, second byte",
        (3, 9, 1),
        "refused 7 block=3 place=1",
        459_521,
    ),
    (
        "rule, number 8",
        (4, 6, 8),
        "refused 7 block=4 place=0",
        459_776,
    ),
    (
        "rule, number 256",
        (4, 7, 1),
        "refused 7 block=4 place=0",
        459_776,
    ),
];

pub fn all() -> Result<Vec<Known>, String> {
    let mut known = Vec::new();
    let lists = [&MATCHING[..], &SHARING, &PLACES, &EXCEPTIONS, &NUMBERS];
    for rows in lists {
        known.extend(of_rows("nonce variables,", rows)?);
    }
    known.extend(changed_variables()?);
    known.extend(handshakes()?);
    Ok(known)
}

fn changed_variables() -> Result<Vec<Known>, String> {
    const ROW: Row = (
        "a wrong variable",
        &[SECRETS, ONE_NONCE, "rule ?n!x -> ?n!x"],
        ACCEPTED,
        0,
    );
    let base = of_rows("nonce variables,", &[ROW])?.remove(0);
    let of = |(name, change, line, packed): &(&str, Change, &str, u32)| Known {
        name: format!("{}, {name}", base.name),
        file: changed(&base.file, &[*change]),
        line: line.to_string(),
        packed: *packed,
    };
    Ok([base.clone()]
        .into_iter()
        .chain(CHANGES.iter().map(of))
        .collect())
}

/// The atoms of the handshake: A, the intruder I, their keys, the nonces of the
/// fixed session, of other sessions, of those with the intruder, and its own.
const HANDSHAKE: &str = "\
atom A principal known
atom I principal known
atom KA public known partner KAi
atom KAi private unknown partner KA
atom KI public known partner KIi
atom KIi private known partner KI
atom N1 nonce unknown
atom N2 nonce unknown
atom N1o nonce unknown
atom N2o nonce unknown
atom N1i nonce unknown
atom N2i nonce unknown
atom NI nonce known
secret N2
secret KAi
";

/// Lowe's correction is the answerer's name; `?y` and `?z` stand for the
/// variables that receive a nonce.
fn rules(is_corrected: bool) -> String {
    let name = |of: &str, fields: &str| match is_corrected {
        true => format!("({of}, ({fields}))"),
        false => format!("({fields})"),
    };
    let mut rules = String::new();
    for (x, y, first, second) in [
        ("A", "I", "N1i", "NI"),
        ("I", "A", "NI", "N2i"),
        ("A", "A", "N1", "N2"),
        ("A", "A", "N1o", "N2o"),
    ] {
        let answer = name(y, &format!("?y, {second}"));
        let last = name(y, &format!("{first}, ?z"));
        rules += &format!("rule -> {{({x}, {first})}}K{y}\n");
        rules += &format!("rule {{({x}, ?y)}}K{y} -> {{{answer}}}K{x}\n");
        rules += &format!("rule {{{last}}}K{x} -> {{?z}}K{y}\n");
    }
    rules
}

/// Needham-Schroeder-Lowe and the uncorrected rules, with nonce variables and
/// with plain ones.
fn handshakes() -> Result<Vec<Known>, String> {
    let corrected = "good {(A, (?x, *s))}KA\ngood {*n!n}KA\n";
    let uncorrected = "good {(?x, *s)}KA\ngood {*n!n}KA\n";
    let typed = |rules: String| rules.replace("?y", "?n!y").replace("?z", "?n!z");
    let accepted = "accepted blocks=17 secrets=2 good=2 bad=0 rules=12";
    let rows = [
        ("corrected", corrected, typed(rules(true)), accepted, 0),
        (
            "uncorrected",
            uncorrected,
            typed(rules(false)),
            "refused 12 block=7 place=5",
            788_229,
        ),
        (
            "corrected, plain variables",
            corrected,
            rules(true),
            "refused 12 block=12 place=8",
            789_512,
        ),
        (
            "corrected, without the second good",
            "good {(A, (?x, *s))}KA\n",
            typed(rules(true)),
            "refused 12 block=12 place=7",
            789_511,
        ),
    ];
    rows.iter().map(handshake).collect()
}

/// Name, good patterns, rules, line, answer of the C call.
type Handshake<'a> = (&'a str, &'a str, String, &'a str, u32);

fn handshake((name, goods, rules, line, packed): &Handshake) -> Result<Known, String> {
    let text = [HANDSHAKE, goods, rules].concat();
    let file = text::assemble(&text).map_err(|error| format!("{name}: {error}"))?;
    Ok(Known {
        name: format!("handshake, {name}"),
        file,
        line: line.to_string(),
        packed: *packed,
    })
}
