//! Document 02, No. 4: a listed secret at an open place of a premise, with
//! answers by hand.

use crate::cases::{of_rows, of_text, Row};
use crate::known::Known;
use text::document::{GOOD, SECRETS};

const PAIR_SECRET: &str = "secret (N, T)\n";
const AFTER_T: &str = "good {(T, *s)}KA\n";

// Bad patterns: all that follows I, without and with a mark; a mark on the first
// or the second of two.
const BAD: &str = "bad {(I, ?x)}KA\n";
const ON_REST: &str = "bad {(I, *m)}KA\n";
const ON_FIRST: &str = "bad {(I, (*x, ?y))}KA\n";
const ON_SECOND: &str = "bad {(I, (?x, *y))}KA\n";

const TAKES_PAIR: &str = "rule {(I, (N, T))}KA -> T\n";
const TWELVE: &str = "rule -> {N}KI\n";
const RIGHT: &str = "rule -> {N}KA\n";

const ACCEPTED: &str = "accepted blocks=5 secrets=2 good=1 bad=0 rules=1";
const WITH_BAD: &str = "accepted blocks=6 secrets=2 good=1 bad=1 rules=1";
const WITH_PAIR: &str = "accepted blocks=6 secrets=3 good=1 bad=0 rules=1";

/// Where the secret stands.
const PLACES: [Row; 14] = [
    (
        "the whole premise",
        &[SECRETS, GOOD, "rule N -> T"],
        "refused 15 block=4 place=0",
        984_064,
    ),
    (
        "a half of a pair",
        &[SECRETS, GOOD, "rule (T, N) -> T"],
        "refused 15 block=4 place=2",
        984_066,
    ),
    (
        "a key beside a variable",
        &[SECRETS, GOOD, "rule (?x, KAi) -> T"],
        "refused 15 block=4 place=2",
        984_066,
    ),
    (
        "below two clear encryptions",
        &[SECRETS, GOOD, "rule {(T, {N}KI)}KI -> T"],
        "refused 15 block=4 place=4",
        984_068,
    ),
    (
        "below a hat",
        &[SECRETS, GOOD, "rule {N}KA -> T"],
        ACCEPTED,
        0,
    ),
    (
        "below a hat in a clear encryption",
        &[SECRETS, GOOD, "rule {{N}KA}KI -> T"],
        ACCEPTED,
        0,
    ),
    (
        "below a clear encryption in a hat",
        &[SECRETS, GOOD, "rule {{N}KI}KA -> T"],
        ACCEPTED,
        0,
    ),
    (
        "below a good pattern without marks",
        &[SECRETS, "good {?x}KA\n", "rule {N}KA -> T"],
        ACCEPTED,
        0,
    ),
    (
        "no good pattern",
        &[SECRETS, "rule {N}KA -> T"],
        "refused 15 block=3 place=1",
        983_809,
    ),
    (
        "a good pattern that begins otherwise",
        &[SECRETS, AFTER_T, "rule {(A, N)}KA -> T"],
        "refused 15 block=4 place=3",
        984_067,
    ),
    (
        "a good pattern that it shares with",
        &[SECRETS, AFTER_T, "rule {(?x, N)}KA -> T"],
        ACCEPTED,
        0,
    ),
    (
        "a good pattern that repeats a variable",
        &[
            SECRETS,
            "good {(?x, (?x, *s))}KA\n",
            "rule {(T, (A, N))}KA -> T",
        ],
        "refused 15 block=4 place=5",
        984_069,
    ),
    (
        "a repeated variable that fits",
        &[
            SECRETS,
            "good {(?x, (?x, *s))}KA\n",
            "rule {(T, (T, N))}KA -> T",
        ],
        ACCEPTED,
        0,
    ),
    (
        "the key of an encryption",
        &[SECRETS, GOOD, "rule {T}KAi -> T"],
        ACCEPTED,
        0,
    ),
];

/// Below bad patterns.
const EXCEPTIONS: [Row; 11] = [
    (
        "an exception",
        &[SECRETS, GOOD, BAD, "rule {(I, N)}KA -> T"],
        "refused 15 block=5 place=3",
        984_323,
    ),
    (
        "two exceptions, one in the other",
        &[SECRETS, GOOD, BAD, "rule {(I, {(I, N)}KA)}KA -> T"],
        "refused 15 block=5 place=6",
        984_326,
    ),
    (
        "a hat in an exception",
        &[SECRETS, GOOD, BAD, "rule {(I, {N}KA)}KA -> T"],
        WITH_BAD,
        0,
    ),
    (
        "an exception that it only shares with",
        &[SECRETS, GOOD, BAD, "rule {(?y, N)}KA -> T"],
        WITH_BAD,
        0,
    ),
    (
        "a mark above",
        &[SECRETS, GOOD, ON_REST, TAKES_PAIR],
        "refused 15 block=5 place=4",
        984_324,
    ),
    (
        "a mark at the secret",
        &[SECRETS, GOOD, ON_FIRST, TAKES_PAIR],
        "refused 15 block=5 place=4",
        984_324,
    ),
    (
        "a mark beside the secret",
        &[SECRETS, GOOD, ON_SECOND, TAKES_PAIR],
        WITH_BAD,
        0,
    ),
    (
        "a mark at the second of two",
        &[SECRETS, GOOD, ON_SECOND, "rule {(I, (N, N))}KA -> T"],
        "refused 15 block=5 place=5",
        984_325,
    ),
    (
        "a mark at a secret pair",
        &[SECRETS, PAIR_SECRET, GOOD, ON_REST, TAKES_PAIR],
        "refused 15 block=6 place=3",
        984_579,
    ),
    (
        "a mark below a secret pair",
        &[SECRETS, PAIR_SECRET, GOOD, ON_SECOND, TAKES_PAIR],
        "accepted blocks=7 secrets=3 good=1 bad=1 rules=1",
        0,
    ),
    (
        "another exception's mark at the secret",
        &[
            SECRETS,
            GOOD,
            ON_SECOND,
            "bad {(A, (*x, ?y))}KA\n",
            TAKES_PAIR,
        ],
        "accepted blocks=7 secrets=2 good=1 bad=2 rules=1",
        0,
    ),
];

/// Which entry is named.
const ENTRIES: [Row; 9] = [
    (
        "the second secret before the first",
        &[SECRETS, GOOD, "rule (KAi, N) -> T"],
        "refused 15 block=4 place=1",
        984_065,
    ),
    (
        "one secret twice",
        &[SECRETS, GOOD, "rule (T, (N, N)) -> T"],
        "refused 15 block=4 place=3",
        984_067,
    ),
    (
        "closed before open",
        &[SECRETS, GOOD, "rule ({N}KA, N) -> T"],
        "refused 15 block=4 place=3",
        984_067,
    ),
    (
        "open before closed",
        &[SECRETS, GOOD, "rule (N, {N}KA) -> T"],
        "refused 15 block=4 place=1",
        984_065,
    ),
    (
        "a secret pair, and its half in it",
        &[SECRETS, PAIR_SECRET, GOOD, "rule (I, (N, T)) -> T"],
        "refused 15 block=5 place=2",
        984_322,
    ),
    (
        "a half before the secret pair",
        &[SECRETS, PAIR_SECRET, GOOD, "rule (N, (N, T)) -> T"],
        "refused 15 block=5 place=1",
        984_321,
    ),
    (
        "the half of a secret pair alone",
        &[SECRETS, PAIR_SECRET, GOOD, "rule (T, N) -> T"],
        "refused 15 block=5 place=2",
        984_322,
    ),
    (
        "a secret encryption that is a hat",
        &[SECRETS, "secret {N}KA\n", GOOD, "rule {N}KA -> T"],
        "refused 15 block=5 place=0",
        984_320,
    ),
    (
        "a secret encryption in a hat",
        &[SECRETS, "secret {N}KA\n", GOOD, "rule {{N}KA}KA -> T"],
        WITH_PAIR,
        0,
    ),
];

/// What may become a secret is none.
const SHARING: [Row; 7] = [
    ("a variable", &[SECRETS, GOOD, "rule ?x -> T"], ACCEPTED, 0),
    (
        "a nonce variable",
        &[SECRETS, GOOD, "rule {?n!x}KI -> T"],
        ACCEPTED,
        0,
    ),
    (
        "a pair with a variable",
        &[SECRETS, PAIR_SECRET, GOOD, "rule (?x, T) -> T"],
        WITH_PAIR,
        0,
    ),
    (
        "a pair with a nonce variable",
        &[SECRETS, PAIR_SECRET, GOOD, "rule (?n!x, T) -> T"],
        WITH_PAIR,
        0,
    ),
    (
        "an encryption of a variable",
        &[SECRETS, "secret {N}KI\n", GOOD, "rule {?x}KI -> T"],
        WITH_PAIR,
        0,
    ),
    (
        "the pair turned round, without the half",
        &[SECRETS, "secret (KAi, T)\n", GOOD, "rule (T, ?x) -> T"],
        WITH_PAIR,
        0,
    ),
    (
        "the half beside a variable",
        &[SECRETS, PAIR_SECRET, GOOD, "rule (N, ?x) -> T"],
        "refused 15 block=5 place=1",
        984_321,
    ),
];

/// Which rule is refused, and which number comes first.
const RULES: [Row; 15] = [
    (
        "behind a rule with 12",
        &[SECRETS, GOOD, TWELVE, "rule (T, N) -> T"],
        "refused 15 block=5 place=2",
        984_322,
    ),
    (
        "before a rule with 12",
        &[SECRETS, GOOD, "rule (T, N) -> T\n", TWELVE],
        "refused 15 block=4 place=2",
        984_066,
    ),
    (
        "behind a rule with 12 and a right one",
        &[SECRETS, GOOD, TWELVE, RIGHT, "rule (T, N) -> T"],
        "refused 15 block=6 place=2",
        984_578,
    ),
    (
        "in two rules",
        &[SECRETS, GOOD, RIGHT, "rule (T, N) -> T\n", "rule N -> T"],
        "refused 15 block=5 place=2",
        984_322,
    ),
    (
        "in a rule that would also get 12",
        &[SECRETS, GOOD, "rule (T, N) -> KAi"],
        "refused 15 block=4 place=2",
        984_066,
    ),
    (
        "in a rule that sends the secret under a hat",
        &[SECRETS, GOOD, "rule N -> {N}KA"],
        "refused 15 block=4 place=0",
        984_064,
    ),
    (
        "in a rule that gives back the secret",
        &[SECRETS, GOOD, "rule N -> N"],
        "refused 15 block=4 place=0",
        984_064,
    ),
    (
        "in a conclusion, without a premise",
        &[SECRETS, GOOD, "rule -> N"],
        "refused 12 block=4 place=0",
        787_456,
    ),
    (
        "in a conclusion, behind a premise",
        &[SECRETS, GOOD, "rule T -> (T, N)"],
        "refused 12 block=4 place=3",
        787_459,
    ),
    (
        "in a conclusion, below a hat",
        &[SECRETS, GOOD, "rule T -> {N}KA"],
        ACCEPTED,
        0,
    ),
    (
        "in a conclusion and below a hat of the premise",
        &[SECRETS, GOOD, "rule {N}KA -> N"],
        "refused 12 block=4 place=2",
        787_458,
    ),
    (
        "beside a key that is not kept",
        &[SECRETS, GOOD, "good {*s}KI\n", "rule N -> T"],
        "refused 11 block=4 place=0",
        721_920,
    ),
    (
        "beside a secret that is not closed",
        &[SECRETS, "secret (T, I)\n", GOOD, "rule N -> T"],
        "refused 10 block=3 place=0",
        656_128,
    ),
    (
        "beside a known secret",
        &[SECRETS, "secret T\n", GOOD, "rule N -> T"],
        "refused 9 block=3 place=0",
        590_592,
    ),
    (
        "before a rule that is no term",
        &[SECRETS, GOOD, "rule N -> T\n", "rule *m -> T"],
        "refused 7 block=5 place=0",
        460_032,
    ),
];

pub fn all() -> Result<Vec<Known>, String> {
    let mut known = Vec::new();
    for rows in [&PLACES[..], &EXCEPTIONS, &ENTRIES, &SHARING, &RULES] {
        known.extend(of_rows("open secret,", rows)?);
    }
    known.extend([last_entry()?, last_rule()?]);
    Ok(known)
}

/// N below 62 clear encryptions.
fn last_entry() -> Result<Known, String> {
    let premise = (0..62).fold("N".to_string(), |term, _| format!("{{{term}}}KI"));
    let rest = format!("{SECRETS}{GOOD}rule {premise} -> T");
    let line = "refused 15 block=4 place=62";
    of_text("open secret, at entry 62", &rest, line, 984_126)
}

/// Behind 59 rules with 12.
fn last_rule() -> Result<Known, String> {
    let rest = [SECRETS, GOOD, &TWELVE.repeat(59), "rule (T, N) -> T"].concat();
    let line = "refused 15 block=63 place=2";
    of_text("open secret, in the last of 60 rules", &rest, line, 999_170)
}
