//! Document 02, No. 2: bad patterns that mark a place, with answers by hand.

use crate::cases::{of_rows, Row};
use crate::known::Known;
use crate::more_atoms::{changed, Change};
use text::document::{GOOD, SECRETS};

const PAIR_SECRET: &str = "secret (N, T)\n";

// Bad patterns: a mark on all that follows I, on the first or the second of
// two, on none.
const ON_REST: &str = "bad {(I, *m)}KA\n";
const ON_FIRST: &str = "bad {(I, (*x, ?y))}KA\n";
const ON_SECOND: &str = "bad {(I, (?x, *y))}KA\n";
const ON_NONE: &str = "bad {(I, (?x, ?y))}KA\n";
/// As ON_FIRST, after A.
const AFTER_A: &str = "bad {(A, (*x, ?y))}KA\n";

const SENDS: &str = "rule -> {(I, (N, T))}KA\n";
const SHOWS_FIRST: &str = "rule {(I, (?x, ?y))}KA -> {?x}KI\n";
const SHOWS_BOTH: &str = "rule {(I, (?x, ?y))}KA -> ({?x}KI, {?y}KI)\n";
const TAKES_PAIR: &str = "rule {(I, (N, T))}KA -> N\n";
/// ?x is open at the left; the pair is not, but by a mark.
const SHOWS_PAIR: &str = "rule (?x, {(I, (?x, T))}KA) -> {(?x, T)}KI\n";

const ACCEPTED: &str = "accepted blocks=6 secrets=2 good=1 bad=1 rules=1";
const WITH_TWO_BADS: &str = "accepted blocks=7 secrets=2 good=1 bad=2 rules=1";
const WITH_PAIR: &str = "accepted blocks=7 secrets=3 good=1 bad=1 rules=1";

/// One rule that sends.
const HATS: [Row; 16] = [
    (
        "an exception without a mark",
        &[SECRETS, GOOD, ON_NONE, SENDS],
        "refused 12 block=5 place=4",
        787_716,
    ),
    (
        "a mark beside the secret",
        &[SECRETS, GOOD, ON_SECOND, SENDS],
        ACCEPTED,
        0,
    ),
    (
        "a mark at the secret",
        &[SECRETS, GOOD, ON_FIRST, SENDS],
        "refused 12 block=5 place=4",
        787_716,
    ),
    (
        "a mark above the secret",
        &[SECRETS, GOOD, ON_REST, SENDS],
        "refused 12 block=5 place=4",
        787_716,
    ),
    (
        "a mark below a variable",
        &[SECRETS, GOOD, ON_REST, "rule {(T, ?x)}KA -> {?x}KA"],
        "refused 12 block=5 place=5",
        787_717,
    ),
    (
        "a mark far below a variable",
        &[SECRETS, GOOD, ON_SECOND, "rule {(T, ?x)}KA -> {?x}KA"],
        "refused 12 block=5 place=5",
        787_717,
    ),
    (
        "a mark below a variable that is the second of two",
        &[SECRETS, GOOD, ON_SECOND, "rule {(T, ?z)}KA -> {(I, ?z)}KA"],
        "refused 12 block=5 place=7",
        787_719,
    ),
    (
        "a mark below a variable of what it shares nothing with",
        &[SECRETS, GOOD, ON_SECOND, "rule {(T, ?z)}KA -> {(T, ?z)}KA"],
        ACCEPTED,
        0,
    ),
    (
        "a mark below a nested secret",
        &[SECRETS, PAIR_SECRET, GOOD, ON_SECOND, SENDS],
        "refused 12 block=6 place=3",
        787_971,
    ),
    (
        "the other place of the same hat",
        &[SECRETS, GOOD, ON_SECOND, "rule -> {(I, (N, N))}KA"],
        "refused 12 block=5 place=5",
        787_717,
    ),
    (
        "an open variable at the mark",
        &[SECRETS, GOOD, ON_SECOND, "rule {?y}KI -> {(I, (N, ?y))}KA"],
        ACCEPTED,
        0,
    ),
    (
        "another hat above the exception",
        &[SECRETS, GOOD, ON_REST, "rule -> {{(I, N)}KA}KA"],
        ACCEPTED,
        0,
    ),
    (
        "no shared instance by a repeated mark",
        &[SECRETS, GOOD, "bad {(*x, *x)}KA\n", "rule -> {(I, N)}KA"],
        ACCEPTED,
        0,
    ),
    (
        "a mark of a bad pattern covers nothing",
        &[
            SECRETS,
            "good {(?x, *s)}KA\n",
            "bad {(*x, I)}KA\n",
            "rule -> {(N, T)}KA",
        ],
        "refused 12 block=5 place=2",
        787_714,
    ),
    (
        "a mark on the whole message",
        &[SECRETS, GOOD, "bad {*m}KA\n", "rule -> {N}KA"],
        "refused 12 block=5 place=1",
        787_713,
    ),
    (
        "a bad pattern under a key that is not kept",
        &[SECRETS, GOOD, "bad {(I, *m)}KI\n", "rule -> {N}KA"],
        ACCEPTED,
        0,
    ),
];

/// One rule that forwards, or whose premise has a secret.
const OPEN_PLACES: [Row; 16] = [
    (
        "shown without a mark",
        &[SECRETS, GOOD, ON_NONE, SHOWS_FIRST],
        ACCEPTED,
        0,
    ),
    (
        "shown by a mark at it",
        &[SECRETS, GOOD, ON_FIRST, SHOWS_FIRST],
        ACCEPTED,
        0,
    ),
    (
        "shown by a mark above it",
        &[SECRETS, GOOD, ON_REST, SHOWS_FIRST],
        ACCEPTED,
        0,
    ),
    (
        "not shown by a mark beside it",
        &[SECRETS, GOOD, ON_SECOND, SHOWS_FIRST],
        "refused 12 block=5 place=7",
        787_719,
    ),
    (
        "a pair shown by a mark at it",
        &[SECRETS, PAIR_SECRET, GOOD, ON_REST, SHOWS_PAIR],
        WITH_PAIR,
        0,
    ),
    (
        "a pair not shown by a mark below it",
        &[SECRETS, PAIR_SECRET, GOOD, ON_SECOND, SHOWS_PAIR],
        "refused 12 block=6 place=9",
        787_977,
    ),
    (
        "a secret pair open by a mark at it",
        &[SECRETS, PAIR_SECRET, GOOD, ON_REST, TAKES_PAIR],
        "refused 15 block=6 place=3",
        984_579,
    ),
    (
        "a secret pair not open by a mark below it",
        &[SECRETS, PAIR_SECRET, GOOD, ON_SECOND, TAKES_PAIR],
        "refused 12 block=6 place=6",
        787_974,
    ),
    (
        "a secret open by a mark at it",
        &[SECRETS, GOOD, ON_FIRST, TAKES_PAIR],
        "refused 15 block=5 place=4",
        984_324,
    ),
    (
        "a secret not open by a mark beside it",
        &[SECRETS, GOOD, ON_SECOND, TAKES_PAIR],
        "refused 12 block=5 place=6",
        787_718,
    ),
    (
        "below two marks",
        &[SECRETS, GOOD, ON_REST, "rule {(I, {(I, ?x)}KA)}KA -> ?x"],
        ACCEPTED,
        0,
    ),
    (
        "below one mark and what closes",
        &[SECRETS, GOOD, ON_REST, "rule {(I, {(T, ?x)}KA)}KA -> ?x"],
        "refused 12 block=5 place=7",
        787_719,
    ),
    (
        "shares an instance but is none",
        &[SECRETS, GOOD, ON_REST, "rule {(?z, ?x)}KA -> ?x"],
        "refused 12 block=5 place=4",
        787_716,
    ),
    (
        "a plain and a marked variable of one number",
        &[
            SECRETS,
            GOOD,
            "bad {(?x, *x)}KA\n",
            "rule {(T, ?y)}KA -> {?y}KI",
        ],
        ACCEPTED,
        0,
    ),
    (
        "a repeated mark by two unequal terms",
        &[
            SECRETS,
            GOOD,
            "bad {(*x, *x)}KA\n",
            "rule {(T, ?y)}KA -> {?y}KI",
        ],
        "refused 12 block=5 place=5",
        787_717,
    ),
    (
        "a repeated mark by two equal terms",
        &[
            SECRETS,
            GOOD,
            "bad {(*x, *x)}KA\n",
            "rule {(?y, ?y)}KA -> {?y}KI",
        ],
        ACCEPTED,
        0,
    ),
];

/// Two bad patterns, in both orders.
const TWO_BADS: [Row; 12] = [
    (
        "matched by the first, the other's mark at the secret",
        &[SECRETS, GOOD, ON_SECOND, AFTER_A, SENDS],
        WITH_TWO_BADS,
        0,
    ),
    (
        "matched by the second, the other's mark at the secret",
        &[SECRETS, GOOD, AFTER_A, ON_SECOND, SENDS],
        WITH_TWO_BADS,
        0,
    ),
    (
        "matched by the first, the other's mark at the variable",
        &[SECRETS, GOOD, ON_SECOND, AFTER_A, SHOWS_FIRST],
        "refused 12 block=6 place=7",
        787_975,
    ),
    (
        "matched by the second, the other's mark at the variable",
        &[SECRETS, GOOD, AFTER_A, ON_SECOND, SHOWS_FIRST],
        "refused 12 block=6 place=7",
        787_975,
    ),
    (
        "matched by both, the first's mark at the secret",
        &[SECRETS, GOOD, ON_FIRST, ON_SECOND, SENDS],
        "refused 12 block=6 place=4",
        787_972,
    ),
    (
        "matched by both, the second's mark at the secret",
        &[SECRETS, GOOD, ON_SECOND, ON_FIRST, SENDS],
        "refused 12 block=6 place=4",
        787_972,
    ),
    (
        "matched by both, each shows one",
        &[SECRETS, GOOD, ON_FIRST, ON_SECOND, SHOWS_BOTH],
        WITH_TWO_BADS,
        0,
    ),
    (
        "matched by both, each shows one, turned round",
        &[SECRETS, GOOD, ON_SECOND, ON_FIRST, SHOWS_BOTH],
        WITH_TWO_BADS,
        0,
    ),
    (
        "the first without a mark",
        &[SECRETS, GOOD, ON_NONE, ON_SECOND, SENDS],
        "refused 12 block=6 place=4",
        787_972,
    ),
    (
        "the second without a mark",
        &[SECRETS, GOOD, ON_SECOND, ON_NONE, SENDS],
        "refused 12 block=6 place=4",
        787_972,
    ),
    (
        "the first without a mark, shown",
        &[SECRETS, GOOD, ON_NONE, ON_SECOND, SHOWS_FIRST],
        WITH_TWO_BADS,
        0,
    ),
    (
        "the second without a mark, shown",
        &[SECRETS, GOOD, ON_SECOND, ON_NONE, SHOWS_FIRST],
        WITH_TWO_BADS,
        0,
    ),
];

/// Where marks are still refused, and other numbers.
const NUMBERS: [Row; 4] = [
    (
        "a mark in a secret",
        &["secret (N, *x)\n", SECRETS, GOOD, ON_REST, SENDS],
        "refused 7 block=1 place=2",
        459_010,
    ),
    (
        "a mark in a premise",
        &[SECRETS, GOOD, ON_REST, "rule {*x}KI -> T"],
        "refused 7 block=5 place=1",
        460_033,
    ),
    (
        "a mark in a conclusion",
        &[SECRETS, GOOD, ON_REST, "rule -> {*x}KA"],
        "refused 7 block=5 place=1",
        460_033,
    ),
    (
        "a mark as a whole bad pattern",
        &[SECRETS, GOOD, "bad *m\n", SENDS],
        "refused 8 block=4 place=0",
        525_312,
    ),
];

/// The mark of ON_REST with a number that no variable has, and with a byte that
/// must be zero.
const CHANGES: [(&str, Change); 2] = [("number 8", (4, 18, 8)), ("second byte", (4, 17, 1))];

pub fn all() -> Result<Vec<Known>, String> {
    let mut known = Vec::new();
    for rows in [&HATS[..], &OPEN_PLACES, &TWO_BADS, &NUMBERS] {
        known.extend(of_rows("marked bad,", rows)?);
    }
    known.extend(changed_marks()?);
    Ok(known)
}

fn changed_marks() -> Result<Vec<Known>, String> {
    const ROW: Row = (
        "a wrong mark",
        &[SECRETS, GOOD, ON_REST, SENDS],
        "refused 7 block=4 place=3",
        459_779,
    );
    let base = of_rows("marked bad,", &[ROW])?.remove(0);
    let of = |(name, change): &(&str, Change)| Known {
        name: format!("{}, {name}", base.name),
        file: changed(&base.file, &[*change]),
        ..base.clone()
    };
    Ok(CHANGES.iter().map(of).collect())
}
