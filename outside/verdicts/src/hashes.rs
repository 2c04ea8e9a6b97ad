//! Document 02, No. 7: hashes and signatures, with answers by hand.

use crate::cases::{of_rows, of_text, Row};
use crate::known::Known;
use crate::more_atoms::{changed, Change};
use text::document::{joined_atoms, ATOMS, GOOD, SECRETS};

const HASH_SECRET: &str = "secret h(N)\n";
const SIGNED_SECRET: &str = "secret sig(T)KAi\n";
const TAKES_HASH: &str = "rule {(h(?x), ?y)}KA -> h(?x)";

const ACCEPTED: &str = "accepted blocks=5 secrets=2 good=1 bad=0 rules=1";
const WITH_BAD: &str = "accepted blocks=6 secrets=2 good=1 bad=1 rules=1";
const THREE_SECRETS: &str = "accepted blocks=6 secrets=3 good=1 bad=0 rules=1";
const FOUR_SECRETS: &str = "accepted blocks=7 secrets=4 good=1 bad=0 rules=1";
const ALL_BUT_MARKS: &str = "accepted blocks=7 secrets=3 good=1 bad=1 rules=1";

/// What stands below them in a conclusion.
const CONCLUSIONS: [Row; 21] = [
    (
        "a secret below a hash",
        &[SECRETS, GOOD, "rule -> h(N)"],
        ACCEPTED,
        0,
    ),
    (
        "a variable below a hash",
        &[SECRETS, GOOD, "rule -> h(?x)"],
        ACCEPTED,
        0,
    ),
    (
        "a secret deep below a hash",
        &[SECRETS, GOOD, "rule -> h((T, {N}KI))"],
        ACCEPTED,
        0,
    ),
    (
        "a secret in a signature below a hash",
        &[SECRETS, GOOD, "rule -> h(sig(N)KIi)"],
        ACCEPTED,
        0,
    ),
    (
        "a secret below two hashes",
        &[SECRETS, GOOD, "rule -> h(h(KAi))"],
        ACCEPTED,
        0,
    ),
    (
        "a secret beside its hash",
        &[SECRETS, GOOD, "rule -> (h(N), N)"],
        "refused 12 block=4 place=3",
        787_459,
    ),
    (
        "a secret behind a long hash",
        &[SECRETS, GOOD, "rule -> (h((T, (?x, N))), N)"],
        "refused 12 block=4 place=7",
        787_463,
    ),
    (
        "a variable beside its hash",
        &[SECRETS, GOOD, "rule -> (h(?x), ?x)"],
        "refused 12 block=4 place=3",
        787_459,
    ),
    (
        "a secret before its hash",
        &[SECRETS, GOOD, "rule -> (N, h(N))"],
        "refused 12 block=4 place=1",
        787_457,
    ),
    (
        "a hash under the intruder's key",
        &[SECRETS, GOOD, "rule -> {h(N)}KI"],
        ACCEPTED,
        0,
    ),
    (
        "a signed secret",
        &[SECRETS, GOOD, "rule -> sig(N)KAi"],
        "refused 12 block=4 place=1",
        787_457,
    ),
    (
        "a secret signed with a known key",
        &[SECRETS, GOOD, "rule -> sig(N)KIi"],
        "refused 12 block=4 place=1",
        787_457,
    ),
    (
        "a signed variable",
        &[SECRETS, GOOD, "rule -> sig(?x)KAi"],
        "refused 12 block=4 place=1",
        787_457,
    ),
    (
        "a hat below a signature",
        &[SECRETS, GOOD, "rule -> sig({N}KA)KAi"],
        ACCEPTED,
        0,
    ),
    (
        "a signature below a hat",
        &[SECRETS, GOOD, "rule -> {sig(N)KAi}KA"],
        ACCEPTED,
        0,
    ),
    (
        "a signature deep below a hat",
        &[SECRETS, GOOD, "rule -> {{(T, sig(N)KAi)}KI}KA"],
        ACCEPTED,
        0,
    ),
    (
        "a signature below a signature",
        &[SECRETS, GOOD, "rule -> sig(sig(N)KAi)KIi"],
        "refused 12 block=4 place=2",
        787_458,
    ),
    (
        "a secret key that signs",
        &[SECRETS, GOOD, "rule -> sig(T)KAi"],
        ACCEPTED,
        0,
    ),
    (
        "a secret key beside what it signs",
        &[SECRETS, GOOD, "rule -> (sig(T)KAi, KAi)"],
        "refused 12 block=4 place=3",
        787_459,
    ),
    (
        "a signed hash of a secret",
        &[SECRETS, GOOD, "rule -> sig(h(N))KAi"],
        ACCEPTED,
        0,
    ),
    (
        "a signed secret behind its hash",
        &[SECRETS, GOOD, "rule -> sig((h(N), N))KAi"],
        "refused 12 block=4 place=4",
        787_460,
    ),
];

/// What stands below them in a premise.
const PREMISES: [Row; 19] = [
    (
        "a variable below a hash is not shown",
        &[SECRETS, GOOD, "rule h(?x) -> ?x"],
        "refused 12 block=4 place=2",
        787_458,
    ),
    (
        "a variable deep below a hash is not shown",
        &[SECRETS, GOOD, "rule h((T, ?x)) -> ?x"],
        "refused 12 block=4 place=4",
        787_460,
    ),
    (
        "a variable in a signature below a hash is not shown",
        &[SECRETS, GOOD, "rule h(sig(?x)KIi) -> ?x"],
        "refused 12 block=4 place=3",
        787_459,
    ),
    (
        "a variable beside its hash is shown",
        &[SECRETS, GOOD, "rule (h(?x), ?x) -> ?x"],
        ACCEPTED,
        0,
    ),
    (
        "what is below a hash goes on in a hat",
        &[SECRETS, GOOD, "rule h(?x) -> {?x}KA"],
        ACCEPTED,
        0,
    ),
    (
        "a secret below a hash of a premise",
        &[SECRETS, GOOD, "rule h(N) -> T"],
        ACCEPTED,
        0,
    ),
    (
        "a secret in a signature below a hash of a premise",
        &[SECRETS, GOOD, "rule h(sig(N)KIi) -> T"],
        ACCEPTED,
        0,
    ),
    (
        "a secret beside its hash in a premise",
        &[SECRETS, GOOD, "rule (h(N), N) -> T"],
        "refused 15 block=4 place=3",
        984_067,
    ),
    (
        "a secret behind a long hash in a premise",
        &[SECRETS, GOOD, "rule (h((T, (?x, ?y))), N) -> T"],
        "refused 15 block=4 place=7",
        984_071,
    ),
    (
        "a signed variable is shown",
        &[SECRETS, GOOD, "rule sig(?x)KAi -> ?x"],
        ACCEPTED,
        0,
    ),
    (
        "a variable signed with a known key is shown",
        &[SECRETS, GOOD, "rule sig(?x)KIi -> ?x"],
        ACCEPTED,
        0,
    ),
    (
        "a signature below a clear encryption shows",
        &[SECRETS, GOOD, "rule {sig(?x)KAi}KI -> ?x"],
        ACCEPTED,
        0,
    ),
    (
        "a signature below a hat does not show",
        &[SECRETS, GOOD, "rule {sig(?x)KAi}KA -> ?x"],
        "refused 12 block=4 place=3",
        787_459,
    ),
    (
        "a hat below a signature does not show",
        &[SECRETS, GOOD, "rule sig({?x}KA)KAi -> ?x"],
        "refused 12 block=4 place=3",
        787_459,
    ),
    (
        "a signed secret in a premise",
        &[SECRETS, GOOD, "rule sig(N)KAi -> T"],
        "refused 15 block=4 place=1",
        984_065,
    ),
    (
        "a signed secret below a hat in a premise",
        &[SECRETS, GOOD, "rule {sig(N)KAi}KA -> T"],
        ACCEPTED,
        0,
    ),
    (
        "a secret key that signs in a premise",
        &[SECRETS, GOOD, "rule sig(T)KAi -> T"],
        ACCEPTED,
        0,
    ),
    (
        "a secret key that signs is not shown",
        &[SECRETS, GOOD, "rule sig(T)KAi -> KAi"],
        "refused 12 block=4 place=2",
        787_458,
    ),
    (
        "a signed variable signed anew",
        &[SECRETS, GOOD, "rule sig(?x)KAi -> sig(?x)KIi"],
        ACCEPTED,
        0,
    ),
];

/// Neither is a pattern.
const ROOTS: [Row; 4] = [
    (
        "a good pattern that is a hash",
        &[SECRETS, "good h(*s)\n", "rule -> T"],
        "refused 8 block=3 place=0",
        525_056,
    ),
    (
        "a good pattern that is a signature",
        &[SECRETS, "good sig(*s)KAi\n", "rule -> T"],
        "refused 8 block=3 place=0",
        525_056,
    ),
    (
        "a bad pattern that is a hash",
        &[SECRETS, GOOD, "bad h(?x)\n", "rule -> T"],
        "refused 8 block=4 place=0",
        525_312,
    ),
    (
        "a bad pattern that is a signature",
        &[SECRETS, GOOD, "bad sig(*x)KAi\n", "rule -> T"],
        "refused 8 block=4 place=0",
        525_312,
    ),
];

/// Listed ones and what closes them.
const CLOSED: [Row; 15] = [
    (
        "a hash with its message",
        &[SECRETS, "secret h(N)\n", GOOD, "rule -> T"],
        THREE_SECRETS,
        0,
    ),
    (
        "a hash without its message",
        &[SECRETS, "secret h(T)\n", GOOD, "rule -> T"],
        "refused 10 block=3 place=0",
        656_128,
    ),
    (
        "a hash of a pair with a half",
        &[SECRETS, "secret h((N, T))\n", GOOD, "rule -> T"],
        "refused 10 block=3 place=0",
        656_128,
    ),
    (
        "a hash of a pair with the pair",
        &[
            SECRETS,
            "secret h((N, T))\nsecret (N, T)\n",
            GOOD,
            "rule -> T",
        ],
        FOUR_SECRETS,
        0,
    ),
    (
        "a hash of a hash with the inner message",
        &[SECRETS, "secret h(h(N))\n", GOOD, "rule -> T"],
        "refused 10 block=3 place=0",
        656_128,
    ),
    (
        "a hash of a hash with the inner hash",
        &[SECRETS, "secret h(h(N))\nsecret h(N)\n", GOOD, "rule -> T"],
        FOUR_SECRETS,
        0,
    ),
    (
        "a signature with its message",
        &[SECRETS, "secret sig(N)KIi\n", GOOD, "rule -> T"],
        THREE_SECRETS,
        0,
    ),
    (
        "a signature with its key",
        &[SECRETS, "secret sig(T)KAi\n", GOOD, "rule -> T"],
        THREE_SECRETS,
        0,
    ),
    (
        "a signature with both",
        &[SECRETS, "secret sig(N)KAi\n", GOOD, "rule -> T"],
        THREE_SECRETS,
        0,
    ),
    (
        "a signature with neither",
        &[SECRETS, "secret sig(T)KIi\n", GOOD, "rule -> T"],
        "refused 10 block=3 place=0",
        656_128,
    ),
    (
        "a signature of a pair with a half",
        &[SECRETS, "secret sig((N, T))KIi\n", GOOD, "rule -> T"],
        "refused 10 block=3 place=0",
        656_128,
    ),
    (
        "a hash of a signature with its key",
        &[SECRETS, "secret h(sig(T)KAi)\n", GOOD, "rule -> T"],
        "refused 10 block=3 place=0",
        656_128,
    ),
    (
        "a pair with the hash of a secret",
        &[SECRETS, "secret (h(N), T)\n", GOOD, "rule -> T"],
        "refused 10 block=3 place=0",
        656_128,
    ),
    (
        "an encryption of the hash of a secret",
        &[SECRETS, "secret {h(N)}KI\n", GOOD, "rule -> T"],
        "refused 10 block=3 place=0",
        656_128,
    ),
    (
        "a hash of a known atom that is listed too",
        &[SECRETS, "secret h(T)\nsecret T\n", GOOD, "rule -> T"],
        "refused 9 block=4 place=0",
        590_848,
    ),
];

/// Listed ones in rules.
const LISTED: [Row; 16] = [
    (
        "a listed hash",
        &[SECRETS, HASH_SECRET, GOOD, "rule -> h(N)"],
        "refused 12 block=5 place=0",
        787_712,
    ),
    (
        "what shares an instance with a listed hash",
        &[SECRETS, HASH_SECRET, GOOD, "rule -> h(?x)"],
        "refused 12 block=5 place=0",
        787_712,
    ),
    (
        "another hash",
        &[SECRETS, HASH_SECRET, GOOD, "rule -> h(T)"],
        THREE_SECRETS,
        0,
    ),
    (
        "a hash whose message is shown",
        &[SECRETS, HASH_SECRET, GOOD, "rule ?x -> h(?x)"],
        "refused 12 block=5 place=1",
        787_713,
    ),
    (
        "a hash that is shown",
        &[SECRETS, HASH_SECRET, GOOD, "rule h(?x) -> h(?x)"],
        THREE_SECRETS,
        0,
    ),
    (
        "a hash that is shown below a signature",
        &[
            SECRETS,
            HASH_SECRET,
            GOOD,
            "rule sig(h(?x))KIi -> (T, h(?x))",
        ],
        THREE_SECRETS,
        0,
    ),
    (
        "a listed hash in a premise",
        &[SECRETS, HASH_SECRET, GOOD, "rule h(N) -> T"],
        "refused 15 block=5 place=0",
        984_320,
    ),
    (
        "a listed hash below a hat",
        &[SECRETS, HASH_SECRET, GOOD, "rule -> {h(N)}KA"],
        THREE_SECRETS,
        0,
    ),
    (
        "a listed hash below a hash",
        &[SECRETS, HASH_SECRET, GOOD, "rule -> h((T, h(N)))"],
        THREE_SECRETS,
        0,
    ),
    (
        "a listed hash below a signature",
        &[SECRETS, HASH_SECRET, GOOD, "rule -> sig(h(N))KAi"],
        "refused 12 block=5 place=1",
        787_713,
    ),
    (
        "a listed signature",
        &[SECRETS, SIGNED_SECRET, GOOD, "rule -> sig(T)KAi"],
        "refused 12 block=5 place=0",
        787_712,
    ),
    (
        "the same signed with another key",
        &[SECRETS, SIGNED_SECRET, GOOD, "rule -> sig(T)KIi"],
        THREE_SECRETS,
        0,
    ),
    (
        "a signature whose message is shown",
        &[SECRETS, SIGNED_SECRET, GOOD, "rule ?x -> sig(?x)KAi"],
        "refused 12 block=5 place=1",
        787_713,
    ),
    (
        "a signature that is shown",
        &[
            SECRETS,
            SIGNED_SECRET,
            GOOD,
            "rule sig(?x)KAi -> sig(?x)KAi",
        ],
        THREE_SECRETS,
        0,
    ),
    (
        "a listed signature in a premise",
        &[SECRETS, SIGNED_SECRET, GOOD, "rule sig(T)KAi -> T"],
        "refused 15 block=5 place=0",
        984_320,
    ),
    (
        "a listed signature below a hash",
        &[
            SECRETS,
            SIGNED_SECRET,
            GOOD,
            "rule h(sig(T)KAi) -> h(sig(T)KAi)",
        ],
        THREE_SECRETS,
        0,
    ),
];

/// Patterns that hold them.
const MATCHING: [Row; 22] = [
    (
        "a hash at a pattern's hash",
        &[SECRETS, "good {(h(?x), *s)}KA\n", "rule -> {(h(T), N)}KA"],
        ACCEPTED,
        0,
    ),
    (
        "an atom at a pattern's hash",
        &[SECRETS, "good {(h(?x), *s)}KA\n", "rule -> {(T, N)}KA"],
        "refused 12 block=4 place=3",
        787_459,
    ),
    (
        "a hash with another message",
        &[
            SECRETS,
            "good {(h(T), *s)}KA\n",
            "rule {(h(A), ?x)}KA -> ?x",
        ],
        ACCEPTED,
        0,
    ),
    (
        "a hash with a message that fits",
        &[
            SECRETS,
            "good {(h(T), *s)}KA\n",
            "rule {(h(?y), ?x)}KA -> ?x",
        ],
        "refused 12 block=4 place=5",
        787_461,
    ),
    (
        "a signature at a pattern's hash",
        &[
            SECRETS,
            "good {(h(T), *s)}KA\n",
            "rule {(sig(T)KAi, ?x)}KA -> ?x",
        ],
        ACCEPTED,
        0,
    ),
    (
        "an encryption at a pattern's hash",
        &[
            SECRETS,
            "good {(h(T), *s)}KA\n",
            "rule {({T}KI, ?x)}KA -> ?x",
        ],
        ACCEPTED,
        0,
    ),
    (
        "a signature with another key",
        &[
            SECRETS,
            "good {(sig(?y)KAi, *s)}KA\n",
            "rule {(sig(T)KIi, ?x)}KA -> ?x",
        ],
        ACCEPTED,
        0,
    ),
    (
        "a signature with the same key",
        &[
            SECRETS,
            "good {(sig(?y)KAi, *s)}KA\n",
            "rule {(sig(T)KAi, ?x)}KA -> ?x",
        ],
        "refused 12 block=4 place=5",
        787_461,
    ),
    (
        "an encryption under the same key",
        &[
            SECRETS,
            "good {(sig(?y)KAi, *s)}KA\n",
            "rule {({T}KAi, ?x)}KA -> ?x",
        ],
        ACCEPTED,
        0,
    ),
    (
        "a mark below a signature",
        &[SECRETS, "good {sig(*s)KAi}KA\n", "rule -> {sig(N)KAi}KA"],
        ACCEPTED,
        0,
    ),
    (
        "a mark below a signature with another key",
        &[SECRETS, "good {sig(*s)KAi}KA\n", "rule -> {sig(N)KIi}KA"],
        "refused 12 block=4 place=2",
        787_458,
    ),
    (
        "one variable beside and below a hash, by one atom",
        &[
            SECRETS,
            "good {(h(?x), (?x, *s))}KA\n",
            "rule -> {(h(T), (T, N))}KA",
        ],
        ACCEPTED,
        0,
    ),
    (
        "one variable beside and below a hash, by two atoms",
        &[
            SECRETS,
            "good {(h(?x), (?x, *s))}KA\n",
            "rule -> {(h(T), (A, N))}KA",
        ],
        "refused 12 block=4 place=6",
        787_462,
    ),
    (
        "a variable that would hold its own hash",
        &[
            SECRETS,
            "good {(?x, (h(?x), *s))}KA\n",
            "rule {(?y, (?y, ?z))}KA -> ?z",
        ],
        ACCEPTED,
        0,
    ),
    (
        "a variable and a hash of another",
        &[
            SECRETS,
            "good {(?x, (h(?x), *s))}KA\n",
            "rule {(?y, (h(?w), ?z))}KA -> ?z",
        ],
        "refused 12 block=4 place=7",
        787_463,
    ),
    (
        "a variable that would hold its own signature",
        &[
            SECRETS,
            "good {(?x, (sig(?x)KAi, *s))}KA\n",
            "rule {(?y, (?y, ?z))}KA -> ?z",
        ],
        ACCEPTED,
        0,
    ),
    (
        "a hash where the good pattern has a nonce",
        &[
            SECRETS,
            "good {(?n!x, *s)}KA\n",
            "rule {(h(T), ?y)}KA -> ?y",
        ],
        ACCEPTED,
        0,
    ),
    (
        "a signature where the good pattern has a nonce",
        &[
            SECRETS,
            "good {(?n!x, *s)}KA\n",
            "rule {(sig(T)KAi, ?y)}KA -> ?y",
        ],
        ACCEPTED,
        0,
    ),
    (
        "a hash put at a nonce variable",
        &[SECRETS, "good {(?n!x, *s)}KA\n", "rule -> {(h(T), N)}KA"],
        "refused 12 block=4 place=4",
        787_460,
    ),
    (
        "a signature put at a marked nonce variable",
        &[SECRETS, "good {*n!s}KA\n", "rule -> {sig(N)KAi}KA"],
        "refused 12 block=4 place=2",
        787_458,
    ),
    (
        "a nonce at a nonce variable below a hash",
        &[SECRETS, "good {(h(?n!x), *s)}KA\n", "rule -> {(h(T), N)}KA"],
        ACCEPTED,
        0,
    ),
    (
        "a principal at a nonce variable below a hash",
        &[SECRETS, "good {(h(?n!x), *s)}KA\n", "rule -> {(h(A), N)}KA"],
        "refused 12 block=4 place=4",
        787_460,
    ),
];

/// Marks below a hash or a signature.
const MARKS: [Row; 19] = [
    (
        "a bad mark below a hash is below a variable",
        &[SECRETS, GOOD, "bad {h(*m)}KA\n", "rule -> {?x}KA"],
        "refused 12 block=5 place=1",
        787_713,
    ),
    (
        "a bad mark below a hash, and a secret that is none",
        &[SECRETS, GOOD, "bad {h(*m)}KA\n", "rule -> {N}KA"],
        WITH_BAD,
        0,
    ),
    (
        "a bad mark below a hash, and a hash",
        &[SECRETS, GOOD, "bad {h(*m)}KA\n", "rule -> {h(N)}KA"],
        WITH_BAD,
        0,
    ),
    (
        "a bad mark below a hash beside the secret",
        &[
            SECRETS,
            GOOD,
            "bad {(h(*m), ?y)}KA\n",
            "rule -> {(h(T), N)}KA",
        ],
        WITH_BAD,
        0,
    ),
    (
        "a bad mark below a hash beside a variable that it is below",
        &[
            SECRETS,
            GOOD,
            "bad {(h(*m), ?y)}KA\n",
            "rule -> {(?x, N)}KA",
        ],
        "refused 12 block=5 place=2",
        787_714,
    ),
    (
        "a bad mark below a hash beside a variable that is shown",
        &[
            SECRETS,
            GOOD,
            "bad {(h(*m), ?y)}KA\n",
            "rule ?x -> {(?x, N)}KA",
        ],
        WITH_BAD,
        0,
    ),
    (
        "a bad mark below a hash does not open what is beside it",
        &[
            SECRETS,
            GOOD,
            "bad {(h(*m), ?y)}KA\n",
            "rule {(h(?x), ?y)}KA -> ?y",
        ],
        "refused 12 block=5 place=5",
        787_717,
    ),
    (
        "a bad mark below a hash does not show a secret beside it",
        &[
            SECRETS,
            GOOD,
            "bad {(h(*m), ?y)}KA\n",
            "rule {(h(T), N)}KA -> T",
        ],
        WITH_BAD,
        0,
    ),
    (
        "a bad pattern with a hash and without marks shows a secret",
        &[
            SECRETS,
            GOOD,
            "bad {(h(?m), ?y)}KA\n",
            "rule {(h(T), N)}KA -> T",
        ],
        "refused 15 block=5 place=4",
        984_324,
    ),
    (
        "a bad pattern with a hash and without marks",
        &[
            SECRETS,
            GOOD,
            "bad {(h(?m), ?y)}KA\n",
            "rule -> {(h(T), N)}KA",
        ],
        "refused 12 block=5 place=4",
        787_716,
    ),
    (
        "a bad mark below a signature is at the secret",
        &[
            SECRETS,
            GOOD,
            "bad {(sig(*m)KAi, ?y)}KA\n",
            "rule -> {(sig(N)KAi, T)}KA",
        ],
        "refused 12 block=5 place=3",
        787_715,
    ),
    (
        "a bad mark below a signature opens it",
        &[
            SECRETS,
            GOOD,
            "bad {(sig(*m)KAi, ?y)}KA\n",
            "rule {(sig(?x)KAi, ?y)}KA -> ?x",
        ],
        WITH_BAD,
        0,
    ),
    (
        "a bad mark at a hash opens it",
        &[SECRETS, HASH_SECRET, GOOD, "bad {(*m, ?y)}KA\n", TAKES_HASH],
        ALL_BUT_MARKS,
        0,
    ),
    (
        "a bad mark below a hash does not open it",
        &[
            SECRETS,
            HASH_SECRET,
            GOOD,
            "bad {(h(*m), ?y)}KA\n",
            TAKES_HASH,
        ],
        "refused 12 block=6 place=5",
        787_973,
    ),
    (
        "a good mark below a hash",
        &[SECRETS, "good {h(*s)}KA\n", "rule -> {h(N)}KA"],
        ACCEPTED,
        0,
    ),
    (
        "a good mark below a hash does not cover the hash",
        &[SECRETS, HASH_SECRET, "good {h(*s)}KA\n", "rule -> {h(N)}KA"],
        "refused 12 block=5 place=1",
        787_713,
    ),
    (
        "a good mark at the hash covers it",
        &[
            SECRETS,
            HASH_SECRET,
            "good {(T, *s)}KA\n",
            "rule -> {(T, h(N))}KA",
        ],
        THREE_SECRETS,
        0,
    ),
    (
        "one good mark beside and below a hash",
        &[SECRETS, "good {(h(*s), *s)}KA\n", "rule -> {(h(N), N)}KA"],
        ACCEPTED,
        0,
    ),
    (
        "one good mark beside and below a hash, by two atoms",
        &[SECRETS, "good {(h(*s), *s)}KA\n", "rule -> {(h(T), N)}KA"],
        "refused 12 block=4 place=4",
        787_460,
    ),
];

/// Name, changes of the file, line, answer of the C call.
type ChangedRow = (&'static str, &'static [Change], &'static str, u32);

/// Of the rule `-> (h(T), sig(T)KAi)`, which is block 4.
const CHANGES: [ChangedRow; 16] = [
    ("as it is", &[], ACCEPTED, 0),
    (
        "a hash with value 1",
        &[(4, 10, 1)],
        "refused 7 block=4 place=1",
        459_777,
    ),
    (
        "a hash with value 256",
        &[(4, 11, 1)],
        "refused 7 block=4 place=1",
        459_777,
    ),
    (
        "a hash with second byte 1",
        &[(4, 9, 1)],
        "refused 7 block=4 place=1",
        459_777,
    ),
    (
        "a signature with a known private key",
        &[(4, 18, 5)],
        ACCEPTED,
        0,
    ),
    (
        "a signature with a public key",
        &[(4, 18, 2)],
        "refused 7 block=4 place=3",
        459_779,
    ),
    (
        "a signature with a principal",
        &[(4, 18, 0)],
        "refused 7 block=4 place=3",
        459_779,
    ),
    (
        "a signature with a nonce",
        &[(4, 18, 6)],
        "refused 7 block=4 place=3",
        459_779,
    ),
    (
        "a signature with no atom's number",
        &[(4, 18, 8)],
        "refused 7 block=4 place=3",
        459_779,
    ),
    (
        "a signature with a key's number and 256",
        &[(4, 19, 1)],
        "refused 7 block=4 place=3",
        459_779,
    ),
    (
        "a signature with second byte 1",
        &[(4, 17, 1)],
        "refused 7 block=4 place=3",
        459_779,
    ),
    (
        "tag 10",
        &[(4, 8, 10)],
        "refused 7 block=4 place=1",
        459_777,
    ),
    (
        "a hash in place of the last atom",
        &[(4, 20, 8), (4, 22, 0)],
        "refused 8 block=4 place=0",
        525_312,
    ),
    (
        "a signature in place of the last atom",
        &[(4, 20, 9), (4, 22, 3)],
        "refused 8 block=4 place=0",
        525_312,
    ),
    (
        "a hash in place of the signature",
        &[(4, 16, 8), (4, 18, 0)],
        ACCEPTED,
        0,
    ),
    (
        "a hash in place of the pair",
        &[(4, 4, 8)],
        "refused 8 block=4 place=0",
        525_312,
    ),
];

fn wrong_entries() -> Result<Vec<Known>, String> {
    let rest = [SECRETS, GOOD, "rule -> (h(T), sig(T)KAi)"].concat();
    let file = of_text("", &rest, ACCEPTED, 0)?.file;
    let of = |(name, changes, line, packed): &ChangedRow| Known {
        name: format!("hashes, entries: {name}"),
        file: changed(&file, changes),
        line: line.to_string(),
        packed: *packed,
    };
    Ok(CHANGES.iter().map(of).collect())
}

/// Name, what follows the atoms, line, answer of the C call.
type Rest = (&'static str, &'static str, &'static str, u32);

fn over(atoms: &str, rows: &[Rest]) -> Result<Vec<Known>, String> {
    let of = |(name, rest, line, packed): &Rest| {
        let file = text::assemble(&format!("{atoms}{rest}")).map_err(|e| format!("{name}: {e}"))?;
        Ok(Known {
            name: format!("hashes, {name}"),
            file,
            line: line.to_string(),
            packed: *packed,
        })
    };
    rows.iter().map(of).collect()
}

/// A's public key is a secret, so that her private one may be a root key.
const UNDER_A_PRIVATE_KEY: [Rest; 6] = [
    (
        "an encryption under a private key",
        "secret N\nsecret KAi\nsecret KA\ngood {*s}KAi\nrule -> {N}KAi",
        "accepted blocks=6 secrets=3 good=1 bad=0 rules=1",
        0,
    ),
    (
        "a signature with a good pattern's key is no hat",
        "secret N\nsecret KAi\nsecret KA\ngood {*s}KAi\nrule -> sig(N)KAi",
        "refused 12 block=5 place=1",
        787_713,
    ),
    (
        "an encryption under a private key closes",
        "secret N\nsecret KAi\nsecret KA\ngood {*s}KAi\nrule {?x}KAi -> ?x",
        "refused 12 block=5 place=2",
        787_714,
    ),
    (
        "a signature with a good pattern's key does not close",
        "secret N\nsecret KAi\nsecret KA\ngood {*s}KAi\nrule sig(?x)KAi -> ?x",
        "accepted blocks=6 secrets=3 good=1 bad=0 rules=1",
        0,
    ),
    (
        "a signature with a good pattern's key shows a secret",
        "secret N\nsecret KAi\nsecret KA\ngood {*s}KAi\nrule sig(N)KAi -> T",
        "refused 15 block=5 place=1",
        984_321,
    ),
    (
        "the inverse does not close a signature",
        "secret N\nsecret KA\nsecret sig(T)KAi\nrule -> T",
        "refused 10 block=3 place=0",
        656_128,
    ),
];

/// P is the last atom of the first block; Q, K, L, S and M stand in the second.
const TWO_ATOM_BLOCKS: [Rest; 9] = [
    (
        "signed with a key of the second block",
        "secret L\nsecret M\ngood {*s}K\nrule -> sig(x0)L",
        "accepted blocks=6 secrets=2 good=1 bad=0 rules=1",
        0,
    ),
    (
        "signed with the last key of the first block",
        "secret L\nsecret M\ngood {*s}K\nrule -> sig(x0)P",
        "accepted blocks=6 secrets=2 good=1 bad=0 rules=1",
        0,
    ),
    (
        "signed with a public key of the second block",
        "secret L\nsecret M\ngood {*s}K\nrule -> sig(x0)Q",
        "refused 7 block=5 place=0",
        460_032,
    ),
    (
        "signed with a symmetric key",
        "secret L\nsecret M\ngood {*s}K\nrule -> (x0, sig(x0)S)",
        "refused 7 block=5 place=2",
        460_034,
    ),
    (
        "signed with a nonce of the second block",
        "secret L\nsecret M\ngood {*s}K\nrule -> sig(x0)M",
        "refused 7 block=5 place=0",
        460_032,
    ),
    (
        "a secret of the second block signed",
        "secret L\nsecret M\ngood {*s}K\nrule -> sig(M)L",
        "refused 12 block=5 place=1",
        787_713,
    ),
    (
        "a secret of the second block below a hash",
        "secret L\nsecret M\ngood {*s}K\nrule h(M) -> (h(M), {sig(M)L}K)",
        "accepted blocks=6 secrets=2 good=1 bad=0 rules=1",
        0,
    ),
    (
        "a listed signature with a key of the second block",
        "secret L\nsecret M\nsecret sig(x0)L\ngood {*s}K\nrule -> x0",
        "accepted blocks=7 secrets=3 good=1 bad=0 rules=1",
        0,
    ),
    (
        "a listed signature with another key of the first block",
        "secret L\nsecret M\nsecret sig(x0)P\ngood {*s}K\nrule -> x0",
        "refused 10 block=4 place=0",
        656_384,
    ),
];

/// With terms of 63 entries in place of SECRET, VARIABLE, HASHED and BEHIND.
const LONGEST: [Rest; 8] = [
    (
        "62 signatures around a secret",
        "-> SECRET",
        "refused 12 block=4 place=62",
        787_518,
    ),
    (
        "62 signatures around a secret in a premise",
        "SECRET -> T",
        "refused 15 block=4 place=62",
        984_126,
    ),
    (
        "62 signatures around a variable, sent on",
        "VARIABLE -> VARIABLE",
        ACCEPTED,
        0,
    ),
    (
        "62 signatures around a variable that is not shown",
        "-> VARIABLE",
        "refused 12 block=4 place=62",
        787_518,
    ),
    ("62 hashes around a secret", "HASHED -> HASHED", ACCEPTED, 0),
    (
        "a secret behind a hash of 61 entries",
        "-> BEHIND",
        "refused 12 block=4 place=62",
        787_518,
    ),
    (
        "a secret behind a hash of 61 entries in a premise",
        "BEHIND -> T",
        "refused 15 block=4 place=62",
        984_126,
    ),
    (
        "the last entry of all",
        "VARIABLE -> SECRET",
        "refused 12 block=4 place=125",
        787_581,
    ),
];

fn longest() -> Result<Vec<Known>, String> {
    let around = |count: usize, open: &str, inner: &str, close: &str| {
        format!("{}{inner}{}", open.repeat(count), close.repeat(count))
    };
    let signed = |count, inner| around(count, "sig(", inner, ")KAi");
    let terms = [
        ("SECRET", signed(62, "N")),
        ("VARIABLE", signed(62, "?x")),
        ("HASHED", around(62, "h(", "N", ")")),
        ("BEHIND", format!("(h({}), N)", signed(59, "N"))),
    ];
    let of = |(name, rule, line, packed): &Rest| {
        let with = |rule: String, (word, term): &(&str, String)| rule.replace(word, term);
        let rule = terms.iter().fold(rule.to_string(), with);
        let rest = format!("{SECRETS}{GOOD}rule {rule}");
        of_text(&format!("hashes, {name}"), &rest, line, *packed)
    };
    LONGEST.iter().map(of).collect()
}

pub fn all() -> Result<Vec<Known>, String> {
    let mut known = Vec::new();
    for rows in [
        &CONCLUSIONS[..],
        &PREMISES,
        &ROOTS,
        &CLOSED,
        &LISTED,
        &MATCHING,
        &MARKS,
    ] {
        known.extend(of_rows("hashes,", rows)?);
    }
    known.extend(wrong_entries()?);
    let unknown = ATOMS.replace("atom KA public known", "atom KA public unknown");
    known.extend(over(&unknown, &UNDER_A_PRIVATE_KEY)?);
    known.extend(over(&joined_atoms(), &TWO_ATOM_BLOCKS)?);
    known.extend(longest()?);
    Ok(known)
}
