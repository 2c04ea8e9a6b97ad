//! Printing: round trips, numbers and notes.

mod common;

use common::{notes, usual, NONE};
use literal::{Refusal, Verdict};
use text::document::{nonces, ATOMS};
use text::{assemble, print, print_entries};

#[test]
fn notes_on_nonce_variables() {
    let printed = |line: &str| print(&assemble(&format!("{ATOMS}{line}")).unwrap());
    let in_rule = printed("rule -> {*n!x}KA");
    assert!(in_rule.contains("# block 1: entry 1: a marked variable in a rule\n"));
    let in_secret = printed("secret (N, ?n!x)");
    assert!(in_secret.contains("# block 1: entry 2: a variable in a secret\n"));
    let mut file = assemble(&format!("{ATOMS}good {{(?n!x, *n!x)}}KA")).unwrap();
    file[512 + 4 + 8 + 2] = 8;
    let too_large = print(&file);
    assert!(too_large.contains("entry 2: not read, a variable with number 8\n"));
    assert!(too_large.contains("entry 3: marked nonce variable 0\n"));
}

/// The assembler writes any atom as a signing key, and the checker refuses it.
#[test]
fn notes_on_hashes_and_signatures() {
    let signed = |key: &str| print(&assemble(&format!("{ATOMS}secret sig(N){key}")).unwrap());
    for key in ["KA", "A", "T"] {
        let printed = signed(key);
        let words = "# block 1: entry 0: is no private key\n";
        assert!(printed.contains(words), "{printed}");
    }
    assert_eq!(notes(&signed("KIi")), NONE);
    assert_eq!(
        usual("rule -> sig(T)KA"),
        "refused 7 block=4 place=0",
        "a public key"
    );
    for root in ["h(*s)", "sig(*s)KAi"] {
        let printed = print(&assemble(&format!("{ATOMS}good {root}")).unwrap());
        assert!(printed.contains("# block 1: the root of the pattern is no encryption\n"));
    }
    let mut file = assemble(&format!("{ATOMS}rule -> (h(N), sig(N)KAi)")).unwrap();
    file[512 + 4 + 4 + 2] = 1;
    file[512 + 4 + 12 + 2] = 8;
    let printed = print(&file);
    assert!(printed.contains("# block 1: entry 1: not read, a hash with value 1\n"));
    assert!(printed.contains("# block 1: entry 3: not read, atom number 8 is not listed\n"));
    file[512 + 4 + 4 + 2] = 0;
    file[512 + 4 + 12 + 2] = 3;
    file[512 + 4 + 16] = 10;
    let printed = print(&file);
    assert!(printed.contains("# block 1: entry 1: hash\n"));
    assert!(printed.contains("# block 1: entry 3: signature with k3\n"));
}

/// Atom blocks that the text form has no lines for, or not all of them.
#[test]
fn notes_on_atom_blocks() {
    let printed = |atoms: usize, change: fn(&mut Vec<u8>)| {
        let mut file = assemble(&format!("{}secret x0", nonces(atoms))).unwrap();
        change(&mut file);
        file.chunks_mut(512).for_each(|b| {
            literal::seal(b).unwrap();
        });
        print(&file)
    };
    let not_full = printed(127, |file| file[1] = 125);
    assert!(not_full.contains("# block 1: atoms after a block of atoms that is not full\n"));
    assert!(not_full.contains("# block 1: entry 0: atom of kind 2, known 1, partner 0\n"));
    assert!(not_full.ends_with("\nsecret n0  # block 2\n"));
    let third = printed(127, |file| file[1024] = 1);
    assert!(third.contains("# block 2: more than 2 blocks of atoms\n"));
    assert!(third.contains("\natom n126 nonce known\n"));
    let wrong = printed(130, |file| file[512 + 8] = 7);
    assert!(wrong.contains("# block 1: entry 1, e127: 7 is no kind of atom\n"));
    let after_terms = printed(1, |file| file[0] = 2);
    assert!(after_terms.contains("# block 0: the first block holds no atoms\n"));
    let number = printed(127, |file| file[1024 + 6] = 127);
    assert!(number.contains("entry 0: not read, atom number 127 is not listed\n"));
}

/// Texts that the checker refuses come back too.
#[test]
fn round_trips_of_odd_texts() {
    let odd = [
        "",
        "rule -> ?x",
        "secret ?x\nsecret *y",
        "good N\nbad *s\nrule *s -> {?x}N",
        "rule -> A\nsecret N\nbad {?x}KA\ngood {?y}KA",
        "atom B principal known partner T",
        "atom K symmetric unknown partner A",
        "atom K private unknown partner A",
    ];
    for rest in odd {
        for text in [rest.to_string(), format!("{ATOMS}{rest}")] {
            if let Ok(bytes) = assemble(&text) {
                assert_eq!(assemble(&print(&bytes)), Ok(bytes), "{text}");
            }
        }
    }
}

#[test]
fn round_trips_of_generated_files() {
    let mut same = 0;
    for seed in 0..3_000 {
        let file = generate::file(seed);
        let printed = print(&file);
        let whole = match literal::verdict(&file) {
            Verdict::Accepted(_) => true,
            Verdict::Refused(Refusal { number, .. }) => [4, 9, 10, 11, 12, 15].contains(&number),
        };
        if whole {
            assert_eq!(assemble(&printed), Ok(file), "seed {seed}");
            assert_eq!(notes(&printed), NONE, "seed {seed}");
            same += 1;
        } else {
            assert!(
                notes(&printed) != NONE || is_partner_fault(&file),
                "seed {seed}\n{printed}"
            );
        }
        if let Ok(bytes) = assemble(&printed) {
            assert_eq!(assemble(&print(&bytes)), Ok(bytes), "seed {seed}");
        }
    }
    assert!(same > 1_500);
}

/// Number 6 by a partner that is listed: the text says it as it is.
fn is_partner_fault(file: &[u8]) -> bool {
    matches!(literal::verdict(file), Verdict::Refused(r) if r.number == 6)
}

#[test]
fn any_bytes_are_printed() {
    let mut random = generate::random::Random::new(5);
    for length in [0, 1, 511, 512, 513, 5_120, 40_000] {
        for _ in 0..20 {
            let mut bytes: Vec<u8> = (0..length).map(|_| random.byte()).collect();
            for block in bytes.chunks_mut(512) {
                block[0] = (random.below(7)) as u8;
            }
            print(&bytes);
        }
    }
}

#[test]
fn notes_in_words() {
    let mut file = assemble(&format!("{ATOMS}secret N\ngood {{*s}}KA\nrule -> {{N}}KA")).unwrap();
    file[508] ^= 1;
    file[512 + 4] = 10;
    file[1024 + 40] = 1;
    file[1536] = 77;
    file.extend([1, 2, 3]);
    let printed = print(&file);
    for words in [
        "# the last 3 bytes are no whole block",
        "# block 0: the check is ",
        "# block 1: a secret block that is not read whole: entry 0, tag 10 is none of 1 to 9",
        "# block 1: entry 0: not read, tag 10 is none of 1 to 9",
        "# block 2: unused entry 9 is not zero",
        "good {*0}k2",
        "# block 3: kind 77 is none of 1 to 5, not read",
    ] {
        assert!(printed.contains(words), "{words}\n{printed}");
    }
}

#[test]
fn numbers_of_blocks() {
    let lines = "atom M nonce known\nsecret N\nrule -> {N}KA\nrule ?x -> ?x";
    let printed = print(&assemble(&format!("{ATOMS}{lines}")).unwrap());
    assert!(printed.starts_with("# block 0: atoms 0 to 8\natom a0 principal known\n"));
    let rest = "\
atom n8 nonce known
secret n6  # block 1
rule -> {n6}k2  # block 2
rule ?0 -> ?0  # block 3
";
    assert!(printed.ends_with(rest), "{printed}");
    assert_eq!(notes(&printed), NONE);
    let two = print(&assemble(&(nonces(131) + "secret x130")).unwrap());
    assert!(two.starts_with("# block 0: atoms 0 to 125\natom n0 nonce known\n"));
    assert!(two.contains("\n# block 1: atoms 126 to 130\natom n126 nonce known\n"));
    assert!(two.ends_with("\nsecret n130  # block 2\n"));
}

#[test]
fn numbers_of_entries() {
    let lines = "\
        good {(*s, ?n!x)}KA\nrule {?x}KA -> {?x}KI\nrule -> h((T, sig(T)KIi))\n";
    let file = assemble(&format!("atom B nonce known\n{ATOMS}{lines}")).unwrap();
    let printed = print_entries(&file);
    assert!(printed.starts_with(
        "\
# block 0: atoms 0 to 8
atom n0 nonce known  # block 0, entry 0
atom a1 principal known  # block 0, entry 1
"
    ));
    let rest = "\
atom n8 nonce known  # block 0, entry 8
good {(*0, ?n!0)}k3  # block 1
#     0 {(*0, ?n!0)}k3
#     1   (*0, ?n!0)
#     2     *0
#     3     ?n!0
rule {?0}k3 -> {?0}k5  # block 2
#   premise
#     0 {?0}k3
#     1   ?0
#   conclusion
#     2 {?0}k5
#     3   ?0
rule -> h((n8, sig(n8)k6))  # block 3
#   conclusion
#     0 h((n8, sig(n8)k6))
#     1   (n8, sig(n8)k6)
#     2     n8
#     3     sig(n8)k6
#     4       n8
";
    assert!(printed.ends_with(rest), "{printed}");
    assert_eq!(notes(&printed), NONE);
    assert_eq!(assemble(&printed), Ok(file));
}

/// Atoms of a second block have their entries' numbers from 0.
#[test]
fn entries_of_a_second_block_of_atoms() {
    let printed = print_entries(&assemble(&nonces(127)).unwrap());
    let last = "# block 1: atoms 126 to 126\natom n126 nonce known  # block 1, entry 0\n";
    assert!(printed.ends_with(last), "{printed}");
}

/// The numbers of entries are as many as the counts say, and all else is as
/// without them.
#[test]
fn entries_of_generated_files() {
    let mut numbered = 0;
    for seed in 0..600 {
        let file = generate::file(seed);
        let (printed, plain) = (print_entries(&file), print(&file));
        assert_eq!(notes(&printed), notes(&plain), "seed {seed}");
        assert_eq!(
            assemble(&printed).ok(),
            assemble(&plain).ok(),
            "seed {seed}"
        );
        if notes(&printed) == NONE {
            let blocks = file.chunks(512).filter(|block| block[0] > 1);
            let counts: usize = blocks.map(|block| (block[1] + block[2]) as usize).sum();
            let words = printed.lines().filter(|line| line.starts_with("#  "));
            let entries = words.filter(|line| !["#   premise", "#   conclusion"].contains(line));
            assert_eq!(entries.count(), counts, "seed {seed}\n{printed}");
            numbered += counts;
        }
    }
    assert!(numbered > 10_000, "{numbered}");
}
