//! Document 02, No. 1: certificates with two atom blocks, with answers by hand.

use crate::known::Known;
use literal::numbers::{BLOCK, CHECKED};
use text::document::{joined_atoms, nonces};

/// What follows the atoms.
const REST: &str = "secret L\nsecret M\ngood {*s}K\nrule {(Q, ?x)}S -> ({M}K, ?x)\n";
const ACCEPTED: &str = "accepted blocks=6 secrets=2 good=1 bad=0 rules=1";

/// Block, byte and its new value. A change below byte 508 is sealed again; one
/// of the check is left wrong.
pub(crate) type Change = (usize, usize, u8);

/// Name, changes, line, answer of the C call.
type Row = (&'static str, &'static [Change], &'static str, u32);

const ROWS: [Row; 14] = [
    ("as it is", &[], ACCEPTED, 0),
    (
        "125 atoms before the second block",
        &[(0, 1, 125), (0, 504, 0), (0, 506, 0)],
        "refused 5 block=1 place=0",
        327_936,
    ),
    (
        "a wrong check after a wrong entry",
        &[(0, 4, 9), (1, 508, 0)],
        "refused 2 block=1 place=0",
        131_328,
    ),
    (
        "a wrong layout after a wrong entry",
        &[(0, 4, 9), (1, 3, 1)],
        "refused 5 block=1 place=0",
        327_936,
    ),
    (
        "wrong entries in both blocks",
        &[(0, 504, 9), (1, 20, 9)],
        "refused 6 block=0 place=125",
        393_341,
    ),
    (
        "a wrong entry before a wrong check",
        &[(1, 20, 9), (2, 508, 0)],
        "refused 6 block=1 place=4",
        393_476,
    ),
    (
        "a wrong entry before a third atom block",
        &[(1, 20, 9), (2, 0, 1)],
        "refused 6 block=1 place=4",
        393_476,
    ),
    (
        "a third atom block",
        &[(2, 0, 1)],
        "refused 3 block=2 place=0",
        197_120,
    ),
    (
        "a partner numbered within its block",
        &[(1, 10, 2)],
        "refused 6 block=1 place=1",
        393_473,
    ),
    (
        "a symmetric key that names its place",
        &[(1, 18, 3)],
        "refused 6 block=1 place=3",
        393_475,
    ),
    (
        "a partner that is not named back across the blocks",
        &[(0, 506, 127)],
        "refused 6 block=0 place=125",
        393_341,
    ),
    (
        "the number after the last atom's",
        &[(2, 6, 131)],
        "refused 7 block=2 place=0",
        459_264,
    ),
    (
        "no atoms in the first block",
        &[(0, 0, 2)],
        "refused 3 block=0 place=0",
        196_608,
    ),
    (
        "a second block of another kind",
        &[(1, 0, 2)],
        "refused 6 block=0 place=125",
        393_341,
    ),
];

pub fn all() -> Result<Vec<Known>, String> {
    let file = assembled(&[&joined_atoms(), REST].concat())?;
    let mut known: Vec<Known> = ROWS
        .iter()
        .map(|(name, changes, line, packed)| case(name, changed(&file, changes), line, *packed))
        .collect();
    let alone = file[..2 * BLOCK].to_vec();
    known.push(case("alone", alone, "refused 4 block=2 place=0", 262_656));
    known.extend(last_numbers()?);
    Ok(known)
}

fn case(name: &str, file: Vec<u8>, line: &str, packed: u32) -> Known {
    Known {
        name: format!("two atom blocks, {name}"),
        file,
        line: line.to_string(),
        packed,
    }
}

fn assembled(text: &str) -> Result<Vec<u8>, String> {
    text::assemble(text).map_err(|error| error.to_string())
}

pub(crate) fn changed(file: &[u8], changes: &[Change]) -> Vec<u8> {
    let mut file = file.to_vec();
    for (number, byte, value) in changes {
        let block = &mut file[BLOCK * number..][..BLOCK];
        block[*byte] = *value;
        if *byte < CHECKED {
            literal::seal(block).expect("a block has 512 bytes");
        }
    }
    file
}

/// 252 atoms: a rule that sends the last one under itself, and one beyond it.
fn last_numbers() -> Result<[Known; 2], String> {
    let last = "atom K symmetric unknown\nsecret K\ngood {*s}K\nrule -> {K}K";
    let file = assembled(&format!("{}{last}", nonces(251)))?;
    let beyond = changed(&file, &[(4, 10, 252)]);
    let line = "accepted blocks=5 secrets=1 good=1 bad=0 rules=1";
    Ok([
        case("atom 251", file, line, 0),
        case("atom 252", beyond, "refused 7 block=4 place=1", 459_777),
    ])
}
