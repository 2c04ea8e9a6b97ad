//! Bytes that are no term of at most 63 entries over some atoms, with what is
//! wrong in words.

use crate::atoms::{all_keys, of_kinds};
use crate::words::entries;
use literal::numbers::atom_kind::{NONCE, PRINCIPAL, PRIVATE, PUBLIC, SYMMETRIC};
use literal::numbers::{tag, ENTRY, MOST_ATOMS};

const ATOM: [u8; ENTRY] = [tag::ATOM, 0, 0, 0];
const PAIR: [u8; ENTRY] = [tag::PAIR, 0, 0, 0];
const ENCRYPTION: [u8; ENTRY] = [tag::ENCRYPTION, 0, 2, 0];
const HASH: [u8; ENTRY] = [tag::HASH, 0, 0, 0];
const SIGNATURE: [u8; ENTRY] = [tag::SIGNATURE, 0, 2, 0];

pub struct NoTerm {
    pub what: &'static str,
    pub atoms: Vec<u8>,
    pub bytes: Vec<u8>,
}

pub fn all() -> Vec<NoTerm> {
    let over_keys = [lengths(), shapes(), single_entries(), wrong_values()].concat();
    let of = |(what, bytes)| NoTerm {
        what,
        atoms: all_keys(),
        bytes,
    };
    let by_atoms = by_atoms().into_iter().chain(by_signing_key());
    over_keys.into_iter().map(of).chain(by_atoms).collect()
}

/// Signatures with what is no private key.
fn by_signing_key() -> Vec<NoTerm> {
    let kinds = of_kinds(&[PRINCIPAL, NONCE, PUBLIC, PRIVATE, SYMMETRIC, 0, 6]);
    let signed = |what, key: u8| NoTerm {
        what,
        atoms: kinds.clone(),
        bytes: [[tag::SIGNATURE, 0, key, 0], ATOM].concat(),
    };
    vec![
        signed("a principal as a signing key", 0),
        signed("a nonce as a signing key", 1),
        signed("a public key as a signing key", 2),
        signed("a symmetric key as a signing key", 4),
        signed("an atom of kind 0 as a signing key", 5),
        signed("an atom of kind 6 as a signing key", 6),
        signed("a signing key that is not listed", 7),
    ]
}

/// What is a term over other atoms.
fn by_atoms() -> Vec<NoTerm> {
    let of = |what, atoms, bytes: &[u8]| NoTerm {
        what,
        atoms,
        bytes: bytes.to_vec(),
    };
    let one = of_kinds(&[SYMMETRIC]);
    let kinds = of_kinds(&[PRINCIPAL, NONCE, SYMMETRIC, 0, 6]);
    let under = |key: u8| [[tag::ENCRYPTION, 0, key, 0], ATOM].concat();
    vec![
        of("an atom without any", vec![], &ATOM),
        of(
            "an atom of an entry that is not whole",
            one[..3].to_vec(),
            &ATOM,
        ),
        of("the second atom of one", one.clone(), &[tag::ATOM, 0, 1, 0]),
        of("the second key of one", one, &under(1)),
        of("a principal as a key", kinds.clone(), &under(0)),
        of("a nonce as a key", kinds.clone(), &under(1)),
        of("an atom of kind 0 as a key", kinds.clone(), &under(3)),
        of("an atom of kind 6 as a key", kinds, &under(4)),
        of("253 atoms", [all_keys(), vec![5, 1, 0, 0]].concat(), &ATOM),
        of(
            "252 atoms and a byte",
            [all_keys(), vec![5]].concat(),
            &ATOM,
        ),
    ]
}

/// So many encryptions of one atom.
fn nest(depth: usize) -> Vec<u8> {
    [ENCRYPTION.repeat(depth), ATOM.to_vec()].concat()
}

/// A list of so many atoms.
fn list(count: usize) -> Vec<u8> {
    [[PAIR, ATOM].concat().repeat(count - 1), ATOM.to_vec()].concat()
}

fn lengths() -> Vec<(&'static str, Vec<u8>)> {
    vec![
        ("no entry", vec![]),
        ("one byte", vec![1]),
        ("three bytes", vec![1, 0, 0]),
        ("five bytes", [&ATOM[..], &[1]].concat()),
        ("63 entries and a byte", [list(32), vec![0]].concat()),
        ("64 entries, nested", nest(63)),
        (
            "64 entries, hashes",
            [HASH.repeat(63), ATOM.to_vec()].concat(),
        ),
        (
            "64 entries, signatures",
            [SIGNATURE.repeat(63), ATOM.to_vec()].concat(),
        ),
        (
            "64 entries, a list",
            [ENCRYPTION.to_vec(), list(32)].concat(),
        ),
        ("65 entries", list(33)),
        ("1,001 entries", list(501)),
        ("65,537 entries", list(32_769)),
    ]
}

fn shapes() -> Vec<(&'static str, Vec<u8>)> {
    let whole = entries("((?x, A), {(*x, I)}KA)").expect("a term");
    let cut = |entries: usize| whole[..4 * entries].to_vec();
    vec![
        ("a pair cut short", cut(1)),
        ("a left half cut short", cut(2)),
        ("the right half missing", cut(4)),
        ("a message missing", cut(5)),
        ("the last entry missing", cut(7)),
        ("the last byte missing", whole[..31].to_vec()),
        ("an entry too many", [&whole[..], &ATOM].concat()),
        ("two terms", whole.repeat(2)),
        ("two atoms", ATOM.repeat(2)),
        ("63 pairs", PAIR.repeat(63)),
        ("63 encryptions", ENCRYPTION.repeat(63)),
        ("63 hashes", HASH.repeat(63)),
        ("63 signatures", SIGNATURE.repeat(63)),
        ("a hash alone", HASH.to_vec()),
        ("a signature alone", SIGNATURE.to_vec()),
        ("a hash of two atoms", [HASH, ATOM, ATOM].concat()),
        (
            "a signature over two atoms",
            [SIGNATURE, ATOM, ATOM].concat(),
        ),
        ("63 atoms", ATOM.repeat(63)),
        (
            "62 entries, the last of 63 missing",
            list(32)[..248].to_vec(),
        ),
    ]
}

fn single_entries() -> Vec<(&'static str, Vec<u8>)> {
    vec![
        ("tag 0", vec![0, 0, 0, 0]),
        ("tag 10", vec![10, 0, 0, 0]),
        ("tag 10 over an atom", with_root([10, 0, 0, 0], 1)),
        ("tag 255", vec![255, 0, 0, 0]),
        ("an atom with second byte 1", vec![1, 1, 0, 0]),
        ("a plain variable with second byte 1", vec![4, 1, 0, 0]),
        ("a marked variable with second byte 128", vec![5, 128, 0, 0]),
        ("an atom too many", vec![1, 0, MOST_ATOMS as u8, 0]),
        ("atom 256", vec![1, 0, 0, 1]),
        ("plain variable 8", vec![4, 0, 8, 0]),
        ("plain variable 256", vec![4, 0, 0, 1]),
        ("marked variable 8", vec![5, 0, 8, 0]),
        ("marked variable 256", vec![5, 0, 0, 1]),
        ("plain nonce variable 8", vec![6, 0, 8, 0]),
        ("plain nonce variable 256", vec![6, 0, 0, 1]),
        ("plain nonce variable with second byte 1", vec![6, 1, 0, 0]),
        ("marked nonce variable 8", vec![7, 0, 8, 0]),
        ("marked nonce variable 256", vec![7, 0, 0, 1]),
        ("marked nonce variable with second byte 1", vec![7, 1, 0, 0]),
        ("a pair with value 1", with_root([2, 0, 1, 0], 2)),
        ("a pair with value 256", with_root([2, 0, 0, 1], 2)),
        ("a pair with second byte 1", with_root([2, 1, 0, 0], 2)),
        ("a key too many", with_root([3, 0, MOST_ATOMS as u8, 0], 1)),
        ("key 256", with_root([3, 0, 0, 1], 1)),
        (
            "an encryption with second byte 1",
            with_root([3, 1, 2, 0], 1),
        ),
        (
            "tag 10 deep inside",
            [ENCRYPTION.repeat(30), vec![10, 0, 0, 0]].concat(),
        ),
    ]
}

/// Hashes and signatures with a wrong value or second byte.
fn wrong_values() -> Vec<(&'static str, Vec<u8>)> {
    vec![
        ("a hash with value 1", with_root([8, 0, 1, 0], 1)),
        ("a hash with value 256", with_root([8, 0, 0, 1], 1)),
        ("a hash with second byte 1", with_root([8, 1, 0, 0], 1)),
        (
            "a signing key too many",
            with_root([9, 0, MOST_ATOMS as u8, 0], 1),
        ),
        ("signing key 256", with_root([9, 0, 0, 1], 1)),
        ("a signature with second byte 1", with_root([9, 1, 2, 0], 1)),
    ]
}

/// The entry over so many atoms.
fn with_root(root: [u8; 4], atoms: usize) -> Vec<u8> {
    [root.to_vec(), ATOM.repeat(atoms)].concat()
}
