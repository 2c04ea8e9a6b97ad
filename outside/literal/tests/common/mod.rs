//! Certificates over the document's eight atoms, or over two blocks of atoms.
#![allow(dead_code)]

use literal::{encode, packed, verdict, Term};

pub const I: Term = Term::Atom(1);
pub const N: Term = Term::Atom(6);
pub const T: Term = Term::Atom(7);
pub const X: Term = Term::Plain(0);
pub const Y: Term = Term::Plain(1);
pub const S: Term = Term::Marked(0);

pub fn two(left: Term, right: Term) -> Term {
    Term::pair(left, right)
}

pub fn enc(message: Term, key: u16) -> Term {
    Term::encryption(message, key)
}

pub fn hash(message: Term) -> Term {
    Term::hash(message)
}

pub fn sig(message: Term, key: u16) -> Term {
    Term::signature(message, key)
}

/// With the usual secrets, these patterns and this rule.
pub fn judged(
    goods: &[Term],
    bads: &[Term],
    premise: Option<Term>,
    conclusion: Term,
) -> (u32, u32, u32) {
    let mut parts = Parts::usual();
    parts.goods = goods.to_vec();
    parts.bads = bads.to_vec();
    parts.rules = vec![(premise, conclusion)];
    spot(&parts.bytes())
}

/// Kind, known, partner.
pub const ATOMS: [[u8; 3]; 8] = [
    [1, 1, 0],
    [1, 1, 0],
    [3, 1, 3],
    [4, 0, 2],
    [3, 1, 5],
    [4, 1, 4],
    [2, 0, 0],
    [2, 1, 0],
];

#[derive(Clone)]
pub struct Parts {
    pub atoms: Vec<[u8; 3]>,
    pub secrets: Vec<Term>,
    pub goods: Vec<Term>,
    pub bads: Vec<Term>,
    pub rules: Vec<(Option<Term>, Term)>,
}

impl Parts {
    /// Secrets N and 3, good {*s}2, no rule.
    pub fn usual() -> Parts {
        Parts {
            atoms: ATOMS.to_vec(),
            secrets: vec![N, Term::Atom(3)],
            goods: vec![enc(S, 2)],
            bads: vec![],
            rules: vec![],
        }
    }

    /// Atoms of a second block behind the document's and nonces up to the 126th:
    /// secrets 127, 128 and 129, good {*s}126 and {*s}128, no rule.
    pub fn joined() -> Parts {
        let mut atoms = ATOMS.to_vec();
        atoms.resize(125, [2, 1, 0]);
        atoms.extend(ACROSS);
        Parts {
            atoms,
            secrets: [127, 128, 129].map(Term::Atom).to_vec(),
            goods: vec![enc(S, 126), enc(S, 128)],
            bads: vec![],
            rules: vec![],
        }
    }

    pub fn blocks(&self) -> Vec<Vec<u8>> {
        let mut blocks: Vec<Vec<u8>> = self.atoms.chunks(126).map(atom_block).collect();
        for (kind, terms) in [(2, &self.secrets), (3, &self.goods), (4, &self.bads)] {
            blocks.extend(terms.iter().map(|term| block(kind, &encode(term), &[])));
        }
        for (premise, conclusion) in &self.rules {
            let premise = premise.as_ref().map(encode).unwrap_or_default();
            blocks.push(block(5, &premise, &encode(conclusion)));
        }
        blocks
    }

    pub fn bytes(&self) -> Vec<u8> {
        self.blocks().concat()
    }
}

/// The atoms from 125 on: a private key whose public one is 130; then the
/// second block, a public and a private key, a symmetric one and a nonce.
const ACROSS: [[u8; 3]; 6] = [
    [4, 0, 130],
    [3, 1, 127],
    [4, 0, 126],
    [5, 0, 128],
    [2, 0, 0],
    [3, 1, 125],
];

/// Number, block, place of the verdict; zeros if accepted.
pub fn spot(file: &[u8]) -> (u32, u32, u32) {
    let packed = packed(&verdict(file));
    (packed >> 16, packed >> 8 & 255, packed & 255)
}

pub fn atom_block(atoms: &[[u8; 3]]) -> Vec<u8> {
    let entries = atoms.iter().flat_map(|a| [a[0], a[1], a[2], 0]);
    block(1, &entries.collect::<Vec<u8>>(), &[])
}

/// A sealed block with one or two lists of entries.
pub fn block(kind: u8, first: &[u8], second: &[u8]) -> Vec<u8> {
    let mut bytes = vec![kind, (first.len() / 4) as u8, (second.len() / 4) as u8, 0];
    bytes.extend(first);
    bytes.extend(second);
    bytes.resize(512, 0);
    literal::seal(&mut bytes).unwrap();
    bytes
}
