//! Atoms: the entries of the atom list, and which numbers are nonces.

use crate::numbers::{atom_kind, FIRST_FOREIGN};

/// An atom entry: kind, known, partner.
#[derive(Clone, Copy, Debug, PartialEq, Eq)]
pub struct Atom {
    pub kind: u8,
    pub known: u8,
    pub partner: u16,
}

impl Atom {
    pub fn is_key(&self) -> bool {
        matches!(
            self.kind,
            atom_kind::PUBLIC | atom_kind::PRIVATE | atom_kind::SYMMETRIC
        )
    }

    /// What signatures are made with.
    pub fn is_private_key(&self) -> bool {
        self.kind == atom_kind::PRIVATE
    }

    pub fn is_nonce(&self) -> bool {
        self.kind == atom_kind::NONCE
    }
}

/// Whether the atom of this number is a nonce: a listed one, or a foreign atom.
pub fn is_nonce(atoms: &[Atom], number: u16) -> bool {
    number >= FIRST_FOREIGN || atoms.get(number as usize).is_some_and(Atom::is_nonce)
}
