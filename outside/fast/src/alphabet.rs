//! Which entries may stand where, by tag and value: one table for a file.

use crate::block::Block;
use crate::numbers::{atom_kind, tag, ATOM_BLOCKS, ENTRIES, ENTRY, HEADER};
use crate::numbers::{MOST_ATOMS, TAGS, VALUES, VALUE_BITS, VARIABLES};

/// Tag x 256 + value, but for some. Variables of patterns have 256 added, so that
/// they are never equal to those of rules; variables for one nonce have 512
/// added, so that they follow all others; signatures and hashes follow the pair,
/// so that all with something below stand between the atoms and the variables.
pub type Symbol = u16;
pub const PAIR: Symbol = tag::PAIR << VALUE_BITS;
const FIRST_SIGNATURE: Symbol = PAIR + 1;
pub const HASH: Symbol = FIRST_SIGNATURE + MOST_ATOMS as Symbol;
pub const FIRST_VARIABLE: Symbol = tag::PLAIN << VALUE_BITS;
pub const PATTERN_VARIABLE: Symbol = VALUES as Symbol;
pub const FIRST_PATTERN_MARK: Symbol = (tag::MARKED << VALUE_BITS) + PATTERN_VARIABLE;
pub const NONCE_VARIABLE: Symbol = 2 * VALUES as Symbol;
/// From a variable to the one for a nonce that is of the same sort otherwise.
pub const TO_NONCE: Symbol = ((tag::PLAIN_NONCE - tag::PLAIN) << VALUE_BITS) + NONCE_VARIABLE;
const SYMBOLS: usize = TAGS * VALUES;
const _: () = assert!(HASH < tag::ENCRYPTION << VALUE_BITS);

// Marks of a symbol, by bits: where it is allowed, and what it is.
pub const IN_SECRET: u32 = 0;
pub const IN_PATTERN: u32 = 1;
pub const IN_RULE: u32 = 2;
/// Its symbol is not tag x 256 + value: a variable for one nonce, a hash or a
/// signature.
pub const MOVED: u32 = 3;
pub const IS_PAIR: u32 = 4;
pub const VARIABLE: u32 = 5;
pub const ENCRYPTION: u32 = 6;
pub const SECRET_ATOM: u32 = 7;
const EVERYWHERE: u8 = 1 << IN_SECRET | 1 << IN_PATTERN | 1 << IN_RULE;

/// Bits of an entry that are set in no right one.
pub const NEVER: u32 = !((VALUES as u32 - 1) << 16 | (TAGS as u32 - 1));

#[derive(Clone, Copy, PartialEq)]
struct Atom {
    kind: u8,
    known: u8,
    partner: u16,
}

/// The atom blocks of a file, with their counts; a second one that is not there
/// has none.
pub struct AtomBlocks<'a> {
    pub blocks: [&'a Block; ATOM_BLOCKS],
    pub counts: [usize; ATOM_BLOCKS],
}

pub struct Alphabet {
    marks: [u8; SYMBOLS],
    partners: [u8; VALUES],
    known: [u128; ATOM_BLOCKS],
    nonces: [u128; ATOM_BLOCKS],
}

impl Alphabet {
    pub const EMPTY: Alphabet = Alphabet {
        marks: marks_without_atoms(),
        partners: [0; VALUES],
        known: [0; ATOM_BLOCKS],
        nonces: [0; ATOM_BLOCKS],
    };

    /// Adds the atoms of one of the blocks, or answers its first wrong entry.
    pub fn add_atoms(&mut self, all: &AtomBlocks, block: usize) -> Result<(), usize> {
        let (mut known, mut nonces) = (0, 0);
        for i in 0..all.counts[block] {
            let (atom, number) = (atom(all.blocks[block], i), ENTRIES * block + i);
            if !atom.is_right(all, number) {
                return Err(i);
            }
            self.marks[index(tag::ATOM, number)] = EVERYWHERE;
            if atom.kind >= atom_kind::PUBLIC {
                self.marks[index(tag::ENCRYPTION, number)] = EVERYWHERE | 1 << ENCRYPTION;
            }
            if atom.kind == atom_kind::PRIVATE {
                self.marks[index(tag::SIGNATURE, number)] = EVERYWHERE | 1 << MOVED;
            }
            self.partners[number] = atom.partner as u8;
            known |= (atom.known as u128) << i;
            nonces |= ((atom.kind == atom_kind::NONCE) as u128) << i;
        }
        self.known[block] = known;
        self.nonces[block] = nonces;
        Ok(())
    }

    /// The marks of a symbol.
    #[inline(always)]
    pub fn marks(&self, symbol: Symbol) -> u8 {
        self.marks[symbol as usize & (SYMBOLS - 1)]
    }

    /// The entry is right at this place.
    pub fn allows(&self, entry: u32, place: u32) -> bool {
        entry & NEVER == 0 && self.marks(symbol_of(entry)) >> place & 1 == 1
    }

    pub fn add_secret_atom(&mut self, number: usize) {
        self.marks[index(tag::ATOM, number)] |= 1 << SECRET_ATOM;
    }

    pub fn is_known(&self, number: usize) -> bool {
        self.known[number / ENTRIES] >> (number % ENTRIES) & 1 == 1
    }

    pub fn is_nonce(&self, number: usize) -> bool {
        self.nonces[number / ENTRIES] >> (number % ENTRIES) & 1 == 1
    }

    pub fn is_secret(&self, number: usize) -> bool {
        self.marks[index(tag::ATOM, number)] >> SECRET_ATOM & 1 == 1
    }

    pub fn inverse(&self, key: usize) -> usize {
        self.partners[key] as usize
    }
}

/// The symbol of an entry that is right somewhere.
#[inline(always)]
pub fn symbol_of(entry: u32) -> Symbol {
    let (tag, value) = (entry & (TAGS as u32 - 1), entry >> 16 & (VALUES as u32 - 1));
    (tag << VALUE_BITS | value) as Symbol
}

/// The symbol of an entry that is moved, by what it would be otherwise.
pub fn moved(symbol: Symbol) -> Symbol {
    const SIGNATURE: Symbol = tag::SIGNATURE << VALUE_BITS;
    match symbol >> VALUE_BITS {
        tag::HASH => HASH,
        tag::SIGNATURE => symbol - SIGNATURE + FIRST_SIGNATURE,
        _ => symbol + NONCE_VARIABLE,
    }
}

/// The number of an atom, of an encryption's key or of a variable.
#[inline(always)]
pub fn value_of(symbol: Symbol) -> usize {
    symbol as usize & (VALUES - 1)
}

/// The number of the key of an encryption or a signature.
pub fn key_of(symbol: Symbol) -> usize {
    match symbol >> VALUE_BITS {
        tag::ENCRYPTION => value_of(symbol),
        _ => (symbol - FIRST_SIGNATURE) as usize,
    }
}

/// The symbol of a tag and a value.
const fn index(tag: u16, value: usize) -> usize {
    (tag as usize) << VALUE_BITS | value
}

const fn marks_without_atoms() -> [u8; SYMBOLS] {
    let mut marks = [0; SYMBOLS];
    marks[PAIR as usize] = EVERYWHERE | 1 << IS_PAIR;
    marks[index(tag::HASH, 0)] = EVERYWHERE | 1 << MOVED;
    let mut i = 0;
    while i < VARIABLES {
        let marked = 1 << IN_PATTERN | 1 << VARIABLE;
        let plain = marked | 1 << IN_RULE;
        marks[index(tag::PLAIN, i)] = plain;
        marks[index(tag::MARKED, i)] = marked;
        marks[index(tag::PLAIN_NONCE, i)] = plain | 1 << MOVED;
        marks[index(tag::MARKED_NONCE, i)] = marked | 1 << MOVED;
        i += 1;
    }
    marks
}

fn atom(block: &Block, i: usize) -> Atom {
    let at = HEADER + ENTRY * i;
    Atom {
        kind: block[at],
        known: block[at + 1],
        partner: u16::from_le_bytes([block[at + 2], block[at + 3]]),
    }
}

impl Atom {
    fn is_right(&self, all: &AtomBlocks, number: usize) -> bool {
        let named = match self.kind {
            atom_kind::PRINCIPAL | atom_kind::NONCE => self.partner == 0,
            atom_kind::SYMMETRIC => self.partner as usize == number,
            atom_kind::PUBLIC | atom_kind::PRIVATE => all
                .atom(self.partner as usize)
                .is_some_and(|other| self.is_named_back(&other, number)),
            _ => false,
        };
        named && self.known <= 1
    }

    /// The other one is of the other kind and names this one.
    fn is_named_back(&self, other: &Atom, number: usize) -> bool {
        const BOTH: u8 = atom_kind::PUBLIC + atom_kind::PRIVATE;
        other.kind == BOTH - self.kind && other.partner as usize == number
    }
}

impl AtomBlocks<'_> {
    /// The atom of this number, if there is one.
    fn atom(&self, number: usize) -> Option<Atom> {
        let (block, i) = (number / ENTRIES, number % ENTRIES);
        let listed = block < ATOM_BLOCKS && i < self.counts[block];
        listed.then(|| atom(self.blocks[block], i))
    }
}
