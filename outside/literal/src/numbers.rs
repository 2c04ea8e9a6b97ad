//! The document's limits, kinds and tags, by name.

/// Bytes of a block, of its header and of an entry.
pub const BLOCK: usize = 512;
pub const HEADER: usize = 4;
pub const ENTRY: usize = 4;
/// Entries of a block.
pub const ENTRIES: usize = 126;
/// The bytes that the check covers; A stands after them, and then B.
pub const CHECKED: usize = HEADER + ENTRY * ENTRIES;
/// A and B are sums modulo this.
pub const MODULUS: u16 = 65_521;

pub const MOST_BLOCKS: usize = 64;
pub const MOST_BYTES: usize = BLOCK * MOST_BLOCKS;
/// Blocks of atoms: one, or a full one and a second.
pub const MOST_ATOM_BLOCKS: usize = 2;
/// Atoms of both blocks, numbered on from one to the next.
pub const MOST_ATOMS: usize = MOST_ATOM_BLOCKS * ENTRIES;
/// The most entries of a term.
pub const MOST_ENTRIES: usize = 63;
/// Foreign atoms are numbered from this on. They are in no file, and all are
/// nonces.
pub const FIRST_FOREIGN: u16 = 1_000;
/// Variables of each sort are numbered from 0 up to but not including this.
pub const VARIABLES: u8 = 8;
/// Loaders are numbered from 0 up to but not including this.
pub const LOADERS: usize = 8;

/// Kinds of blocks.
pub mod kind {
    pub const ATOMS: u8 = 1;
    pub const SECRET: u8 = 2;
    pub const GOOD: u8 = 3;
    pub const BAD: u8 = 4;
    pub const RULE: u8 = 5;
}

/// Kinds of atoms.
pub mod atom_kind {
    pub const PRINCIPAL: u8 = 1;
    pub const NONCE: u8 = 2;
    pub const PUBLIC: u8 = 3;
    pub const PRIVATE: u8 = 4;
    pub const SYMMETRIC: u8 = 5;
}

/// Tags of entries.
pub mod tag {
    pub const ATOM: u8 = 1;
    pub const PAIR: u8 = 2;
    pub const ENCRYPTION: u8 = 3;
    pub const PLAIN: u8 = 4;
    pub const MARKED: u8 = 5;
    pub const PLAIN_NONCE: u8 = 6;
    pub const MARKED_NONCE: u8 = 7;
    pub const HASH: u8 = 8;
    pub const SIGNATURE: u8 = 9;
}
