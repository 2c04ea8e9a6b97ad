//! The document's limits, kinds and tags, by name, and room for as much: sizes
//! of arrays and sets. A mask keeps an index inside an array.

/// Bytes of a block, of its header and of an entry.
pub const BLOCK: usize = 512;
pub const HEADER: usize = 4;
pub const ENTRY: usize = 4;
/// The bytes that the check covers.
pub const CHECKED: usize = 508;
pub const MODULUS: u32 = 65_521;

pub const MOST_BLOCKS: usize = 64;
pub const MOST_BYTES: usize = MOST_BLOCKS * BLOCK;
/// Entries of a block.
pub const ENTRIES: usize = 126;
/// Blocks of atoms; the most atoms are theirs together.
pub const ATOM_BLOCKS: usize = 2;
pub const MOST_ATOMS: usize = ATOM_BLOCKS * ENTRIES;
/// The most entries of a term.
pub const MOST_ENTRIES: usize = 63;
/// Variables of one sort.
pub const VARIABLES: usize = 8;

/// Room for the entries of a term and an end behind them, a bit for each.
pub const PLACES: usize = u64::BITS as usize;
/// Room for the terms: two a block.
pub const SLOTS: usize = 2 * MOST_BLOCKS;
/// Room for values: numbers of atoms, keys and variables.
pub const VALUE_BITS: u32 = 8;
pub const VALUES: usize = 1 << VALUE_BITS;
/// Room for tags.
pub const TAGS: usize = 16;
/// Room for the variables but those for one nonce: a rule's, then the plain and
/// the marked ones of a pattern.
pub const ORDINARY: usize = 4 * VARIABLES;
/// Room for all, a bit for each: those for one nonce follow in the same order.
pub const ALL_VARIABLES: usize = 2 * ORDINARY;

const _: () = assert!(
    MOST_BLOCKS.is_power_of_two()
        && MOST_ENTRIES < PLACES
        && MOST_ATOMS < VALUES
        && ALL_VARIABLES <= u64::BITS as usize
);

/// Kinds of blocks.
pub mod kind {
    pub const ATOMS: u8 = 1;
    pub const SECRET: u8 = 2;
    pub const GOOD: u8 = 3;
    pub const BAD: u8 = 4;
    pub const RULE: u8 = 5;
}

/// Kinds of atoms; from `PUBLIC` on they are keys.
pub mod atom_kind {
    pub const PRINCIPAL: u8 = 1;
    pub const NONCE: u8 = 2;
    pub const PUBLIC: u8 = 3;
    pub const PRIVATE: u8 = 4;
    pub const SYMMETRIC: u8 = 5;
}

/// Tags of entries.
pub mod tag {
    pub const ATOM: u16 = 1;
    pub const PAIR: u16 = 2;
    pub const ENCRYPTION: u16 = 3;
    pub const PLAIN: u16 = 4;
    pub const MARKED: u16 = 5;
    pub const PLAIN_NONCE: u16 = 6;
    pub const MARKED_NONCE: u16 = 7;
    pub const HASH: u16 = 8;
    pub const SIGNATURE: u16 = 9;
}
