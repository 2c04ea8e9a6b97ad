//! Blocks of 512 bytes: header, 126 entries, check.

use crate::numbers::{BLOCK, CHECKED, ENTRY, HEADER, MODULUS};
#[cfg(test)]
use crate::slip;

/// Where A and B stand.
const A: usize = CHECKED;
const B: usize = CHECKED + 2;

/// A, the sum of bytes 0 to 507, and B, the sum of (508 - i) x byte i.
pub fn check_of(block: &[u8]) -> (u16, u16) {
    #[cfg(test)]
    if let Some(other) = slip::checks::check_otherwise(block) {
        return other;
    }
    let mut a: u64 = 0;
    let mut b: u64 = 0;
    for i in 0..CHECKED {
        a += block[i] as u64;
        b += (CHECKED - i) as u64 * block[i] as u64;
    }
    let reduced = |sum: u64| (sum % MODULUS as u64) as u16;
    (reduced(a), reduced(b))
}

/// The check as it stands in bytes 508 to 511.
pub fn stored_check(block: &[u8]) -> (u16, u16) {
    (two_bytes(block, A), two_bytes(block, B))
}

/// Writes the four check bytes and answers 4; other than 512 bytes: 13.
pub fn seal(block: &mut [u8]) -> Result<usize, u32> {
    if block.len() != BLOCK {
        return Err(13);
    }
    let (a, b) = check_of(block);
    block[A..B].copy_from_slice(&a.to_le_bytes());
    block[B..BLOCK].copy_from_slice(&b.to_le_bytes());
    Ok(BLOCK - CHECKED)
}

/// A sealed block of this kind with one or two lists of entries, as bytes.
pub fn sealed(kind: u8, first: &[u8], second: &[u8]) -> Vec<u8> {
    let count = |entries: &[u8]| (entries.len() / ENTRY) as u8;
    let header = [kind, count(first), count(second), 0];
    let mut block = [&header, first, second].concat();
    block.resize(BLOCK, 0);
    seal(&mut block).expect("a block has 512 bytes");
    block
}

/// An entry as its bytes stand: in a term the tag, the zero byte and the
/// value; in the atom list the kind, the known byte and the partner.
#[derive(Clone, Copy, Debug, PartialEq, Eq)]
pub struct Entry {
    pub first: u8,
    pub second: u8,
    pub value: u16,
}

pub fn kind(block: &[u8]) -> u8 {
    block[0]
}

pub fn first_count(block: &[u8]) -> usize {
    block[1] as usize
}

pub fn second_count(block: &[u8]) -> usize {
    block[2] as usize
}

impl Entry {
    pub fn of(bytes: &[u8]) -> Entry {
        Entry {
            first: bytes[0],
            second: bytes[1],
            value: two_bytes(bytes, 2),
        }
    }
}

/// Where entry number i stands, from 0; for the number of entries used, where
/// the unused ones begin.
pub fn entry_at(i: usize) -> usize {
    HEADER + ENTRY * i
}

/// Entry number i of the block, from 0.
pub fn entry(block: &[u8], i: usize) -> Entry {
    Entry::of(&block[entry_at(i)..])
}

/// The entries from `from` up to but not including `to`.
pub fn entries(block: &[u8], from: usize, to: usize) -> Vec<Entry> {
    (from..to).map(|i| entry(block, i)).collect()
}

/// A two-byte number, little-endian.
fn two_bytes(bytes: &[u8], at: usize) -> u16 {
    u16::from_le_bytes([bytes[at], bytes[at + 1]])
}
