//! The bytes of a block: check, counts and unused entries.

use crate::numbers::{kind, BLOCK, CHECKED, ENTRIES, ENTRY, HEADER, MODULUS};
use crate::numbers::{MOST_ENTRIES, PLACES};

const COLUMNS: usize = 32;
/// The columns that the check covers in the last row.
const LAST_COLUMNS: usize = CHECKED % COLUMNS;

pub type Block = [u8; BLOCK];

/// Block `i` of a file that has it.
pub fn part(file: &[u8], i: usize) -> &Block {
    file[BLOCK * i..BLOCK * i + BLOCK]
        .try_into()
        .expect("a block has 512 bytes")
}

/// A and B by columns of 32 bytes, in numbers of 16 bits. `sums` is the sum of
/// a column; `before` adds up the sums before each row, so that a byte counts
/// as often as there are rows below it.
pub fn check_is_right(block: &Block) -> bool {
    let mut sums = [0u16; COLUMNS];
    let mut before = [0u16; COLUMNS];
    for row in block.chunks_exact(COLUMNS) {
        for column in 0..COLUMNS {
            before[column] += sums[column];
            sums[column] += row[column] as u16;
        }
    }
    let (mut a, mut rows_below, mut columns) = (0, 0, 0);
    for column in 0..COLUMNS {
        a += sums[column] as u32;
        rows_below += before[column] as u32;
        columns += (column as i16 as i32 * sums[column] as i16 as i32) as u32;
    }
    // Byte i stands in column i modulo 32; its weight 508 - i is 32 for each
    // row below and 28 less the column. It wraps if the last bytes outweigh the
    // others, until these are taken off.
    let b = (COLUMNS as u32 * rows_below + LAST_COLUMNS as u32 * a).wrapping_sub(columns);
    stored_is(block, a, b)
}

/// Takes the four last bytes, of weight 0 to -3, off the sums and compares.
fn stored_is(block: &Block, a: u32, b: u32) -> bool {
    let [c, d, e, f] = [0, 1, 2, 3].map(|i| block[CHECKED + i] as u32);
    let a = (a - c - d - e - f) % MODULUS;
    let b = b.wrapping_add(d + 2 * e + 3 * f) % MODULUS;
    c | d << 8 | e << 16 | f << 24 == a | b << 16
}

/// The entries as numbers; two more, so that 64 follow each of the first 64.
pub fn entries(block: &Block) -> [u32; 2 * PLACES] {
    let mut entries = [0; 2 * PLACES];
    for (entry, bytes) in entries.iter_mut().zip(block[HEADER..].chunks_exact(ENTRY)) {
        *entry = u32::from_le_bytes([bytes[0], bytes[1], bytes[2], bytes[3]]);
    }
    entries
}

/// The two counts, if they, byte 3 and the unused entries are right.
#[inline(always)]
pub fn counts(block: &Block) -> Option<(usize, usize)> {
    let (first, second) = (block[1] as usize, block[2] as usize);
    let right = match block[0] {
        kind::ATOMS => (1..=ENTRIES).contains(&first) && second == 0,
        kind::RULE => first <= MOST_ENTRIES && (1..=MOST_ENTRIES).contains(&second),
        _ => (1..=MOST_ENTRIES).contains(&first) && second == 0,
    };
    if !right || block[3] != 0 {
        return None;
    }
    let unused = &block[HEADER + ENTRY * (first + second)..CHECKED];
    let any = unused.iter().fold(0, |any, byte| any | byte);
    (any == 0).then_some((first, second))
}
