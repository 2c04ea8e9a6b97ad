//! Wrong sealings and wrong checks of blocks, made of the archive's right ones.

use verdicts::proved::CHECKER;

type Sealing = fn(&mut [u8]) -> u32;
type Check = fn(&[u8]) -> u32;

const MODULUS: u32 = 65_521;

pub const SEALINGS: [(&str, Sealing); 8] = [
    ("weights from 507", |block| {
        changed(block, |_, [a, b]| [a, b + MODULUS - a])
    }),
    ("weights from 509", |block| {
        changed(block, |_, [a, b]| [a, b + a])
    }),
    ("byte 507 not in B", |block| {
        changed(block, |before, [a, b]| {
            [a, b + MODULUS - before[507] as u32]
        })
    }),
    ("the old check in A", |block| {
        changed(block, |before, [a, b]| [a + plain(&before[508..]), b])
    }),
    ("A in 16 bits", |block| {
        changed(block, |before, [a, b]| {
            [if is_large(before) { a - 15 } else { a }, b]
        })
    }),
    ("65,521 left in A", |block| left(block, 508)),
    ("65,521 left in B", |block| left(block, 510)),
    ("zeros not written", |block| {
        let before = block.to_vec();
        let answer = (CHECKER.seal)(block);
        let zeros = block.iter_mut().zip(before).filter(|(byte, _)| **byte == 0);
        zeros.for_each(|(byte, before)| *byte = before);
        answer
    }),
];

pub const CHECKS: [(&str, Check); 5] = [
    ("none", |file| {
        forgiving(file, |block, right| block.copy_from_slice(right))
    }),
    ("of A alone", |file| {
        forgiving(file, |block, right| {
            block[510..].copy_from_slice(&right[510..])
        })
    }),
    ("of B alone", |file| {
        forgiving(file, |block, right| {
            block[508..510].copy_from_slice(&right[508..510])
        })
    }),
    ("of remainders", |file| {
        forgiving(file, |block, _| {
            let reduced = sums(block).map(|sum| sum % MODULUS);
            store(block, reduced);
        })
    }),
    ("large sums refused", |file| match is_large(file) {
        true => 131_072,
        false => (CHECKER.check)(file),
    }),
];

fn plain(bytes: &[u8]) -> u32 {
    bytes.iter().map(|byte| *byte as u32).sum()
}

/// Whether the block's A needs more than 16 bits before the remainder.
fn is_large(block: &[u8]) -> bool {
    block.len() == 512 && plain(&block[..508]) > 65_535
}

/// A and B as they stand.
fn sums(block: &[u8]) -> [u32; 2] {
    [508, 510].map(|at| u16::from_le_bytes([block[at], block[at + 1]]) as u32)
}

fn store(block: &mut [u8], sums: [u32; 2]) {
    let bytes = sums.map(|sum| (sum as u16).to_le_bytes());
    block[508..].copy_from_slice(bytes.as_flattened());
}

/// Sealed, and then with other sums, by the block before and the right ones.
fn changed(block: &mut [u8], other: impl Fn(&[u8], [u32; 2]) -> [u32; 2]) -> u32 {
    let before = block.to_vec();
    let answer = (CHECKER.seal)(block);
    if answer == 4 {
        let other = other(&before, sums(block));
        store(block, other.map(|sum| sum % MODULUS));
    }
    answer
}

/// 65,521 for zero, in a block that has other bytes than zeros.
fn left(block: &mut [u8], at: usize) -> u32 {
    let answer = (CHECKER.seal)(block);
    if answer == 4 && plain(&block[..508]) > 0 && block[at..at + 2] == [0, 0] {
        block[at..at + 2].copy_from_slice(&(MODULUS as u16).to_le_bytes());
    }
    answer
}

/// The answer to the file with other check bytes, by each block and the same one
/// sealed.
fn forgiving(file: &[u8], change: impl Fn(&mut [u8], &[u8])) -> u32 {
    let mut file = file.to_vec();
    for block in file.chunks_exact_mut(512) {
        let mut right = block.to_vec();
        (CHECKER.seal)(&mut right);
        change(block, &right);
    }
    (CHECKER.check)(&file)
}
