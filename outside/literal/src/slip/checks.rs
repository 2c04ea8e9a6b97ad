//! Wrong readings of A and B.

use super::{Slip, CURRENT};
use crate::numbers::{BLOCK, CHECKED, MODULUS};

/// Bytes of a part, for sums by parts.
const PART: usize = 32;

/// A and B by a wrong reading; none if no such slip is on.
pub fn check_otherwise(block: &[u8]) -> Option<(u16, u16)> {
    let slip = CURRENT.get()?;
    let a = |bytes| sum(&block[..bytes], |_| 1);
    let b = |bytes, first: i64| sum(&block[..bytes], |i| first - i);
    let (a, b) = match slip {
        Slip::WeightsFrom507 => (a(CHECKED), b(CHECKED, 507)),
        Slip::WeightsFrom509 => (a(CHECKED), b(CHECKED, 509)),
        Slip::WeightsRising => (a(CHECKED), sum(&block[..CHECKED], |i| i + 1)),
        Slip::StoredBytesInA => (a(BLOCK), b(CHECKED, 508)),
        // Their weights go on with 0, -1, -2 and -3.
        Slip::StoredBytesInB => (a(CHECKED), b(BLOCK, 508)),
        Slip::AIn16Bits => (a(CHECKED) % 65_536, b(CHECKED, 508)),
        Slip::BIn16Bits => (a(CHECKED), b(CHECKED, 508) % 65_536),
        Slip::PartsIn16Bits => (a(CHECKED), by_parts(&block[..CHECKED])),
        Slip::ModulusLeft => return Some((left(a(CHECKED)), left(b(CHECKED, 508)))),
        Slip::SumsModulo65536 => return Some((a(CHECKED) as u16, b(CHECKED, 508) as u16)),
        _ => return None,
    };
    Some((reduced(a), reduced(b)))
}

fn sum(bytes: &[u8], weight: impl Fn(i64) -> i64) -> i64 {
    let weighted = (0..).zip(bytes).map(|(i, byte)| weight(i) * *byte as i64);
    weighted.sum()
}

fn reduced(sum: i64) -> u16 {
    sum.rem_euclid(MODULUS as i64) as u16
}

/// 65,521 itself stays.
fn left(sum: i64) -> u16 {
    match reduced(sum) {
        0 if sum > 0 => MODULUS,
        reduced => reduced,
    }
}

/// B by parts: the weights within a part in 16 bits, and for all its bytes what
/// stands behind.
fn by_parts(bytes: &[u8]) -> i64 {
    let mut behind = bytes.len();
    let mut b = 0;
    for part in bytes.chunks(PART) {
        behind -= part.len();
        let within = sum(part, |i| part.len() as i64 - i);
        b += within % 65_536 + behind as i64 * sum(part, |_| 1);
    }
    b
}

const ALL: [Slip; 10] = [
    Slip::WeightsFrom507,
    Slip::WeightsFrom509,
    Slip::WeightsRising,
    Slip::StoredBytesInA,
    Slip::StoredBytesInB,
    Slip::AIn16Bits,
    Slip::BIn16Bits,
    Slip::PartsIn16Bits,
    Slip::ModulusLeft,
    Slip::SumsModulo65536,
];

mod tests {
    use super::super::with;
    use super::*;
    use crate::block::check_of;

    #[test]
    fn blocks_with_a_known_check_tell_every_slip() {
        let (mut blocks, mut differ) = (0, ALL.map(|_| 0));
        for seal in generate::seals::all() {
            blocks += 1;
            for (count, slip) in differ.iter_mut().zip(ALL) {
                let found = with(slip, || check_of(&seal.block));
                *count += usize::from(found != (seal.a, seal.b));
            }
        }
        for (count, slip) in differ.iter().zip(ALL) {
            println!("{slip:?}: {count} of {blocks} blocks differ");
            assert!(*count > 0, "{slip:?}");
        }
    }

    /// Sums by parts are right where no part is above 16 bits.
    #[test]
    fn small_parts_are_right() {
        let block: Vec<u8> = (0..BLOCK).map(|i| (i % 120) as u8).collect();
        let by_parts = with(Slip::PartsIn16Bits, || check_of(&block));
        assert_eq!(by_parts, check_of(&block));
    }
}
