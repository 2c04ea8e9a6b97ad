//! Blocks with the check that document 01 gives them: A, the sum of bytes 0 to
//! 507, and B, the sum of (508 - i) x byte i, both modulo 65,521. The sums are
//! written down or in closed form; no implementation is asked.

use std::iter::once;
use std::ops::Range;

const BLOCK: usize = 512;
const CHECKED: usize = 508;
const MODULUS: u32 = 65_521;

/// A block before it is sealed, and its check.
pub struct Seal {
    pub name: String,
    pub block: [u8; BLOCK],
    pub a: u16,
    pub b: u16,
}

/// Bytes 508 to 511.
pub type Stored = [u8; BLOCK - CHECKED];

impl Seal {
    /// With the plain sums, before the remainder.
    fn by_sums(name: String, block: [u8; BLOCK], a: usize, b: usize) -> Seal {
        let remainder = |sum: usize| (sum % MODULUS as usize) as u16;
        Seal {
            name,
            block,
            a: remainder(a),
            b: remainder(b),
        }
    }

    /// The low byte of each first.
    pub fn check(&self) -> Stored {
        stored(self.a, self.b)
    }

    /// With these last four bytes.
    fn with(&self, stored: Stored) -> [u8; BLOCK] {
        let mut block = self.block;
        block[CHECKED..].copy_from_slice(&stored);
        block
    }

    pub fn sealed(&self) -> [u8; BLOCK] {
        self.with(self.check())
    }

    /// The block to be sealed: as it is, and with no check byte as it should be.
    pub fn unsealed(&self) -> [[u8; BLOCK]; 2] {
        [self.block, self.with(self.check().map(|byte| !byte))]
    }

    /// One byte raised by 1; A or B with the modulus on top, if there is room.
    fn wrong_checks(&self) -> impl Iterator<Item = Stored> {
        let right = self.check();
        let raised = (0..right.len()).map(move |i| {
            let mut wrong = right;
            wrong[i] = wrong[i].wrapping_add(1);
            wrong
        });
        let (a, b) = (self.a, self.b);
        let on_top = |sum: u16| sum.checked_add(MODULUS as u16);
        let more_a = on_top(a).map(|more| stored(more, b));
        let more_b = on_top(b).map(|more| stored(a, more));
        raised.chain(more_a).chain(more_b)
    }

    /// Last bytes about which a check of files is mistaken. It must answer with
    /// number 2 at this block, behind the blocks in front, if and only if these
    /// bytes are not the block's check.
    pub fn mistaken(&self, front: &[u8], check: impl Fn(&[u8]) -> u32) -> Option<Stored> {
        let two = 2 * 65_536 + (front.len() / BLOCK) as u32 * 256;
        let mut file = [front, &self.block].concat();
        let last = file.len() - (BLOCK - CHECKED);
        let right = self.check();
        once(right).chain(self.wrong_checks()).find(|stored| {
            file[last..].copy_from_slice(stored);
            (check(&file) == two) != (*stored != right)
        })
    }
}

fn stored(a: u16, b: u16) -> Stored {
    let ([a, more_a], [b, more_b]) = (a.to_le_bytes(), b.to_le_bytes());
    [a, more_a, b, more_b]
}

/// 259,868 blocks.
pub fn all() -> impl Iterator<Item = Seal> {
    let alone = counted_alone().chain(stored_alone());
    alone.chain(runs()).chain(by_hand())
}

fn of_ranges(ranges: &[(Range<usize>, u8)]) -> [u8; BLOCK] {
    let mut block = [0; BLOCK];
    for (range, value) in ranges {
        block[range.clone()].fill(*value);
    }
    block
}

/// Zeros but for one of these bytes: each with each value, and its sums by
/// place and value.
fn alone(
    places: Range<usize>,
    sums: fn(usize, usize) -> (usize, usize),
) -> impl Iterator<Item = Seal> {
    let each = |i| (1..=255).map(move |value| (i, value));
    places.flat_map(each).map(move |(i, value)| {
        let name = format!("byte {i} alone, {value}");
        let (a, b) = sums(i, value as usize);
        Seal::by_sums(name, of_ranges(&[(i..i + 1, value)]), a, b)
    })
}

/// This fixes every weight.
fn counted_alone() -> impl Iterator<Item = Seal> {
    alone(0..CHECKED, |i, value| (value, (508 - i) * value))
}

/// Bytes 508 to 511 count in neither sum.
fn stored_alone() -> impl Iterator<Item = Seal> {
    alone(CHECKED..BLOCK, |_, _| (0, 0))
}

/// Every run of the bytes that count is 255 and the rest is zero; the first bytes,
/// the last ones, all and none among them.
fn runs() -> impl Iterator<Item = Seal> {
    let from = |from| (from + 1..=CHECKED).map(move |to| from..to);
    once(0..0).chain((0..CHECKED).flat_map(from)).map(run)
}

/// The weights from byte i on are 508 - i down to 1.
fn run(range: Range<usize>) -> Seal {
    let from = |i: usize| triangular(508 - i);
    let weights = from(range.start) - from(range.end);
    let name = format!("bytes {range:?} of 255");
    let block = of_ranges(&[(range.clone(), 255)]);
    Seal::by_sums(name, block, 255 * range.len(), 255 * weights)
}

fn triangular(n: usize) -> usize {
    n * (n + 1) / 2
}

/// Which bytes are not zero; A; B.
type Row = (&'static [(Range<usize>, u8)], u16, u16);

const ROWS: [Row; 21] = [
    // All 512 bytes. A: 508 x 255 = 129,540 = 65,521 + 64,019. B: 255 x 508 x 509 / 2
    // = 32,967,930 = 503 x 65,521 + 10,867.
    (&[(0..512, 255)], 64_019, 10_867),
    // A: 65,520, 65,521, 65,522. B: 255 x (508 + .. + 253) + 240 x 252 = 24,899,520
    // = 380 x 65,521 + 1,540, then 252 more.
    (&[(0..256, 255), (256..257, 240)], 65_520, 1_540),
    (&[(0..256, 255), (256..257, 241)], 0, 1_792),
    (&[(0..256, 255), (256..257, 242)], 1, 2_044),
    // The same at the end. B: 255 x (256 + .. + 1) + 240 x 257 = 8,450,160
    // = 128 x 65,521 + 63,472, then 257 more.
    (&[(252..508, 255), (251..252, 240)], 65_520, 63_472),
    (&[(252..508, 255), (251..252, 241)], 0, 63_729),
    (&[(252..508, 255), (251..252, 242)], 1, 63_986),
    // A: 65,536, 65,537. B: 255 x (508 + .. + 252) + 251 = 24,903,551
    // = 380 x 65,521 + 5,571, then 251 more.
    (&[(0..257, 255), (257..258, 1)], 15, 5_571),
    (&[(0..257, 255), (257..258, 2)], 16, 5_822),
    // B: 128 x 508 + 496, 497, 498 = 65,520, 65,521, 65,522.
    (&[(0..1, 128), (12..13, 1)], 129, 65_520),
    (&[(0..1, 128), (11..12, 1)], 129, 0),
    (&[(0..1, 128), (10..11, 1)], 129, 1),
    // B: 129 x 508 + 3, 4, 5 = 65,535, 65,536, 65,537.
    (&[(0..1, 129), (505..506, 1)], 130, 14),
    (&[(0..1, 129), (504..505, 1)], 130, 15),
    (&[(0..1, 129), (503..504, 1)], 130, 16),
    // B: 255 x 508 + 3 x 500 + 1, 2, 3; with 2 it is 131,042 = 2 x 65,521.
    (&[(0..1, 255), (8..9, 3), (507..508, 1)], 259, 65_520),
    (&[(0..1, 255), (8..9, 3), (506..507, 1)], 259, 0),
    (&[(0..1, 255), (8..9, 3), (505..506, 1)], 259, 1),
    // B: 32,967,930 - 255 x 42 - 158, 157, 156; with 157 it is 503 x 65,521.
    (
        &[(0..508, 255), (466..467, 0), (507..508, 97)],
        63_606,
        65_520,
    ),
    (&[(0..508, 255), (466..467, 0), (507..508, 98)], 63_607, 0),
    (&[(0..508, 255), (466..467, 0), (507..508, 99)], 63_608, 1),
];

/// The largest sums, and sums around multiples of 65,521 and around 65,536.
pub fn by_hand() -> impl Iterator<Item = Seal> {
    ROWS.iter().map(|(ranges, a, b)| Seal {
        name: format!("bytes {ranges:?}"),
        block: of_ranges(ranges),
        a: *a,
        b: *b,
    })
}
