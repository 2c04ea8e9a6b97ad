//! What the checks of generated blocks are like: how many are wrong, and how
//! large the sums of the others become before the remainder.

use literal::block::{check_of, stored_check};
use literal::numbers::{BLOCK, CHECKED, MODULUS};

const FILES: u64 = 100_000;

/// Blocks and files that show what is asked.
#[derive(Default, Debug)]
struct Uses {
    blocks: usize,
    wrong_blocks: usize,
    files_with_wrong: usize,
    /// The check is right, and A, or B, is 65,521 or more before the remainder.
    large_a_blocks: usize,
    files_with_large_a: usize,
    large_b_blocks: usize,
}

fn is_right(block: &&[u8]) -> bool {
    stored_check(block) == check_of(block)
}

fn is_large(block: &[u8], weight: impl Fn(usize) -> usize) -> bool {
    let bytes = block[..CHECKED].iter().enumerate();
    let sum: usize = bytes.map(|(i, byte)| weight(i) * *byte as usize).sum();
    sum >= MODULUS as usize
}

impl Uses {
    fn add(&mut self, file: &[u8]) {
        let (right, wrong): (Vec<&[u8]>, Vec<&[u8]>) = file.chunks_exact(BLOCK).partition(is_right);
        let large =
            |weight: fn(usize) -> usize| right.iter().filter(|b| is_large(b, weight)).count();
        let (large_a, large_b) = (large(|_| 1), large(|i| 508 - i));
        self.blocks += right.len() + wrong.len();
        self.wrong_blocks += wrong.len();
        self.files_with_wrong += usize::from(!wrong.is_empty());
        self.large_a_blocks += large_a;
        self.files_with_large_a += usize::from(large_a > 0);
        self.large_b_blocks += large_b;
    }
}

#[test]
fn checks_of_generated_blocks() {
    let mut uses = Uses::default();
    (0..FILES).for_each(|seed| uses.add(&generate::file(seed)));
    println!("{FILES} files: {uses:?}");
    assert!(uses.files_with_wrong > 2_000);
    assert!(uses.files_with_large_a > 50);
    assert!(uses.large_b_blocks * 10 > uses.blocks);
}
