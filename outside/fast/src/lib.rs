//! The whole check, written for speed from the scope document. No heap: all
//! arrays have a fixed size and live on the stack.
//!
//! `block` bytes and check, `alphabet` which entries are allowed, `term` terms
//! by entries, `family` patterns in an order in which one clash answers for
//! many, `walk` two terms side by side, `quick` and `unify` repeated variables,
//! `read` numbers 2 to 8, `rule` numbers 15 and 12 of one rule, `judge` the order
//! of the rest, `numbers` limits, kinds and tags.
#![forbid(unsafe_code)]

mod alphabet;
mod block;
mod family;
mod judge;
mod numbers;
mod quick;
mod read;
mod rule;
mod term;
mod unify;
mod walk;

use numbers::{BLOCK, MOST_BYTES};

/// A refusal, packed.
pub(crate) fn fault(number: u32, block: usize, place: usize) -> u32 {
    number * 65_536 + block as u32 * 256 + place as u32
}

/// number x 65,536 + block x 256 + place; 0 if accepted.
pub fn check(file: &[u8]) -> u32 {
    let length = file.len();
    if length == 0 || !length.is_multiple_of(BLOCK) || length > MOST_BYTES {
        return fault(1, 0, 0);
    }
    // Before anything is set up: most broken files end here.
    if !block::check_is_right(block::part(file, 0)) {
        return fault(2, 0, 0);
    }
    judge::judged(file).err().unwrap_or(0)
}
