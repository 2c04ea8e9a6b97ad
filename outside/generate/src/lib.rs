//! Test files, pairs of terms and lists of calls, each from its seed alone; and
//! blocks with a known check.

pub mod calls;
pub mod certificate;
pub mod damage;
pub mod deep;
mod joined;
pub mod pairs;
pub mod random;
pub mod seals;
pub mod sketch;
pub mod spread;

pub use calls::{calls, Call, Calls};
pub use pairs::{pair, TermPair};

use random::Random;

/// Out of ten files, about three are damaged on purpose.
pub fn file(seed: u64) -> Vec<u8> {
    let mut random = Random::new(seed);
    if random.chance(27) {
        damage::damaged_file(&mut random)
    } else {
        certificate::sketch(&mut random).bytes()
    }
}

/// A certificate that is mostly well-formed: accepted, refused with 12, at times
/// with 15.
pub fn certificate(seed: u64) -> Vec<u8> {
    certificate::sketch(&mut Random::new(seed)).bytes()
}

/// A file damaged on purpose, for the numbers 1 to 11.
pub fn damaged(seed: u64) -> Vec<u8> {
    damage::damaged_file(&mut Random::new(seed))
}

/// A well-formed file with long terms and chains of repeated variables.
pub fn deep(seed: u64) -> Vec<u8> {
    deep::sketch(&mut Random::new(seed)).bytes()
}
