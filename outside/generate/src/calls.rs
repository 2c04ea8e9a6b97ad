//! Calls of the check that takes a tally: the first tally, and which loader hands
//! in which file.

use crate::random::Random;
use literal::numbers::{BLOCK, LOADERS, MOST_BYTES};
use literal::Verdict;

/// The most calls of a list, and the most files that they hand in.
const MOST_CALLS: usize = 24;
const MOST_FILES: usize = 5;
/// How many certificates are tried for an accepted one.
const FEW: usize = 8;

/// Out of a hundred calls, so many have one of the loaders' numbers.
const RIGHT_NUMBERS: usize = 75;

/// Numbers above those of the loaders. Some are a loader's in fewer bits, some
/// are negative as signed numbers.
const ABOVE: [u32; 14] = [
    8,
    8,
    9,
    15,
    16,
    255,
    256,
    263,
    264,
    65_536,
    65_543,
    1 << 31,
    u32::MAX - 7,
    u32::MAX,
];

/// A loader's number, and which of the list's files it hands in.
#[derive(Clone, Copy, Debug)]
pub struct Call {
    pub loader: u32,
    pub file: usize,
}

/// Checks that follow on each other.
#[derive(Clone, Debug)]
pub struct Calls {
    /// Accepted and refused of each loader, before the first call.
    pub first: [[u32; 2]; LOADERS],
    pub files: Vec<Vec<u8>>,
    pub calls: Vec<Call>,
}

impl Calls {
    pub fn file(&self, call: &Call) -> &[u8] {
        &self.files[call.file]
    }
}

/// One to 24 calls, of few files, and many by the same one to three loaders.
pub fn calls(seed: u64) -> Calls {
    let random = &mut Random::new(seed);
    let first = tally(random);
    let files: Vec<_> = times(random.between(1, MOST_FILES), || file(random));
    let usual: Vec<_> = times(random.between(1, 3), || loader(random));
    let calls = times(random.between(1, MOST_CALLS), || Call {
        loader: match random.chance(50) {
            true => *random.pick(&usual),
            false => loader(random),
        },
        file: random.below(files.len()),
    });
    Calls {
        first,
        files,
        calls,
    }
}

fn times<T>(count: usize, mut one: impl FnMut() -> T) -> Vec<T> {
    (0..count).map(|_| one()).collect()
}

pub fn tally(random: &mut Random) -> [[u32; 2]; LOADERS] {
    std::array::from_fn(|_| [count(random), count(random)])
}

/// Often none, full, or nearly so.
fn count(random: &mut Random) -> u32 {
    match random.below(6) {
        0 => 0,
        1 | 2 => u32::MAX,
        3 => u32::MAX - 1,
        _ => random.number() as u32,
    }
}

/// Mostly one of the loaders' numbers.
pub fn loader(random: &mut Random) -> u32 {
    match random.chance(RIGHT_NUMBERS) {
        true => random.below(LOADERS) as u32,
        false => above(random),
    }
}

/// A number above them: near them, like one of them in fewer bits, or any.
pub fn above(random: &mut Random) -> u32 {
    match random.chance(90) {
        true => *random.pick(&ABOVE),
        false => (random.number() as u32).max(LOADERS as u32),
    }
}

/// A file of the generator, about half of them accepted; at times an empty one or
/// one that is too long.
fn file(random: &mut Random) -> Vec<u8> {
    match random.below(16) {
        0 => Vec::new(),
        1 => too_long(random),
        2..9 => accepted(random),
        _ => crate::file(random.number()),
    }
}

/// The first accepted one of a few; an empty file if none is.
fn accepted(random: &mut Random) -> Vec<u8> {
    let is_accepted = |file: &Vec<u8>| matches!(literal::verdict(file), Verdict::Accepted(_));
    let mut few = (0..FEW).map(|_| crate::certificate(random.number()));
    few.find(is_accepted).unwrap_or_default()
}

/// A certificate and its last block again, up to more than a file may have.
fn too_long(random: &mut Random) -> Vec<u8> {
    let mut file = crate::certificate(random.number());
    let last = file[file.len() - BLOCK..].to_vec();
    while file.len() <= MOST_BYTES {
        file.extend(&last);
    }
    file
}
