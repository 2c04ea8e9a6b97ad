//! The check that takes a tally, as the archive has it: sixteen counts are lent,
//! accepted and refused of loader 0, then of loader 1, and so on.

use crate::lent::Lent;
use crate::{Checker, Difference};
use generate::random::Random;
use literal::numbers::LOADERS;
use literal::{LoaderCounts, Tally};

pub const COUNTS: usize = 2 * LOADERS;
pub type Sixteen = [u32; COUNTS];

/// How many counts are lent, where that is wrong, and the answer then.
pub const NOT_SIXTEEN_COUNTS: [usize; 8] = [0, 1, 2, 8, 15, 17, 18, 32];
pub const NOT_SIXTEEN: u32 = u32::MAX;

pub fn counts_of(tally: &Tally) -> Sixteen {
    counts_of_pairs(&tally.map(|counts| [counts.accepted, counts.refused]))
}

pub fn counts_of_pairs(pairs: &[[u32; 2]; LOADERS]) -> Sixteen {
    std::array::from_fn(|i| pairs[i / 2][i % 2])
}

pub fn tally_of(counts: &Sixteen) -> Tally {
    std::array::from_fn(|loader| LoaderCounts {
        accepted: counts[2 * loader],
        refused: counts[2 * loader + 1],
    })
}

/// A check, and what is expected of it.
pub struct Expected<'a> {
    pub file: &'a [u8],
    pub loader: u32,
    pub before: &'a [u32],
    pub answer: u32,
    pub after: &'a [u32],
}

impl<'a> Expected<'a> {
    /// Lent other than sixteen counts: they stay.
    pub fn of_not_sixteen(file: &'a [u8], loader: u32, counts: &'a [u32]) -> Expected<'a> {
        Expected {
            file,
            loader,
            before: counts,
            answer: NOT_SIXTEEN,
            after: counts,
        }
    }

    pub fn difference(&self, checker: &Checker, random: &mut Random) -> Option<Difference> {
        let mut counts = Lent::of(self.before, random);
        let mut right = counts.clone();
        right.items().copy_from_slice(self.after);
        let found = (checker.tally)(self.file, self.loader, counts.items());
        Difference::between(
            &format!("tally of loader {} from {:?}", self.loader, self.before),
            self.answer.to_string(),
            format!("{found}{}", counts.unlike(&right)),
        )
    }
}
