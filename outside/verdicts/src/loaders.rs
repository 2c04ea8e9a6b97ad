//! Document 02, No. 5: checks that take a tally, with answers by hand.

use crate::cases;
use crate::tally::{Expected, Sixteen, NOT_SIXTEEN_COUNTS};
use crate::{Checker, Difference};
use generate::random::Random;

const ZEROS: Sixteen = [0; 16];
const FULL: Sixteen = [u32::MAX; 16];
const NEARLY: Sixteen = [u32::MAX - 1; 16];
/// No count is like another.
const APART: Sixteen = [
    10, 20, 11, 21, 12, 22, 13, 23, 14, 24, 15, 25, 16, 26, 17, 27,
];
/// Loader 2 has one full count, the accepted or the refused ones.
const ACCEPTED_FULL: Sixteen = [0, 0, 0, 0, u32::MAX, 5, 0, 0, 0, 0, 0, 0, 0, 0, 0, 0];
const REFUSED_FULL: Sixteen = [0, 0, 0, 0, 5, u32::MAX, 0, 0, 0, 0, 0, 0, 0, 0, 0, 0];

const SIXTEEN: u32 = 1_048_576;

/// File of document 01, loader, counts before, answer, and the one count that is
/// another after the check, if one is.
type Row = (&'static str, u32, Sixteen, u32, Option<(usize, u32)>);

const BY_LOADERS: [Row; 17] = [
    ("case a", 0, ZEROS, 0, Some((0, 1))),
    ("case b", 0, ZEROS, 787_457, Some((1, 1))),
    ("case a", 7, ZEROS, 0, Some((14, 1))),
    ("case b", 7, ZEROS, 787_457, Some((15, 1))),
    ("case c", 0, APART, 787_459, Some((1, 21))),
    ("case d", 1, APART, 0, Some((2, 12))),
    ("case f", 2, APART, 0, Some((4, 13))),
    ("case k", 3, APART, 984_064, Some((7, 24))),
    ("case g", 4, APART, 787_717, Some((9, 25))),
    ("case h", 5, APART, 721_408, Some((11, 26))),
    ("case i", 6, APART, 590_080, Some((13, 27))),
    ("case j", 7, APART, 655_616, Some((15, 28))),
    ("0 zero bytes", 7, APART, 65_536, Some((15, 28))),
    ("513 zero bytes", 0, APART, 65_536, Some((1, 21))),
    ("32768 zero bytes", 6, APART, 196_608, Some((13, 27))),
    ("case a with 60 rules", 5, APART, 0, Some((10, 16))),
    ("case a with 61 rules", 5, APART, 65_536, Some((11, 26))),
];

const FULL_COUNTS: [Row; 10] = [
    ("case a", 4, FULL, 0, None),
    ("case b", 4, FULL, 787_457, None),
    ("0 zero bytes", 0, FULL, 65_536, None),
    ("case a", 4, NEARLY, 0, Some((8, 4_294_967_295))),
    ("case b", 4, NEARLY, 787_457, Some((9, 4_294_967_295))),
    ("case a", 2, ACCEPTED_FULL, 0, None),
    ("case b", 2, ACCEPTED_FULL, 787_457, Some((5, 6))),
    ("case a", 2, REFUSED_FULL, 0, Some((4, 6))),
    ("case b", 2, REFUSED_FULL, 787_457, None),
    ("case a", 3, REFUSED_FULL, 0, Some((6, 1))),
];

const NO_LOADERS: [Row; 20] = [
    ("case a", 8, ZEROS, SIXTEEN, None),
    ("case a", 8, APART, SIXTEEN, None),
    ("case a", 9, APART, SIXTEEN, None),
    ("case a", 15, APART, SIXTEEN, None),
    ("case a", 16, APART, SIXTEEN, None),
    ("case a", 255, APART, SIXTEEN, None),
    ("case a", 256, APART, SIXTEEN, None),
    ("case a", 263, APART, SIXTEEN, None),
    ("case a", 65_536, APART, SIXTEEN, None),
    ("case a", 2_147_483_648, APART, SIXTEEN, None),
    ("case a", 4_294_967_295, APART, SIXTEEN, None),
    ("case a", 8, NEARLY, SIXTEEN, None),
    ("case b", 8, APART, SIXTEEN, None),
    ("case b", 256, FULL, SIXTEEN, None),
    ("case b", 4_294_967_295, NEARLY, SIXTEEN, None),
    ("0 zero bytes", 8, APART, SIXTEEN, None),
    ("511 zero bytes", 8, APART, SIXTEEN, None),
    ("513 zero bytes", 256, APART, SIXTEEN, None),
    ("33280 zero bytes", 8, APART, SIXTEEN, None),
    ("32768 zero bytes", 4_294_967_295, APART, SIXTEEN, None),
];

/// A check with what it answers and leaves.
pub struct Counted {
    pub name: String,
    pub file: Vec<u8>,
    pub loader: u32,
    pub before: Vec<u32>,
    pub answer: u32,
    pub after: Vec<u32>,
}

impl Counted {
    pub fn difference(&self, checker: &Checker) -> Option<Difference> {
        let expected = Expected {
            file: &self.file,
            loader: self.loader,
            before: &self.before,
            answer: self.answer,
            after: &self.after,
        };
        expected.difference(checker, &mut Random::new(self.loader as u64))
    }
}

pub fn all() -> Result<Vec<Counted>, String> {
    let rows = BY_LOADERS.iter().chain(&FULL_COUNTS).chain(&NO_LOADERS);
    let mut all: Vec<Counted> = rows.map(of_row).collect::<Result<_, _>>()?;
    for length in NOT_SIXTEEN_COUNTS {
        for loader in [0, 7, 8] {
            all.push(not_sixteen(length, loader)?);
        }
    }
    Ok(all)
}

fn of_row((name, loader, before, answer, changed): &Row) -> Result<Counted, String> {
    let mut after = before.to_vec();
    if let Some((at, count)) = *changed {
        after[at] = count;
    }
    Ok(Counted {
        name: name.to_string(),
        file: file(name)?,
        loader: *loader,
        before: before.to_vec(),
        answer: *answer,
        after,
    })
}

/// Case a, with so many counts: they stay.
fn not_sixteen(length: usize, loader: u32) -> Result<Counted, String> {
    let counts: Vec<u32> = (30..).take(length).collect();
    Ok(Counted {
        name: format!("case a with {length} counts"),
        file: file("case a")?,
        loader,
        before: counts.clone(),
        answer: 4_294_967_295,
        after: counts,
    })
}

fn file(name: &str) -> Result<Vec<u8>, String> {
    let mut all = cases::all()?.into_iter();
    let found = all.find(|known| known.name == name);
    Ok(found.ok_or(format!("no {name}"))?.file)
}
