//! The check that takes a tally: each of eight loaders has its own counts.

use crate::judge;
use crate::numbers::LOADERS;
use crate::read::refuse;
#[cfg(test)]
use crate::slip;
use crate::verdict::Verdict;

/// How many files of one loader were accepted, and how many refused.
#[derive(Clone, Copy, Debug, Default, PartialEq, Eq)]
pub struct LoaderCounts {
    pub accepted: u32,
    pub refused: u32,
}

/// The counts of loader 0, of loader 1 and so on.
pub type Tally = [LoaderCounts; LOADERS];

/// The verdict on the file, and the tally with one count of this loader raised
/// by 1. A loader's number above 7: 16 before all else, and the tally stays.
pub fn check(file: &[u8], loader: u32, tally: Tally) -> (Verdict, Tally) {
    check_by(|| judge::verdict(file), loader, tally)
}

/// The same, with this for the verdict on the file; for 16 it is not asked.
pub fn check_by(
    verdict_on_file: impl Fn() -> Verdict,
    loader: u32,
    tally: Tally,
) -> (Verdict, Tally) {
    #[cfg(test)]
    let loader = slip::loaders::number_read(loader);
    if !is_loader(loader) {
        #[cfg(test)]
        if let Some(other) = slip::loaders::refused_otherwise(&verdict_on_file, loader, tally) {
            return other;
        }
        return (Verdict::Refused(refuse(16, 0, 0)), tally);
    }
    let verdict = verdict_on_file();
    #[cfg(test)]
    if let Some(other) = slip::loaders::counted_otherwise(verdict, loader, tally) {
        return other;
    }
    (verdict, raised(tally, loader as usize, &verdict))
}

fn is_loader(number: u32) -> bool {
    #[cfg(test)]
    if let Some(answer) = slip::loaders::is_loader_otherwise(number) {
        return answer;
    }
    number < LOADERS as u32
}

/// One count of this loader raised by 1; a full count stays.
pub(crate) fn raised(mut tally: Tally, loader: usize, verdict: &Verdict) -> Tally {
    let count = count_of(&mut tally[loader], verdict);
    *count = count.saturating_add(1);
    tally
}

/// The count that this verdict is counted in.
pub(crate) fn count_of<'a>(counts: &'a mut LoaderCounts, verdict: &Verdict) -> &'a mut u32 {
    match verdict {
        Verdict::Accepted(_) => &mut counts.accepted,
        Verdict::Refused(_) => &mut counts.refused,
    }
}
