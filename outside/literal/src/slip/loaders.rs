//! Wrong readings of a tally for each loader.

use super::{Slip, CURRENT};
use crate::loaders::{count_of, raised, LoaderCounts, Tally};
use crate::numbers::LOADERS;
use crate::read::refuse;
use crate::verdict::Verdict;

/// The loader's number in fewer bits.
pub fn number_read(loader: u32) -> u32 {
    match CURRENT.get() {
        Some(Slip::LoaderModulo8) => loader % 8,
        Some(Slip::LoaderModulo256) => loader % 256,
        Some(Slip::LoaderModulo65536) => loader % 65_536,
        _ => loader,
    }
}

/// Other limits for the number; none if no such slip is on.
pub fn is_loader_otherwise(loader: u32) -> Option<bool> {
    match CURRENT.get()? {
        Slip::LoaderSigned => Some((loader as i32) < 8),
        Slip::LoaderEightAllowed => Some(loader <= 8),
        Slip::LoaderSevenRefused => Some(loader < 7),
        _ => None,
    }
}

/// What a number that is no loader's gets; none if no such slip is on.
pub fn refused_otherwise(
    verdict_on_file: &dyn Fn() -> Verdict,
    loader: u32,
    tally: Tally,
) -> Option<(Verdict, Tally)> {
    let sixteen = Verdict::Refused(refuse(16, 0, 0));
    let some_loader = loader as usize % LOADERS;
    Some(match CURRENT.get()? {
        Slip::SixteenRaisesACount => (sixteen, raised(tally, some_loader, &sixteen)),
        Slip::SixteenAfterTheFile => match verdict_on_file() {
            Verdict::Accepted(_) => (sixteen, tally),
            refused => (refused, tally),
        },
        Slip::SixteenAfterTheLength => match verdict_on_file() {
            wrong if is_wrong_length(&wrong) => (wrong, tally),
            _ => (sixteen, tally),
        },
        Slip::SixteenForgetsTheTally => (sixteen, Tally::default()),
        Slip::SixteenNamesTheLoader => {
            let place = loader as u8 as usize;
            (Verdict::Refused(refuse(16, 0, place)), tally)
        }
        _ => return None,
    })
}

/// Number 1.
fn is_wrong_length(verdict: &Verdict) -> bool {
    matches!(verdict, Verdict::Refused(refusal) if refusal.number == 1)
}

/// What comes back once the file has its verdict; none if no such slip is on.
pub fn counted_otherwise(verdict: Verdict, loader: u32, tally: Tally) -> Option<(Verdict, Tally)> {
    let slip = CURRENT.get()?;
    let loader = loader as usize;
    // Beyond the eight pairs there is nothing to count in.
    let Some(mut own) = tally.get(loader).copied() else {
        return Some((verdict, tally));
    };
    if slip == Slip::FullCountRefused && *count_of(&mut own, &verdict) == u32::MAX {
        return Some((Verdict::Refused(refuse(16, 0, 0)), tally));
    }
    if let Some(counts) = pair_otherwise(slip, own, &verdict) {
        let mut after = tally;
        after[loader] = counts;
        return Some((verdict, after));
    }
    Some((verdict, others_otherwise(slip, tally, loader, &verdict)?))
}

/// Another pair for the loader itself.
fn pair_otherwise(slip: Slip, before: LoaderCounts, verdict: &Verdict) -> Option<LoaderCounts> {
    let LoaderCounts { accepted, refused } = before;
    let is_accepted = matches!(verdict, Verdict::Accepted(_));
    let counts = |accepted, refused| LoaderCounts { accepted, refused };
    let stays = match slip {
        Slip::AcceptedAsRefused if is_accepted => {
            return Some(counts(accepted, refused.saturating_add(1)))
        }
        Slip::RefusedAsAccepted if !is_accepted => {
            return Some(counts(accepted.saturating_add(1), refused))
        }
        Slip::CountWraps => {
            let mut after = before;
            let count = count_of(&mut after, verdict);
            *count = count.wrapping_add(1);
            return Some(after);
        }
        Slip::WrongLengthNotCounted => is_wrong_length(verdict),
        Slip::FullRefusedKeepsAccepted => is_accepted && refused == u32::MAX,
        Slip::FullAcceptedKeepsRefused => !is_accepted && accepted == u32::MAX,
        _ => false,
    };
    stays.then_some(before)
}

/// Another loader's count.
fn others_otherwise(slip: Slip, tally: Tally, loader: usize, verdict: &Verdict) -> Option<Tally> {
    Some(match slip {
        Slip::NextLoaderRaised => raised(tally, (loader + 1) % LOADERS, verdict),
        Slip::FirstLoaderRaised => raised(tally, 0, verdict),
        Slip::EveryLoaderRaised => {
            (0..LOADERS).fold(tally, |tally, loader| raised(tally, loader, verdict))
        }
        Slip::OtherLoadersForgotten => {
            let mut after = Tally::default();
            after[loader] = raised(tally, loader, verdict)[loader];
            after
        }
        _ => return None,
    })
}

/// Each, and of how many calls, in percent, it answers something else at least.
const ALL: [(Slip, usize); 23] = [
    (Slip::NextLoaderRaised, 30),
    (Slip::FirstLoaderRaised, 30),
    (Slip::EveryLoaderRaised, 40),
    (Slip::OtherLoadersForgotten, 40),
    (Slip::AcceptedAsRefused, 15),
    (Slip::RefusedAsAccepted, 15),
    (Slip::WrongLengthNotCounted, 3),
    (Slip::CountWraps, 15),
    (Slip::FullRefusedKeepsAccepted, 4),
    (Slip::FullAcceptedKeepsRefused, 4),
    (Slip::FullCountRefused, 15),
    (Slip::LoaderModulo8, 10),
    (Slip::LoaderModulo256, 4),
    (Slip::LoaderModulo65536, 2),
    (Slip::LoaderSigned, 3),
    (Slip::LoaderEightAllowed, 1),
    (Slip::LoaderSevenRefused, 4),
    (Slip::SixteenRaisesACount, 8),
    (Slip::SixteenAfterTheFile, 5),
    (Slip::SixteenAfterTheLength, 1),
    (Slip::SixteenForgetsTheTally, 10),
    (Slip::SixteenNamesTheLoader, 10),
    (Slip::SixteenHasAPart, 10),
];

mod tests {
    use super::super::with;
    use super::*;
    use crate::loaders::check_by;
    use crate::{refused_part, verdict};
    use generate::{Call, Calls};

    const CALLS: usize = 100_000;

    /// What a call hands in, with the verdict on its file.
    struct Asked<'a> {
        file: &'a [u8],
        on_file: Verdict,
        loader: u32,
        before: Tally,
    }

    /// Verdict, tally and part.
    type Answer<'a> = (Verdict, Tally, &'a [u8]);

    impl<'a> Asked<'a> {
        fn answer(&self) -> Answer<'a> {
            let (verdict, after) = check_by(|| self.on_file, self.loader, self.before);
            (verdict, after, refused_part(self.file, &verdict))
        }
    }

    /// The calls of a list, each with the tally that the last one returned.
    fn asked(list: &Calls) -> Vec<(Asked<'_>, Answer<'_>)> {
        let verdicts: Vec<Verdict> = list.files.iter().map(|file| verdict(file)).collect();
        let counts = |[accepted, refused]: [u32; 2]| LoaderCounts { accepted, refused };
        let mut before = list.first.map(counts);
        let one = |call: &Call| {
            let asked = Asked {
                file: list.file(call),
                on_file: verdicts[call.file],
                loader: call.loader,
                before,
            };
            let right = asked.answer();
            before = right.1;
            (asked, right)
        };
        list.calls.iter().map(one).collect()
    }

    #[test]
    fn generated_calls_tell_every_slip() {
        let (mut calls, mut differ) = (0, ALL.map(|_| 0));
        let mut seeds = 0..;
        while calls < CALLS {
            let list = seeds.next().map(generate::calls).expect("a seed");
            for (asked, right) in asked(&list).iter().take(CALLS - calls) {
                calls += 1;
                for (count, (slip, _)) in differ.iter_mut().zip(ALL) {
                    *count += usize::from(with(slip, || asked.answer()) != *right);
                }
            }
        }
        for (count, (slip, percent)) in differ.iter().zip(ALL) {
            println!("{slip:?}: {count} of {CALLS} calls differ");
            assert!(count * 100 > CALLS * percent, "{slip:?}");
        }
    }
}
