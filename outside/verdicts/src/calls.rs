//! Lists of checks that hand the tally on. The archive's answers against those of
//! `literal`, and against its own to other lists.

use crate::tally::{counts_of, counts_of_pairs, tally_of, Sixteen};
use crate::{Checker, Difference};
use generate::random::Random;
use generate::{Call, Calls};
use literal::loaders::check_by;
use literal::numbers::LOADERS;
use literal::Verdict;

/// An answer, and the counts after it.
type Step = (u32, Sixteen);

/// What differs for this list. Counts that should not matter, and which older
/// tally is restored, come from the random numbers.
pub fn differences(checker: &Checker, list: &Calls, random: &mut Random) -> Vec<Difference> {
    let steps = run(checker, list, &list.calls, first(list));
    let mut found = Vec::new();
    found.extend(of_literal(list, &steps));
    found.extend(of_plain_check(checker, list, &steps));
    for loader in 0..LOADERS {
        found.extend(of_loader_alone(checker, list, &steps, loader, random));
    }
    found.extend(of_older_tally(checker, list, &steps, random));
    found
}

fn first(list: &Calls) -> Sixteen {
    counts_of_pairs(&list.first)
}

/// These calls of the list's files, from these counts.
fn run(checker: &Checker, list: &Calls, calls: &[Call], mut counts: Sixteen) -> Vec<Step> {
    let one = |call: &Call| {
        let answer = (checker.tally)(list.file(call), call.loader, &mut counts);
        (answer, counts)
    };
    calls.iter().map(one).collect()
}

/// The first step that is another one; the calls from this one on are told.
fn unlike(question: &str, from: usize, expected: &[Step], found: &[Step]) -> Option<Difference> {
    let mut pairs = expected.iter().zip(found).enumerate();
    let (i, (expected, found)) = pairs.find(|(_, (expected, found))| expected != found)?;
    let told = |(answer, counts): &Step| format!("{answer} and {counts:?}");
    let question = format!("{question}, call {}", from + i);
    Difference::between(&question, told(expected), told(found))
}

/// Each verdict and each tally by `literal`.
fn of_literal(list: &Calls, steps: &[Step]) -> Option<Difference> {
    let verdicts: Vec<Verdict> = list.files.iter().map(|f| literal::verdict(f)).collect();
    let mut tally = tally_of(&first(list));
    let one = |call: &Call| {
        let (verdict, after) = check_by(|| verdicts[call.file], call.loader, tally);
        tally = after;
        (literal::packed(&verdict), counts_of(&after))
    };
    let right: Vec<Step> = list.calls.iter().map(one).collect();
    unlike("list by literal", 0, &right, steps)
}

/// Under a loader's number the answer is the C call's for the file.
fn of_plain_check(checker: &Checker, list: &Calls, steps: &[Step]) -> Option<Difference> {
    let plain: Vec<u32> = list.files.iter().map(|f| (checker.check)(f)).collect();
    let one = |(call, step): (&Call, &Step)| match is_loader(call) {
        true => (plain[call.file], step.1),
        false => *step,
    };
    let right: Vec<Step> = list.calls.iter().zip(steps).map(one).collect();
    unlike("list by the plain check", 0, &right, steps)
}

fn is_loader(call: &Call) -> bool {
    (call.loader as usize) < LOADERS
}

/// The loader's counts after its own calls alone, with others for the others.
fn of_loader_alone(
    checker: &Checker,
    list: &Calls,
    steps: &[Step],
    loader: usize,
    random: &mut Random,
) -> Option<Difference> {
    let of_loader = |call: &&Call| call.loader as usize == loader;
    let own: Vec<Call> = list.calls.iter().filter(of_loader).copied().collect();
    let mut before = generate::calls::tally(random);
    before[loader] = list.first[loader];
    let before = counts_of_pairs(&before);
    let alone = run(checker, list, &own, before);
    let pair = |steps: &[Step], before: Sixteen| {
        let last = steps.last().map_or(before, |step| step.1);
        format!("{:?}", &last[2 * loader..2 * loader + 2])
    };
    Difference::between(
        &format!("list by loader {loader} alone, its counts"),
        pair(&alone, before),
        pair(steps, first(list)),
    )
}

/// An older tally handed in again, and the rest of the list from there.
fn of_older_tally(
    checker: &Checker,
    list: &Calls,
    steps: &[Step],
    random: &mut Random,
) -> Option<Difference> {
    let from = random.below(list.calls.len());
    let older = match from {
        0 => first(list),
        _ => steps[from - 1].1,
    };
    let again = run(checker, list, &list.calls[from..], older);
    unlike("list from an older tally", from, &steps[from..], &again)
}

/// The list in words: the first counts, the calls, the files.
pub fn print(list: &Calls) -> String {
    let mut words = format!("first {:?}\n", first(list));
    for (i, call) in list.calls.iter().enumerate() {
        words += &format!("call {i}: loader {}, file {}\n", call.loader, call.file);
    }
    for (i, file) in list.files.iter().enumerate() {
        words += &format!("file {i}:\n{}", text::print(file));
    }
    words
}
