//! Everything that the archive answers for one file, against `literal`.

use crate::lent::{Item, Lent};
use crate::tally::{counts_of, counts_of_pairs, tally_of, Expected, NOT_SIXTEEN_COUNTS};
use crate::{failed, Checker, Difference, Spot};
use generate::calls;
use generate::random::Random;
use literal::loaders::check_by;
use literal::numbers::{BLOCK, CHECKED};
use literal::{Counts, Refusal, Verdict};

/// What differs for this file and the verdict expected of it. Buffers, loaders,
/// counts and verdicts to hand in come from the random numbers.
pub fn differences(
    checker: &Checker,
    file: &[u8],
    verdict: &Verdict,
    random: &mut Random,
) -> Vec<Difference> {
    let before = file.to_vec();
    let mut found = Vec::new();
    found.extend(packed(checker, file, verdict));
    found.extend(lines(checker, file, verdict, random));
    found.extend(parts(checker, file, verdict, random));
    found.extend(tallies(checker, file, verdict, random));
    found.extend(seals(checker, file, random));
    found.extend(Difference::between(
        "the file stays as it is",
        true,
        before == file,
    ));
    found
}

fn packed(checker: &Checker, file: &[u8], verdict: &Verdict) -> Option<Difference> {
    Difference::between("check", literal::packed(verdict), (checker.check)(file))
}

// The line.

/// An exact buffer, a longer one, and one too short.
fn lines(
    checker: &Checker,
    file: &[u8],
    verdict: &Verdict,
    random: &mut Random,
) -> Vec<Difference> {
    let exact = literal::line(verdict).len();
    let lengths = [exact, exact + random.between(1, 40), random.below(exact)];
    let one = |length| line(checker, file, verdict, Lent::new(length, random));
    lengths.into_iter().filter_map(one).collect()
}

/// The answer and the whole buffer, for this buffer.
fn line(checker: &Checker, file: &[u8], verdict: &Verdict, mut buffer: Lent) -> Option<Difference> {
    let mut right = buffer.clone();
    let expected = answer(literal::print_line(verdict, right.items()));
    let found = (checker.line)(file, buffer.items());
    let question = format!("line in {} bytes", buffer.items().len());
    Difference::between(
        &question,
        expected.to_string(),
        format!("{found}{}", buffer.unlike(&right)),
    )
}

/// Bytes written, or how the call fails.
fn answer(result: Result<usize, u32>) -> u32 {
    result.map_or_else(failed, |bytes| bytes as u32)
}

// The refused part.

/// For the file's own verdict and for some from elsewhere, in buffers that are
/// long enough or too short.
fn parts(
    checker: &Checker,
    file: &[u8],
    verdict: &Verdict,
    random: &mut Random,
) -> Vec<Difference> {
    let spots = [
        spot_of(verdict),
        any_spot(file, random),
        any_spot(file, random),
    ];
    let mut found = Vec::new();
    for spot in spots {
        for length in [BLOCK, random.between(BLOCK + 1, 600), random.below(BLOCK)] {
            found.extend(part(checker, file, spot, Lent::new(length, random)));
        }
    }
    found
}

/// The file's own verdict as numbers.
fn spot_of(verdict: &Verdict) -> Spot {
    match verdict {
        Verdict::Accepted(_) => Spot {
            number: 0,
            block: 0,
            place: 0,
        },
        Verdict::Refused(refusal) => Spot {
            number: refusal.number as u32,
            block: refusal.block,
            place: refusal.place,
        },
    }
}

/// Any number up to 20, at times a large one; often a block near the file's end.
fn any_spot(file: &[u8], random: &mut Random) -> Spot {
    let number = match random.below(20) {
        0 => random.number() as u32,
        _ => random.below(21) as u32,
    };
    let block = match random.below(4) {
        0 => random.byte(),
        _ => random.below(file.len() / BLOCK + 2) as u8,
    };
    Spot {
        number,
        block,
        place: random.byte(),
    }
}

/// The verdict that these numbers stand for.
fn verdict_at(spot: Spot) -> Verdict {
    match spot.number {
        0 => Verdict::Accepted(Counts {
            blocks: 5,
            secrets: 2,
            good: 1,
            bad: 0,
            rules: 1,
        }),
        number => Verdict::Refused(Refusal {
            number: number.min(255) as u8,
            block: spot.block,
            place: spot.place,
        }),
    }
}

fn part(checker: &Checker, file: &[u8], spot: Spot, mut buffer: Lent) -> Option<Difference> {
    let mut right = buffer.clone();
    let part = literal::refused_part(file, &verdict_at(spot));
    let expected = match right.items().get_mut(..part.len()) {
        Some(room) => {
            room.copy_from_slice(part);
            part.len() as u32
        }
        None => failed(1),
    };
    let found = (checker.part)(file, spot, buffer.items());
    let question = format!("part for {spot:?} in {} bytes", buffer.items().len());
    Difference::between(
        &question,
        expected.to_string(),
        format!("{found}{}", buffer.unlike(&right)),
    )
}

// The tally.

/// Under any number and under one that is no loader's; at times not sixteen
/// counts.
fn tallies(
    checker: &Checker,
    file: &[u8],
    verdict: &Verdict,
    random: &mut Random,
) -> Vec<Difference> {
    let mut found = Vec::new();
    for loader in [calls::loader(random), calls::above(random)] {
        found.extend(tally(checker, file, verdict, loader, random));
    }
    if random.chance(50) {
        found.extend(not_sixteen(checker, file, random));
    }
    found
}

/// From any tally.
fn tally(
    checker: &Checker,
    file: &[u8],
    verdict: &Verdict,
    loader: u32,
    random: &mut Random,
) -> Option<Difference> {
    let before = counts_of_pairs(&calls::tally(random));
    let (verdict, after) = check_by(|| *verdict, loader, tally_of(&before));
    let expected = Expected {
        file,
        loader,
        before: &before,
        answer: literal::packed(&verdict),
        after: &counts_of(&after),
    };
    expected.difference(checker, random)
}

fn not_sixteen(checker: &Checker, file: &[u8], random: &mut Random) -> Option<Difference> {
    let length = *random.pick(&NOT_SIXTEEN_COUNTS);
    let counts: Vec<u32> = (0..length).map(|_| u32::any(random)).collect();
    let expected = Expected::of_not_sixteen(file, calls::loader(random), &counts);
    expected.difference(checker, random)
}

// Sealing.

/// A block of the file with another check, arbitrary bytes, a wrong length.
fn seals(checker: &Checker, file: &[u8], random: &mut Random) -> Vec<Difference> {
    let mut own = some_block(file, random);
    own[CHECKED..].fill(random.byte());
    let wrong = match random.below(4) {
        0 => 0,
        1 => *random.pick(&[508, 511, 513, 1024]),
        _ => random.below(1100),
    };
    let lent = [
        Lent::of(&own, random),
        Lent::new(BLOCK, random),
        Lent::new(wrong, random),
    ];
    let one = |block| seal(checker, block);
    lent.into_iter().filter_map(one).collect()
}

fn some_block(file: &[u8], random: &mut Random) -> Vec<u8> {
    let blocks: Vec<&[u8]> = file.chunks_exact(BLOCK).collect();
    match blocks.is_empty() {
        true => vec![255; BLOCK],
        false => random.pick(&blocks).to_vec(),
    }
}

fn seal(checker: &Checker, mut block: Lent) -> Option<Difference> {
    let mut right = block.clone();
    let expected = answer(literal::seal(right.items()));
    let found = (checker.seal)(block.items());
    let question = format!("sealing {} bytes", block.items().len());
    Difference::between(
        &question,
        expected.to_string(),
        format!("{found}{}", block.unlike(&right)),
    )
}
