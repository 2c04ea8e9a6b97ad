//! Wrong checks with a tally, made of the archive's right one.

use std::cell::Cell;
use verdicts::failed;
use verdicts::proved::CHECKER;
use verdicts::tally::{Sixteen, COUNTS};

type TallyCheck = fn(&[u8], u32, &mut [u32]) -> u32;

pub const ALL: [(&str, TallyCheck); 13] = [
    ("a full count wraps", wrapping),
    ("the number modulo 8", modulo_8),
    ("the number modulo 256", modulo_256),
    ("the next loader's count", next_loader),
    ("loader 0's count", first_loader),
    ("every loader's count", every_loader),
    ("8 allowed", eight_allowed),
    ("7 refused", seven_refused),
    ("16 raises a count", sixteen_counted),
    ("16 after the file", sixteen_after_the_file),
    ("16 after number 1", sixteen_after_the_length),
    ("16 forgets the counts", sixteen_forgets),
    ("accepted counted as refused", accepted_as_refused),
];

/// The count of a loader that this answer raises.
fn at(loader: u32, answer: u32) -> usize {
    2 * loader as usize + usize::from(answer != 0)
}

/// Whether there is a pair to count in, and room for all.
fn is_right(loader: u32, counts: &[u32]) -> bool {
    loader < 8 && counts.len() == COUNTS
}

fn is_above(loader: u32, counts: &[u32]) -> bool {
    loader > 7 && counts.len() == COUNTS
}

fn wrapping(file: &[u8], loader: u32, counts: &mut [u32]) -> u32 {
    if !is_right(loader, counts) {
        return (CHECKER.tally)(file, loader, counts);
    }
    let answer = (CHECKER.check)(file);
    let count = &mut counts[at(loader, answer)];
    *count = count.wrapping_add(1);
    answer
}

fn modulo_8(file: &[u8], loader: u32, counts: &mut [u32]) -> u32 {
    (CHECKER.tally)(file, loader % 8, counts)
}

fn modulo_256(file: &[u8], loader: u32, counts: &mut [u32]) -> u32 {
    (CHECKER.tally)(file, loader % 256, counts)
}

fn next_loader(file: &[u8], loader: u32, counts: &mut [u32]) -> u32 {
    let other = if loader < 8 { (loader + 1) % 8 } else { loader };
    (CHECKER.tally)(file, other, counts)
}

fn first_loader(file: &[u8], loader: u32, counts: &mut [u32]) -> u32 {
    let other = if loader < 8 { 0 } else { loader };
    (CHECKER.tally)(file, other, counts)
}

fn every_loader(file: &[u8], loader: u32, counts: &mut [u32]) -> u32 {
    if is_right(loader, counts) {
        for other in (0..8).filter(|other| *other != loader) {
            (CHECKER.tally)(file, other, counts);
        }
    }
    (CHECKER.tally)(file, loader, counts)
}

fn eight_allowed(file: &[u8], loader: u32, counts: &mut [u32]) -> u32 {
    match is_above(loader, counts) && loader == 8 {
        true => (CHECKER.check)(file),
        false => (CHECKER.tally)(file, loader, counts),
    }
}

fn seven_refused(file: &[u8], loader: u32, counts: &mut [u32]) -> u32 {
    let other = if loader == 7 { 8 } else { loader };
    (CHECKER.tally)(file, other, counts)
}

fn sixteen_counted(file: &[u8], loader: u32, counts: &mut [u32]) -> u32 {
    let answer = (CHECKER.tally)(file, loader, counts);
    if answer == failed(16) {
        let count = &mut counts[at(loader % 8, answer)];
        *count = count.saturating_add(1);
    }
    answer
}

fn sixteen_after_the_file(file: &[u8], loader: u32, counts: &mut [u32]) -> u32 {
    match (CHECKER.check)(file) {
        refused if refused != 0 && is_above(loader, counts) => refused,
        _ => (CHECKER.tally)(file, loader, counts),
    }
}

fn sixteen_after_the_length(file: &[u8], loader: u32, counts: &mut [u32]) -> u32 {
    match (CHECKER.check)(file) {
        refused if refused == failed(1) && is_above(loader, counts) => refused,
        _ => (CHECKER.tally)(file, loader, counts),
    }
}

fn sixteen_forgets(file: &[u8], loader: u32, counts: &mut [u32]) -> u32 {
    let answer = (CHECKER.tally)(file, loader, counts);
    if answer == failed(16) {
        counts.fill(0);
    }
    answer
}

fn accepted_as_refused(file: &[u8], loader: u32, counts: &mut [u32]) -> u32 {
    if !is_right(loader, counts) {
        return (CHECKER.tally)(file, loader, counts);
    }
    let count = &mut counts[at(loader, failed(1))];
    *count = count.saturating_add(1);
    (CHECKER.check)(file)
}

// Those that lists notice without a reference.

/// Loaders 0 and 1 count together, and so on.
pub fn shared_by_two(file: &[u8], loader: u32, counts: &mut [u32]) -> u32 {
    let shared = if loader < 8 { loader / 2 * 2 } else { loader };
    (CHECKER.tally)(file, shared, counts)
}

/// 16 where the count is full.
pub fn full_count_refused(file: &[u8], loader: u32, counts: &mut [u32]) -> u32 {
    let before = counts.to_vec();
    let answer = (CHECKER.tally)(file, loader, counts);
    let is_full = is_right(loader, counts) && before[at(loader, answer)] == u32::MAX;
    if is_full {
        return failed(16);
    }
    answer
}

thread_local! {
    static LAST: Cell<Sixteen> = const { Cell::new([0; COUNTS]) };
}

/// No count falls below what the last check returned.
pub fn kept_inside(file: &[u8], loader: u32, counts: &mut [u32]) -> u32 {
    let kept = LAST.get();
    let pairs = counts.iter_mut().zip(kept);
    pairs.for_each(|(count, kept)| *count = kept.max(*count));
    let answer = (CHECKER.tally)(file, loader, counts);
    if let Ok(last) = Sixteen::try_from(&counts[..]) {
        LAST.set(last);
    }
    answer
}

// Those that take other than sixteen counts.

/// More than sixteen: the first of them.
pub fn of_the_first_sixteen(file: &[u8], loader: u32, counts: &mut [u32]) -> u32 {
    let taken = counts.len().min(COUNTS);
    (CHECKER.tally)(file, loader, &mut counts[..taken])
}

/// Refused as it should be, but not left as they are.
pub fn clearing_others(file: &[u8], loader: u32, counts: &mut [u32]) -> u32 {
    if counts.len() != COUNTS {
        counts.fill(0);
    }
    (CHECKER.tally)(file, loader, counts)
}
