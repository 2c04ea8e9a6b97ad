//! The climb: from a start, one change after another is kept if it costs more.

use super::families::Family;
use super::measure::{careful, By, Cost, Scale};
use super::mutate::mutated;
use crate::proved;
use generate::random::Random;
use generate::sketch::Sketch;

/// A file that the search found.
pub struct Found {
    pub family: String,
    pub sketch: Sketch,
    pub cost: Cost,
}

impl Found {
    /// Measures anew.
    pub fn again(&mut self) {
        self.cost = careful(&self.sketch.bytes());
    }
}

/// A climb begins anew after so many changes in a row that did not help.
const PATIENCE: usize = 25;

/// How good this sketch is; nothing if it is refused before its rules are
/// judged.
fn score(sketch: &Sketch, scale: &Scale, by: By) -> f64 {
    let file = sketch.bytes();
    let answer = fast::check(&file);
    assert_eq!(answer, proved::check(&file), "fast and proved, {sketch:?}");
    match answer >> 16 {
        0 | 12 | 15 => scale.score(by, &file),
        _ => 0.0,
    }
}

/// So many tries from one family: the dearest file, measured with care.
pub fn climb(
    family: &Family,
    tries: usize,
    random: &mut Random,
    scale: &Scale,
    by: By,
) -> Option<Found> {
    let mut best: Option<(Sketch, f64)> = None;
    let mut tried = 0;
    while tried < tries {
        let start = (family.make)(random);
        let (sketch, score, used) = one_climb(start, tries - tried, random, scale, by);
        tried += used;
        if best.as_ref().is_none_or(|(_, other)| score > *other) {
            best = Some((sketch, score));
        }
    }
    let (sketch, score) = best?;
    (score > 0.0).then(|| Found {
        family: family.name.clone(),
        cost: careful(&sketch.bytes()),
        sketch,
    })
}

/// One climb: where it ends, its score, and the tries it took.
fn one_climb(
    start: Sketch,
    most: usize,
    random: &mut Random,
    scale: &Scale,
    by: By,
) -> (Sketch, f64, usize) {
    let mut reached = score(&start, scale, by);
    let mut sketch = start;
    let (mut used, mut in_vain) = (1, 0);
    while used < most && in_vain < PATIENCE {
        let next = mutated(random, &sketch);
        let next_score = score(&next, scale, by);
        used += 1;
        in_vain += 1;
        if next_score > reached * 1.02 {
            (sketch, reached, in_vain) = (next, next_score, 0);
        }
    }
    (sketch, reached, used)
}
