//! Number 12: which bad patterns take a place from a hat that a good pattern gives.

use crate::report::{Report, MOST_TOLD};
use crate::scene::Scene;
use literal::hats::Exception;
use literal::read::Listed;
use literal::shares;
use literal::term::{at_or_above, joined, marks, Path, Place};

/// The bad patterns that share an instance with the encryption above the place, and
/// count for the place.
pub fn taking_bads<'a>(scene: Scene<'a>, upper: &Place, place: &Place) -> Vec<&'a Listed> {
    let atoms = &scene.certificate.atoms;
    let takes = |bad: &&Listed| {
        shares(atoms, &bad.term, upper.subterm) && Exception::of(&upper.path, bad).may_expose(place)
    };
    scene.certificate.bads.iter().filter(takes).collect()
}

/// Each of these by an example, and the marks by which it counts.
pub fn taken_by_bads(report: &mut Report, scene: Scene, upper: &Place, place: &Place) {
    let bads = taking_bads(scene, upper, place);
    for bad in bads.iter().take(MOST_TOLD) {
        let words = scene.listed("bad", bad);
        let example = scene.example(&bad.term, upper.subterm);
        let marks = exposing_marks(scene, bad, upper, place);
        report.detail(format!("  {words} shares an instance: {example}; {marks}"));
    }
    if bads.len() > MOST_TOLD {
        let more = bads.len() - MOST_TOLD;
        report.detail(format!("  {more} more bad patterns do the same"));
    }
}

/// Which marks of a bad pattern count for the place.
fn exposing_marks(scene: Scene, bad: &Listed, upper: &Place, place: &Place) -> String {
    let marks = marks(&bad.term);
    if marks.is_empty() {
        return "it has no mark, so it takes the whole message out".to_string();
    }
    let told = |mark: &Path| {
        let side = side(&joined(&upper.path, mark), &place.path)?;
        Some(format!("its {} {side}", scene.in_pattern(bad, mark)))
    };
    let told: Vec<String> = marks.iter().filter_map(told).collect();
    told.join(", ")
}

/// Where the mark stands, if it counts for the place.
fn side(mark: &Path, place: &Path) -> Option<&'static str> {
    match (at_or_above(mark, place), at_or_above(place, mark)) {
        (true, true) => Some("stands at the place"),
        (true, false) => Some("stands above the place"),
        (false, true) => Some("stands below the place, which may hold what the mark shows"),
        (false, false) => None,
    }
}
