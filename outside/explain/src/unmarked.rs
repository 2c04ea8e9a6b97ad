//! Number 12: a good pattern that an encryption matches, without a mark for the place.

use crate::hats::Hat;
use crate::report::Report;
use crate::source::down;
use crate::taken::{taken_by_bads, taking_bads};
use literal::read::Listed;
use literal::term::{at_or_above, joined, marks, subterms, Path};
use literal::Term;

impl Hat<'_> {
    /// Which marks the pattern has, and what it has where one is wanted.
    pub fn has_no_mark(&self, report: &mut Report, good: &Listed, words: &str) {
        let marks = marks(&good.term);
        let others: Vec<String> = marks
            .iter()
            .map(|mark| self.other_mark(good, mark))
            .collect();
        let others = match others.is_empty() {
            true => "it has none at all".to_string(),
            false => format!("it marks {}", others.join(", ")),
        };
        report.detail(format!(
            "{words} matches, but has no mark at or above the place: {others}"
        ));
        if let Some(hint) = self.wants_mark(good) {
            report.detail(format!("hint: {hint}"));
            taken_by_bads(report, self.scene, self.upper, self.asked.place);
        }
    }

    /// A mark that does not cover the place.
    fn other_mark(&self, good: &Listed, mark: &Path) -> String {
        let spot = self.scene.in_pattern(good, mark);
        match at_or_above(&self.asked.place.path, &joined(&self.upper.path, mark)) {
            true => format!("{spot} below the place"),
            false => spot,
        }
    }

    /// What stands where a mark would have to, if a mark can stand there.
    fn wants_mark(&self, good: &Listed) -> Option<String> {
        let way = &self.asked.place.path[self.upper.path.len()..];
        let way = as_far_as(&good.term, way);
        let spot = self.scene.in_pattern(good, way);
        let mark = self.mark_for(good, down(&good.term, way))?;
        let end = match taking_bads(self.scene, self.upper, self.asked.place).is_empty() {
            true => "would protect the place",
            false => "is wanted; and then",
        };
        Some(format!("here it has {spot}; {mark} {end}"))
    }

    /// The mark that may stand for this part of the pattern.
    fn mark_for(&self, good: &Listed, there: &Term) -> Option<&'static str> {
        let all = subterms(&good.term);
        let often = all.iter().filter(|place| place.subterm == there).count() > 1;
        let name = |term: &Term| self.scene.source.term(good.block, term);
        let marked = name(there).replacen('?', "*", 1);
        let is_taken = all.iter().any(|place| name(place.subterm) == marked);
        match there {
            Term::Atom(_) => Some("a marked variable in its place"),
            Term::Plain(_) | Term::PlainNonce(_) => Some(match (is_taken, often) {
                (true, true) => "a mark of another name at all its places",
                (true, false) => "a mark of another name in its place",
                (false, true) => "a mark `*` in place of `?` at all its places",
                (false, false) => "a mark `*` in place of `?`",
            }),
            _ => None,
        }
    }
}

/// The way as far as the pattern reaches.
fn as_far_as<'a>(pattern: &Term, way: &'a [u8]) -> &'a [u8] {
    let all = subterms(pattern);
    let reaches = |length: &usize| all.iter().any(|place| place.path == way[..*length]);
    let length = (0..=way.len()).rev().find(reaches).unwrap_or(0);
    &way[..length]
}
