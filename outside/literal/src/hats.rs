//! Hats and cover, definition by definition.

use crate::read::{Atom, Certificate, Listed, Rule};
use crate::share::shares;
#[cfg(test)]
use crate::slip::{self, Slip};
use crate::term::{at_or_above, joined, marks, matches, places, strictly_above, Path, Place, Term};

/// Whether the term is one of the listed ones, symbol for symbol.
pub fn is_listed(term: &Term, list: &[Listed]) -> bool {
    list.iter().any(|listed| listed.term == *term)
}

/// Whether the term shares an instance with one of the listed ones.
pub fn shares_with_some(atoms: &[Atom], term: &Term, list: &[Listed]) -> bool {
    list.iter().any(|listed| shares(atoms, &listed.term, term))
}

/// Whether the term is one of the listed patterns with its variables replaced
/// by terms.
#[cfg(test)]
fn matches_some(atoms: &[Atom], term: &Term, list: &[Listed]) -> bool {
    list.iter().any(|listed| matches(atoms, &listed.term, term))
}

/// What a bad pattern that meets a subterm takes from its hat: all of it, or
/// what stands at the pattern's marks.
#[derive(Clone, Debug)]
pub struct Exception {
    /// Where the marks then stand; none if the pattern has none.
    pub marks: Vec<Path>,
}

impl Exception {
    /// Of the pattern with its root at `path`.
    pub fn of(path: &Path, bad: &Listed) -> Exception {
        Exception {
            marks: marks_below(path, &bad.term),
        }
    }

    /// No mark, or one at or above the place.
    pub fn exposes(&self, place: &Place) -> bool {
        #[cfg(test)]
        if let Some(answer) = slip::exposes_otherwise(self, place) {
            return answer;
        }
        self.marks.is_empty() || has_mark_on(&self.marks, &place.path)
    }

    /// No mark, or one at, above or below the place.
    pub fn may_expose(&self, place: &Place) -> bool {
        #[cfg(test)]
        if let Some(answer) = slip::may_expose_otherwise(self, place) {
            return answer;
        }
        let below = |mark: &Path| at_or_above(&place.path, mark);
        self.marks.is_empty()
            || has_mark_on(&self.marks, &place.path)
            || self.marks.iter().any(below)
    }
}

/// A subterm of a conclusion that is a good pattern with its variables
/// replaced by terms.
#[derive(Clone, Debug)]
pub struct SureHat {
    /// Where the subterm stands in the conclusion.
    pub path: Path,
    /// Where that good pattern's marked variables then stand.
    pub marks: Vec<Path>,
    /// By the bad patterns that share an instance with the subterm.
    pub exceptions: Vec<Exception>,
}

/// The sure hats of a conclusion, one for each subterm and good pattern.
pub fn sure_hats(certificate: &Certificate, conclusion: &Term) -> Vec<SureHat> {
    let mut hats = Vec::new();
    for place in places(conclusion) {
        #[cfg(test)]
        let place = slip::hashes::hat_read(place);
        for good in &certificate.goods {
            if matches(&certificate.atoms, &good.term, place.subterm) {
                hats.push(SureHat {
                    path: place.path.clone(),
                    marks: marks_below(&place.path, &good.term),
                    exceptions: exceptions_by_sharing(certificate, &place),
                });
                #[cfg(test)]
                slip::give_more_marks(certificate, hats.last_mut());
                #[cfg(test)]
                slip::hashes::raise_marks(&good.term, hats.last_mut());
            }
        }
    }
    hats
}

/// The places of the pattern's marks when its root stands at `path`.
pub(crate) fn marks_below(path: &Path, pattern: &Term) -> Vec<Path> {
    #[cfg(test)]
    if slip::is(Slip::MarkedNonceNoMark) {
        return slip::nonces::marks_but_nonces(path, pattern);
    }
    let marks = marks(pattern);
    marks.iter().map(|mark| joined(path, mark)).collect()
}

/// What the bad patterns take from a sure hat at this place.
fn exceptions_by_sharing(certificate: &Certificate, place: &Place) -> Vec<Exception> {
    #[cfg(test)]
    if let Some(other) = slip::bads::of_hat(certificate, place) {
        return other;
    }
    exceptions(certificate, place, shares)
}

/// By those of the bad patterns that meet the subterm at this place.
fn exceptions(certificate: &Certificate, place: &Place, meets: Meets) -> Vec<Exception> {
    let bads = certificate.bads.iter();
    bads.filter(|bad| meets(&certificate.atoms, &bad.term, place.subterm))
        .map(|bad| Exception::of(&place.path, bad))
        .collect()
}

/// Sharing or matching: over these atoms, the pattern and the subterm.
pub(crate) type Meets = fn(&[Atom], &Term, &Term) -> bool;

/// Sure hat for a place: one strictly above the place, a mark of it at or
/// above the place, and no bad pattern that may expose the place.
pub fn has_sure_hat(hats: &[SureHat], place: &Place) -> bool {
    hats.iter().any(|hat| {
        strictly_above(&hat.path, &place.path)
            && is_covered_by_mark(hat, &place.path)
            && !hat.exceptions.iter().any(|bad| bad.may_expose(place))
    })
}

fn is_covered_by_mark(hat: &SureHat, path: &Path) -> bool {
    #[cfg(test)]
    if slip::is(Slip::MarkNotAsked) {
        return true;
    }
    #[cfg(test)]
    if slip::is(Slip::MarkStrictlyAbove) {
        return hat.marks.iter().any(|mark| strictly_above(mark, path));
    }
    #[cfg(test)]
    if slip::is(Slip::MarkAtThePlaceOnly) {
        return hat.marks.contains(path);
    }
    has_mark_on(&hat.marks, path)
}

/// Whether one of the marks stands at or above the place at `path`.
fn has_mark_on(marks: &[Path], path: &Path) -> bool {
    marks.iter().any(|mark| at_or_above(mark, path))
}

/// An encryption of a premise that shares an instance with a good pattern.
#[derive(Clone, Debug)]
pub struct Closing {
    pub path: Path,
    /// By the bad patterns that it is, their variables replaced by terms.
    pub exceptions: Vec<Exception>,
}

impl Closing {
    /// It stands strictly above the place, and no bad pattern exposes that.
    pub fn closes(&self, place: &Place) -> bool {
        strictly_above(&self.path, &place.path)
            && !self.exceptions.iter().any(|bad| bad.exposes(place))
    }
}

/// The encryptions of a premise that close what no bad pattern exposes.
pub fn closings(certificate: &Certificate, premise: &Term) -> Vec<Closing> {
    let closes = |place: &Place| place.subterm.is_encryption() && is_closing(certificate, place);
    let places = places(premise).into_iter();
    #[cfg(test)]
    let places = places.map(slip::hashes::closing_read);
    places
        .filter(closes)
        .map(|place| Closing {
            exceptions: exceptions_by_matching(certificate, &place),
            path: place.path,
        })
        .collect()
}

fn is_closing(certificate: &Certificate, place: &Place) -> bool {
    #[cfg(test)]
    if slip::is(Slip::GoodAsInstanceForOpen) {
        return matches_some(&certificate.atoms, place.subterm, &certificate.goods);
    }
    shares_with_some(&certificate.atoms, place.subterm, &certificate.goods)
}

/// What the bad patterns let through at this place.
fn exceptions_by_matching(certificate: &Certificate, place: &Place) -> Vec<Exception> {
    #[cfg(test)]
    if let Some(other) = slip::bads::of_open(certificate, place) {
        return other;
    }
    exceptions(certificate, place, matches)
}

/// Open place of a premise: every encryption strictly above it either shares
/// an instance with no good pattern, or is a bad pattern with its variables
/// replaced by terms, without marks or with one at or above the place. The
/// answer is those places, entries rising.
pub fn open_places<'a>(certificate: &Certificate, rule: &'a Rule) -> Vec<Place<'a>> {
    let premise = rule.premise.as_ref();
    premise.map_or(Vec::new(), |term| {
        open_among(certificate, term, places(term))
    })
}

/// Those of the premise's subterms that no encryption closes.
pub(crate) fn open_among<'a>(
    certificate: &Certificate,
    premise: &Term,
    mut open: Vec<Place<'a>>,
) -> Vec<Place<'a>> {
    let closings = closings(certificate, premise);
    #[cfg(test)]
    if slip::open_otherwise(&mut open, &closings) {
        return open;
    }
    open.retain(|place| !closings.iter().any(|upper| upper.closes(place)));
    open
}

/// The first entry of the premise at an open place where a listed secret
/// stands, symbol for symbol; none for a rule that 15 does not refuse.
pub fn first_open_secret(certificate: &Certificate, rule: &Rule) -> Option<usize> {
    #[cfg(test)]
    if let Some(other) = slip::open_secrets::first_otherwise(certificate, rule) {
        return other;
    }
    let open = open_places(certificate, rule);
    #[cfg(test)]
    let open = slip::hashes::open_for_secrets(certificate, rule).unwrap_or(open);
    first_secret(&open, &certificate.secrets)
}

/// The entry of the first of these places where a listed secret stands.
pub fn first_secret(places: &[Place], secrets: &[Listed]) -> Option<usize> {
    let found = places.iter().find(|p| is_listed(p.subterm, secrets))?;
    Some(found.entry)
}

/// Risky place of a conclusion: a variable, or a subterm that shares an
/// instance with a secret.
pub fn is_risky(certificate: &Certificate, place: &Place) -> bool {
    #[cfg(test)]
    if slip::is(Slip::RiskyByEquality) {
        return place.subterm.is_variable() || is_listed(place.subterm, &certificate.secrets);
    }
    #[cfg(test)]
    if slip::is(Slip::VariableNotRisky) && place.subterm.is_variable() {
        return false;
    }
    #[cfg(test)]
    if let Some(answer) = slip::nonces::is_risky_otherwise(certificate, place) {
        return answer;
    }
    place.subterm.is_variable()
        || shares_with_some(&certificate.atoms, place.subterm, &certificate.secrets)
}

/// Covered: there is a sure hat for the place, or the same subterm, symbol for
/// symbol, stands at an open place of the premise.
pub fn is_covered(hats: &[SureHat], open: &[Place], place: &Place) -> bool {
    #[cfg(test)]
    if slip::is(Slip::PremiseNotRead) {
        return has_sure_hat(hats, place);
    }
    #[cfg(test)]
    if slip::nonces::is_shown_otherwise(open, place.subterm)
        || slip::hashes::is_shown_otherwise(open, place.subterm)
    {
        return true;
    }
    has_sure_hat(hats, place) || stands_at(open, place.subterm)
}

/// Whether the term, symbol for symbol, stands at one of the places.
pub fn stands_at(places: &[Place], term: &Term) -> bool {
    places.iter().any(|place| place.subterm == term)
}

/// The entry within the rule block of the first risky place that is not
/// covered; none for a rule that passes.
pub fn first_uncovered(certificate: &Certificate, rule: &Rule) -> Option<usize> {
    let open = open_places(certificate, rule);
    #[cfg(test)]
    let open = slip::hashes::open_for_cover(certificate, rule).unwrap_or(open);
    let hats = sure_hats(certificate, &rule.conclusion);
    let mut places = places(&rule.conclusion);
    #[cfg(test)]
    slip::drop_places(&mut places);
    #[cfg(test)]
    let mut places = slip::hashes::places_of_conclusion(&rule.conclusion).unwrap_or(places);
    places.retain(|place| is_risky(certificate, place));
    let uncovered = places.iter().find(|place| {
        #[cfg(test)]
        if let Some(hats) = slip::hashes::hats_reaching(&hats, &rule.conclusion, place) {
            return !is_covered(&hats, &open, place);
        }
        !is_covered(&hats, &open, place)
    })?;
    Some(rule.premise_entries() + uncovered.entry)
}
