//! Wrong readings of what the bad patterns take from a hat.

use super::{hashes, is, nonces, Slip, CURRENT};
use crate::hats::{marks_below, Exception, Meets};
use crate::read::{Certificate, Listed};
use crate::share::shares;
use crate::term::{joined, matches, subterms, Path, Place};

/// Sure hats of conclusions, or open places of premises.
#[derive(Clone, Copy)]
enum Side {
    Hat,
    Open,
}

impl Side {
    /// Whether this side's one of two slips is on.
    fn slips(self, for_hat: Slip, for_open: Slip) -> bool {
        is(match self {
            Side::Hat => for_hat,
            Side::Open => for_open,
        })
    }
}

/// What a sure hat at this place loses; none if no slip is on.
pub fn of_hat(certificate: &Certificate, place: &Place) -> Option<Vec<Exception>> {
    CURRENT.get()?;
    if is(Slip::BadAsInstanceForHat) {
        return Some(read(certificate, Side::Hat, place, matches));
    }
    let found = read(certificate, Side::Hat, place, shares);
    Some(match is(Slip::MarkBelowCountedIfItIsThere) {
        true => with_marks_that_are_there(place, found),
        false => found,
    })
}

/// What an encryption of a premise lets through; none if no slip is on.
pub fn of_open(certificate: &Certificate, place: &Place) -> Option<Vec<Exception>> {
    CURRENT.get()?;
    if is(Slip::BadNotReadForOpen) {
        return Some(Vec::new());
    }
    let meets: Meets = match is(Slip::BadAsSharingForOpen) {
        true => shares,
        false => matches,
    };
    Some(read(certificate, Side::Open, place, meets))
}

fn read(certificate: &Certificate, side: Side, place: &Place, meets: Meets) -> Vec<Exception> {
    let kept = kept(side, &certificate.bads);
    let atoms = &certificate.atoms;
    let met = kept
        .iter()
        .filter(|bad| meets(atoms, &bad.term, place.subterm));
    let mut found: Vec<Exception> = met.map(|bad| exception(side, &place.path, bad)).collect();
    if side.slips(
        Slip::MarkedBadTakesNothingForHat,
        Slip::MarkedBadTakesNothingForOpen,
    ) {
        found.retain(|bad| bad.marks.is_empty());
    }
    if side.slips(Slip::MarkOfAnotherBadForHat, Slip::MarkOfAnotherBadForOpen) {
        let all = kept.iter().flat_map(|b| marks_below(&place.path, &b.term));
        let all: Vec<Path> = all.collect();
        let marked = found.iter_mut().filter(|bad| !bad.marks.is_empty());
        marked.for_each(|bad| bad.marks = all.clone());
    }
    found
}

/// All bad blocks, or only one of them.
fn kept(side: Side, bads: &[Listed]) -> &[Listed] {
    let last = bads.len().max(1) - 1;
    if side.slips(Slip::FirstBadOnlyForHat, Slip::FirstBadOnlyForOpen) {
        return &bads[..bads.len().min(1)];
    }
    if side.slips(Slip::LastBadOnlyForHat, Slip::LastBadOnlyForOpen) {
        return &bads[last..];
    }
    bads
}

fn exception(side: Side, path: &Path, bad: &Listed) -> Exception {
    let mut exception = Exception::of(path, bad);
    if is(Slip::MarkedNonceNoMarkInBad) {
        exception.marks = nonces::marks_but_nonces(path, &bad.term);
    }
    if side.slips(Slip::PlainAsMarkForHat, Slip::PlainAsMarkForOpen) {
        let all = subterms(&bad.term).into_iter();
        let variables = all.filter(|place| place.subterm.is_variable());
        exception.marks = variables.map(|v| joined(path, &v.path)).collect();
    }
    if side.slips(
        Slip::MarkedBadTakesAllForHat,
        Slip::MarkedBadTakesAllForOpen,
    ) {
        exception.marks.clear();
    }
    match side {
        Side::Hat => hashes::read_for_hat(&mut exception, path, &bad.term),
        Side::Open => hashes::read_for_open(&mut exception, path, &bad.term),
    }
    exception
}

/// Marks that stand below a variable of the conclusion forgotten.
fn with_marks_that_are_there(place: &Place, found: Vec<Exception>) -> Vec<Exception> {
    let there: Vec<Path> = subterms(place.subterm)
        .iter()
        .map(|inner| joined(&place.path, &inner.path))
        .collect();
    let (marked, mut kept): (Vec<_>, Vec<_>) =
        found.into_iter().partition(|bad| !bad.marks.is_empty());
    for mut bad in marked {
        bad.marks.retain(|mark| there.contains(mark));
        kept.extend(Some(bad).filter(|bad| !bad.marks.is_empty()));
    }
    kept
}

/// The bad patterns, if 11 is asked of them.
pub fn asked_for_their_root_key(certificate: &Certificate) -> &[Listed] {
    match is(Slip::RootKeyOfBadAsked) {
        true => &certificate.bads,
        false => &[],
    }
}
