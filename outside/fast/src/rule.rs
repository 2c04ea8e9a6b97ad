//! Numbers 15 and 12: the places of one rule, as sets of entries. What depends
//! on a subterm alone is asked at most once for it, and only if a place below it
//! still counts.

use crate::family::Family;
use crate::numbers::{kind, ORDINARY, SLOTS};
use crate::read::Certificate;
use crate::term::{variable_bit, Bits, Occurrences, Term};
use crate::unify::{have_solution, Room};
use crate::walk::{instance, instance_without_variables, same_term};
use crate::walk::{side_by_side, Meetings, Parts, Shared, Watched};

/// Why a rule is refused, at which entry of its block.
pub enum Wrong {
    OpenSecret(usize),
    Uncovered(usize),
}

/// With room for so many variables: the ordinary ones, or all.
pub struct Judge<'a, const ROOM: usize> {
    terms: &'a [Term; SLOTS],
    /// Secrets that are no atoms.
    secrets: &'a Family,
    goods: Family,
    /// Bad patterns without marks.
    bads: Family,
    marked_bads: Family,
    work: Work<ROOM>,
}

/// Room for sharing tests.
struct Work<const ROOM: usize> {
    parts: Parts,
    meetings: Meetings,
    room: Room,
}

impl<'a, const ROOM: usize> Judge<'a, ROOM> {
    pub fn new(certificate: &'a Certificate, secrets: &'a Family) -> Judge<'a, ROOM> {
        let terms = &certificate.terms;
        let bads = certificate.blocks_of(kind::BAD);
        Judge {
            terms,
            secrets,
            goods: Family::of(terms, certificate.blocks_of(kind::GOOD)),
            bads: Family::only(terms, bads.clone(), |bad| !bad.has_mark()),
            marked_bads: Family::only(terms, bads, Term::has_mark),
            work: Work {
                parts: Parts::NONE,
                meetings: Meetings::NONE,
                room: Room::EMPTY,
            },
        }
    }

    /// Numbers 15 and 12 of one rule. The premise's places are asked once for
    /// both.
    pub fn rule(&mut self, premise: &Term, conclusion: &Term) -> Result<(), Wrong> {
        let nested = self.sharing_with_nested_secret(conclusion);
        let variables = conclusion.variables & conclusion.places;
        let mut risky = variables | conclusion.secret_atoms | nested;
        if premise.length() > 0 {
            let secrets = self.secrets_in(premise);
            let same = match risky {
                0 => 0,
                _ => variables_of_both(premise, conclusion) | twins(conclusion, nested, premise),
            };
            let open = self.open_places(premise, secrets | same);
            if let Some(place) = first(open & secrets) {
                return Err(Wrong::OpenSecret(place));
            }
            risky &= !same_as_open(premise, open, conclusion, nested);
        }
        match first(self.without_sure_hat(conclusion, risky)) {
            None => Ok(()),
            Some(place) => Err(Wrong::Uncovered(premise.length() + place)),
        }
    }

    /// Number 15 alone: the first open place of the premise where a secret
    /// stands.
    pub fn first_open_secret(&mut self, premise: &Term) -> Option<usize> {
        let secrets = self.secrets_in(premise);
        first(self.open_places(premise, secrets))
    }

    /// The places where a listed secret stands.
    fn secrets_in(&self, premise: &Term) -> u64 {
        premise.secret_atoms | self.nested_secrets(premise)
    }

    /// The places whose subterm shares an instance with a nested secret.
    fn sharing_with_nested_secret(&self, conclusion: &Term) -> u64 {
        self.with_nested_secret(conclusion, |i, secret| {
            instance_without_variables::<ROOM>(conclusion, i, secret)
        })
    }

    /// The places where a nested secret itself stands.
    fn nested_secrets(&self, premise: &Term) -> u64 {
        self.with_nested_secret(premise, |i, secret| same_term(premise, i, secret))
    }

    /// The places that some nested secret answers for, by a test that tells
    /// the secret's entry of a clash. No place is longer than its secret.
    #[inline(always)]
    fn with_nested_secret(
        &self,
        term: &Term,
        test: impl Fn(usize, &Term) -> Result<(), usize>,
    ) -> u64 {
        let mut found = 0;
        if self.secrets.longest == 0 {
            return found;
        }
        for i in Bits(term.nested & term.places) {
            if term.size(i) <= self.secrets.longest {
                let yes = self.secrets.any(term.symbol(i), |member| {
                    test(i, &self.terms[self.secrets.slot(member)])
                });
                found |= (yes as u64) << i;
            }
        }
        found
    }

    /// Of these places of the premise, the open ones.
    fn open_places(&mut self, premise: &Term, mut places: u64) -> u64 {
        let mut encryptions = premise.encryptions;
        while encryptions != 0 && places != 0 {
            let i = encryptions.trailing_zeros() as usize;
            encryptions &= encryptions - 1;
            let below = premise.below(i);
            if places & below != 0 && self.closes(premise, i) {
                let exposed = marked::<ROOM>(self.terms, &self.marked_bads, premise, i);
                places &= !below | exposed;
                if exposed == 0 {
                    encryptions &= !below;
                }
            }
        }
        places
    }

    /// All but what a marked bad pattern exposes.
    fn closes(&mut self, premise: &Term, i: usize) -> bool {
        let Judge {
            terms,
            goods,
            bads,
            work,
            ..
        } = self;
        work.shares(terms, goods, premise, i)
            && !bads.any(premise.symbol(i), |member| {
                let pattern = &terms[bads.slot(member)];
                instance::<ROOM>(pattern, bads.watched(member), premise, i).map(|_| ())
            })
    }

    /// Of these places of the conclusion, those without a sure hat.
    fn without_sure_hat(&mut self, conclusion: &Term, mut places: u64) -> u64 {
        let mut encryptions = conclusion.encryptions;
        while encryptions != 0 && places != 0 {
            let i = encryptions.trailing_zeros() as usize;
            encryptions &= encryptions - 1;
            if places & conclusion.below(i) == 0 {
                continue;
            }
            let covered = places & marked::<ROOM>(self.terms, &self.goods, conclusion, i);
            let Judge {
                terms,
                bads,
                marked_bads,
                work,
                ..
            } = self;
            if covered != 0 && !work.shares(terms, bads, conclusion, i) {
                places &= !work.not_exposed(terms, marked_bads, conclusion, i, covered);
            }
        }
        places
    }
}

/// The places at or below a mark of a pattern that the subterm at `i` is, with
/// its variables replaced.
fn marked<const ROOM: usize>(terms: &[Term; SLOTS], family: &Family, term: &Term, i: usize) -> u64 {
    let mut all = 0;
    family.any(term.symbol(i), |member| {
        let pattern = &terms[family.slot(member)];
        all |= instance::<ROOM>(pattern, family.watched(member), term, i)?;
        Err(usize::MAX)
    });
    all
}

impl<const ROOM: usize> Work<ROOM> {
    /// The subterm at `i` shares an instance with some member.
    fn shares(&mut self, terms: &[Term; SLOTS], family: &Family, term: &Term, i: usize) -> bool {
        let mut known = None;
        family.any(term.symbol(i), |member| {
            let pattern = &terms[family.slot(member)];
            self.parts.find(term, i, pattern)?;
            self.share(term, i, &mut known, pattern, family.watched(member))
        })
    }

    /// Of these places below `i`, those that no member which shares an instance
    /// with the subterm at `i` has a mark at, above or below.
    #[inline(never)]
    fn not_exposed(
        &mut self,
        terms: &[Term; SLOTS],
        family: &Family,
        term: &Term,
        i: usize,
        mut places: u64,
    ) -> u64 {
        let (mut known, mut near) = (None, None);
        family.any(term.symbol(i), |member| {
            let pattern = &terms[family.slot(member)];
            let watched = family.watched(member);
            self.parts.find(term, i, pattern)?;
            let near = near.get_or_insert_with(|| term.on_one_way(term.below(i), places));
            let marks = self.parts.beside_marks(watched.marked) & *near;
            if marks != 0 {
                self.share(term, i, &mut known, pattern, watched)?;
                places &= !term.on_one_way(places, marks);
            }
            match places {
                0 => Ok(()),
                _ => Err(usize::MAX),
            }
        });
        places
    }

    /// With the parts found: an instance is shared, or the last entry of the
    /// pattern that was needed to see that none is.
    #[inline(always)]
    fn share(
        &mut self,
        term: &Term,
        i: usize,
        known: &mut Option<Occurrences>,
        pattern: &Term,
        watched: Watched,
    ) -> Result<(), usize> {
        if ROOM > ORDINARY {
            self.parts.nonces_fit(term, pattern)?;
        }
        if watched.repeated == 0 && !self.parts.term_is_replaced(term, pattern) {
            return Ok(());
        }
        let occurrences = known.get_or_insert_with(|| term.occurrences(i));
        let shared = self
            .parts
            .share::<ROOM>(term, occurrences, pattern, watched);
        match shared {
            Shared::Some => Ok(()),
            Shared::Never(last) => Err(last),
            Shared::Open => self.shares_by_classes(term, i, pattern),
        }
    }

    fn shares_by_classes(&mut self, term: &Term, i: usize, pattern: &Term) -> Result<(), usize> {
        side_by_side(term, i, pattern, &mut self.meetings)?;
        let meetings = &self.meetings;
        match have_solution::<ROOM>(term, pattern, meetings, &mut self.room) {
            true => Ok(()),
            false => Err(pattern.length() - 1),
        }
    }
}

fn first(places: u64) -> Option<usize> {
    (places != 0).then_some(places.trailing_zeros() as usize)
}

/// The set of the variables at these places.
fn variables_at(term: &Term, places: u64) -> u64 {
    Bits(term.variables & places).fold(0, |set, i| set | variable_bit(term.symbol(i)))
}

/// The places of these variables.
fn places_of(term: &Term, variables: u64) -> u64 {
    Bits(term.variables).fold(0, |places, i| {
        let here = variable_bit(term.symbol(i)) & variables != 0;
        places | (here as u64) << i
    })
}

fn variables_of_both(premise: &Term, conclusion: &Term) -> u64 {
    premise.places & places_of(premise, variables_at(conclusion, conclusion.places))
}

/// The places of `other` with the same subterm as one of these places.
fn twins(term: &Term, places: u64, other: &Term) -> u64 {
    let nested = other.nested & other.places;
    Bits(places).fold(0, |found, i| found | twins_of(term, i, other, nested))
}

/// Of these places of `other`, those with the same subterm.
fn twins_of(term: &Term, i: usize, other: &Term, places: u64) -> u64 {
    Bits(places)
        .filter(|j| other.size(*j) == term.size(i) && other.subterm(*j) == term.subterm(i))
        .fold(0, |found, j| found | 1 << j)
}

/// The places of the conclusion whose subterm stands at one of these places
/// of the premise: any variable, and the nested ones asked for.
fn same_as_open(premise: &Term, open: u64, conclusion: &Term, nested: u64) -> u64 {
    let mut covered = places_of(conclusion, variables_at(premise, open));
    for i in Bits(nested) {
        let stands = twins_of(conclusion, i, premise, open) != 0;
        covered |= (stands as u64) << i;
    }
    covered
}
