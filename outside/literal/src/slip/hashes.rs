//! Wrong readings of hashes and signatures.

use super::{is, Slip, CURRENT};
use crate::atom::Atom;
use crate::block::Entry;
use crate::hats::{is_listed, open_among, stands_at, Exception, SureHat};
use crate::numbers::{atom_kind, kind, tag};
use crate::read::{Certificate, Rule};
use crate::term::{at_or_above, joined, places, subterms, walked, Path, Place, Symbol, Term};

// Places.

/// What a conclusion's places are by a wrong reading; none if no such slip is on.
pub fn places_of_conclusion(conclusion: &Term) -> Option<Vec<Place<'_>>> {
    Some(match CURRENT.get()? {
        Slip::BelowHashRisky => subterms(conclusion),
        Slip::DeepBelowHashRisky => all_but_messages_of_hashes(conclusion),
        Slip::VariableBelowHashRisky => {
            with_more(conclusion, |_, place| place.subterm.is_variable())
        }
        Slip::EncryptionBelowHashRisky => with_more(conclusion, |hash, place| {
            has_between(conclusion, hash, place, Term::is_encryption)
        }),
        Slip::SignatureBelowHashRisky => with_more(conclusion, |hash, place| {
            has_between(conclusion, hash, place, Term::is_signature)
        }),
        Slip::HashNotRisky => places_but(conclusion, Term::is_hash),
        Slip::BelowSignatureNotRisky => places_above_signatures(conclusion),
        Slip::SignatureNotRisky => places_but(conclusion, Term::is_signature),
        _ => return None,
    })
}

/// What covers by standing open in the premise.
pub fn open_for_cover<'a>(certificate: &Certificate, rule: &'a Rule) -> Option<Vec<Place<'a>>> {
    let premise = rule.premise.as_ref()?;
    let all = match CURRENT.get()? {
        Slip::BelowHashCovers => subterms(premise),
        Slip::DeepBelowHashCovers => all_but_messages_of_hashes(premise),
        Slip::HashDoesNotCover => places_but(premise, Term::is_hash),
        Slip::BelowSignatureDoesNotCover => places_above_signatures(premise),
        Slip::SignatureDoesNotCover => places_but(premise, Term::is_signature),
        _ => return None,
    };
    Some(open_among(certificate, premise, all))
}

/// Where 15 looks for a secret.
pub fn open_for_secrets<'a>(certificate: &Certificate, rule: &'a Rule) -> Option<Vec<Place<'a>>> {
    let premise = rule.premise.as_ref()?;
    let all = match CURRENT.get()? {
        Slip::BelowHashOpenSecret => subterms(premise),
        Slip::BelowSignatureNoOpenSecret => places_above_signatures(premise),
        _ => return None,
    };
    Some(open_among(certificate, premise, all))
}

/// The topmost hash strictly above the path.
fn hash_above(term: &Term, path: &Path) -> Option<Path> {
    let mut hashes = subterms(term).into_iter().filter(|s| s.subterm.is_hash());
    let hash = hashes.find(|hash| hash.path != *path && at_or_above(&hash.path, path))?;
    Some(hash.path)
}

/// The places, and those below a hash that are wanted.
fn with_more<'a>(term: &'a Term, wanted: impl Fn(&Path, &Place) -> bool) -> Vec<Place<'a>> {
    let mut all = subterms(term);
    all.retain(|place| hash_above(term, &place.path).is_none_or(|hash| wanted(&hash, place)));
    all
}

/// Only what stands directly below a hash is no place.
fn all_but_messages_of_hashes(term: &Term) -> Vec<Place<'_>> {
    with_more(term, |hash, place| place.path.len() > hash.len() + 1)
}

/// Whether such a subterm stands below the hash and strictly above the place.
fn has_between(term: &Term, hash: &Path, place: &Place, wanted: fn(&Term) -> bool) -> bool {
    subterms(term).iter().any(|s| {
        let is_between = at_or_above(hash, &s.path) && at_or_above(&s.path, &place.path);
        is_between && s.path != place.path && wanted(s.subterm)
    })
}

fn places_but(term: &Term, left_out: fn(&Term) -> bool) -> Vec<Place<'_>> {
    let mut all = places(term);
    all.retain(|place| !left_out(place.subterm));
    all
}

fn places_above_signatures(term: &Term) -> Vec<Place<'_>> {
    walked(term, |upper| !upper.is_hash() && !upper.is_signature())
}

/// A hash whose message the premise shows.
pub fn is_shown_otherwise(open: &[Place], subterm: &Term) -> bool {
    let Term::Hash(message) = subterm else {
        return false;
    };
    is(Slip::HashCoveredByItsMessage) && stands_at(open, message)
}

/// The entry as if those below a hash were not there.
pub fn entry_told(rule: &Rule, entry: usize) -> usize {
    if !is(Slip::EntriesBelowHashNotCounted) {
        return entry;
    }
    let first = rule.premise_entries();
    let premise = rule.premise.as_ref().map_or(Vec::new(), places);
    let conclusion = places(&rule.conclusion).into_iter();
    let entries = premise.iter().map(|place| place.entry);
    let mut entries: Vec<usize> = entries.chain(conclusion.map(|p| first + p.entry)).collect();
    entries.retain(|before| *before < entry);
    entries.len()
}

// Hats.

/// A signature as an encryption under its key.
fn as_encryption<'a>(place: Place<'a>, slip: Slip) -> Place<'a> {
    match place.subterm {
        Term::Signature(message, key) if is(slip) => Place {
            subterm: Box::leak(Box::new(Term::Encryption(message.clone(), *key))),
            ..place
        },
        _ => place,
    }
}

pub fn hat_read(place: Place<'_>) -> Place<'_> {
    as_encryption(place, Slip::SignatureAsHat)
}

pub fn closing_read(place: Place<'_>) -> Place<'_> {
    as_encryption(place, Slip::SignatureCloses)
}

/// The hats that no signature cuts off from the place; none if all of them count.
pub fn hats_reaching(hats: &[SureHat], conclusion: &Term, place: &Place) -> Option<Vec<SureHat>> {
    let is_cut_off = |hat: &SureHat| has_between(conclusion, &hat.path, place, Term::is_signature);
    is(Slip::HatEndsAtSignature).then(|| {
        let reaching = hats.iter().filter(|hat| !is_cut_off(hat));
        reaching.cloned().collect()
    })
}

/// A mark of the good pattern below a hash as if it stood at the hash.
pub fn raise_marks(good: &Term, hat: Option<&mut SureHat>) {
    if let Some(hat) = hat.filter(|_| is(Slip::GoodMarkBelowHashCoversTheHash)) {
        raise(good, &hat.path, &mut hat.marks);
    }
}

/// The pattern's root stands at `path`.
fn raise(pattern: &Term, path: &Path, marks: &mut [Path]) {
    for mark in marks {
        if let Some(hash) = hash_above(pattern, &mark[path.len()..].to_vec()) {
            *mark = joined(path, &hash);
        }
    }
}

/// Where no place is.
const NOWHERE: u8 = u8::MAX;

/// The marks of a bad pattern below its hashes left out for a sure hat: the
/// pattern stays a marked one, or is one without marks if there is no other.
pub fn read_for_hat(bad: &mut Exception, path: &Path, pattern: &Term) {
    let takes_nothing = is(Slip::BadMarkBelowHashNotCounted);
    if !takes_nothing && !is(Slip::BadMarkBelowHashIsNoneForHat) {
        return;
    }
    if leave_out_marks(bad, path, pattern) && takes_nothing {
        bad.marks.push(vec![NOWHERE]);
    }
}

/// The same for an open place, or the marks as if they stood at the hash.
pub fn read_for_open(bad: &mut Exception, path: &Path, pattern: &Term) {
    if is(Slip::BadMarkBelowHashIsNoneForOpen) {
        leave_out_marks(bad, path, pattern);
    }
    if is(Slip::BadMarkBelowHashExposesTheHash) {
        raise(pattern, path, &mut bad.marks);
    }
}

/// Whether there were some.
fn leave_out_marks(bad: &mut Exception, path: &Path, pattern: &Term) -> bool {
    let before = bad.marks.len();
    bad.marks
        .retain(|mark| hash_above(pattern, &mark[path.len()..].to_vec()).is_none());
    bad.marks.len() < before
}

// Matching and sharing.

/// Different symbols that may be taken for the same.
enum Mistaken {
    SigningKeys,
    HashAndSignature,
    HashAndEncryption,
    /// Under the same key.
    SignatureAndEncryption,
}

fn mistaken(one: Symbol, other: Symbol) -> Option<Mistaken> {
    match (one, other) {
        (Symbol::Signature(_), Symbol::Signature(_)) => Some(Mistaken::SigningKeys),
        (Symbol::Hash, Symbol::Signature(_)) | (Symbol::Signature(_), Symbol::Hash) => {
            Some(Mistaken::HashAndSignature)
        }
        (Symbol::Hash, Symbol::Encryption(_)) | (Symbol::Encryption(_), Symbol::Hash) => {
            Some(Mistaken::HashAndEncryption)
        }
        (Symbol::Signature(one), Symbol::Encryption(other))
        | (Symbol::Encryption(one), Symbol::Signature(other))
            if one == other =>
        {
            Some(Mistaken::SignatureAndEncryption)
        }
        _ => None,
    }
}

/// Whether a pattern's symbol is taken for the term's.
pub fn is_matched_otherwise(pattern: Symbol, term: Symbol) -> bool {
    mistaken(pattern, term).is_some_and(|mistaken| {
        is(match mistaken {
            Mistaken::SigningKeys => Slip::SigningKeyNotMatched,
            Mistaken::HashAndSignature => Slip::HashMatchesSignature,
            Mistaken::HashAndEncryption => Slip::HashMatchesEncryption,
            Mistaken::SignatureAndEncryption => Slip::SignatureMatchesEncryption,
        })
    })
}

pub fn ends_matching(pattern: &Term) -> bool {
    is(Slip::MatchingEndsAtHash) && pattern.is_hash()
}

/// Whether two symbols are taken for the same in sharing.
pub fn is_shared_otherwise(one: Symbol, other: Symbol) -> bool {
    mistaken(one, other).is_some_and(|mistaken| {
        is(match mistaken {
            Mistaken::SigningKeys => Slip::SigningKeyNotShared,
            Mistaken::HashAndSignature => Slip::HashSharesSignature,
            Mistaken::HashAndEncryption => Slip::HashSharesEncryption,
            Mistaken::SignatureAndEncryption => Slip::SignatureSharesEncryption,
        })
    })
}

pub fn ends_sharing(symbol: Symbol) -> bool {
    is(Slip::SharingEndsAtHash) && symbol == Symbol::Hash
}

/// Whether what stands below is not asked for what it stands in.
pub fn ends_the_search_for_itself(symbol: Symbol) -> bool {
    match symbol {
        Symbol::Hash => is(Slip::VariableInItselfBelowHash),
        Symbol::Signature(_) => is(Slip::VariableInItselfBelowSignature),
        _ => false,
    }
}

// Reading and number 10.

pub fn may_be_pattern(term: &Term) -> bool {
    is(Slip::HashAsPattern) && term.is_hash() || is(Slip::SignatureAsPattern) && term.is_signature()
}

/// Wrong values and blocks for the tags 8 and 9.
pub fn entry_right_otherwise(atoms: &[Atom], block_kind: u8, entry: &Entry) -> Option<bool> {
    let is_pattern = matches!(block_kind, kind::GOOD | kind::BAD);
    let right = match (entry.first, CURRENT.get()?) {
        (tag::HASH, Slip::HashWithAnyValue) => true,
        (tag::HASH, Slip::HashRefusedInSecret) if block_kind == kind::SECRET => false,
        (tag::HASH, Slip::HashRefusedInPattern) if is_pattern => false,
        (tag::SIGNATURE, Slip::SignatureRefusedInSecret) if block_kind == kind::SECRET => false,
        (tag::SIGNATURE, Slip::SignatureRefusedInPattern) if is_pattern => false,
        (tag::SIGNATURE, slip) => signs_otherwise(slip, atoms.get(entry.value as usize)?)?,
        _ => return None,
    };
    Some(right && entry.second == 0)
}

fn signs_otherwise(slip: Slip, atom: &Atom) -> Option<bool> {
    let is_public = atom.kind == atom_kind::PUBLIC;
    match slip {
        Slip::SignatureWithPublicKey if is_public => Some(true),
        Slip::SignatureWithSymmetricKey if atom.kind == atom_kind::SYMMETRIC => Some(true),
        Slip::SignatureWithNoKey if !atom.is_key() => Some(true),
        Slip::SignatureNamesPublicKey => Some(is_public),
        _ => None,
    }
}

/// Whether a secret is weakly closed by a wrong reading.
pub fn closed_otherwise(certificate: &Certificate, secret: &Term) -> Option<bool> {
    let listed = |term: &Term| is_listed(term, &certificate.secrets);
    let key_listed = |key: u16| listed(&Term::Atom(key));
    Some(match (secret, CURRENT.get()?) {
        (Term::Hash(_), Slip::HashAlwaysClosed) => true,
        (Term::Hash(message), Slip::HashClosedByAnyPart) => {
            subterms(message).iter().any(|part| listed(part.subterm))
        }
        (Term::Hash(message), Slip::HashClosedByAllParts) => {
            subterms(message).iter().all(|part| listed(part.subterm))
        }
        (Term::Signature(..), Slip::SignatureAlwaysClosed) => true,
        (Term::Signature(message, _), Slip::SignatureClosedByMessageOnly) => listed(message),
        (Term::Signature(_, key), Slip::SignatureClosedByKeyOnly) => key_listed(*key),
        (Term::Signature(message, key), Slip::SignatureClosedByBoth) => {
            listed(message) && key_listed(*key)
        }
        (Term::Signature(message, key), Slip::SignatureClosedByInverse) => {
            listed(message) || key_listed(certificate.atoms[*key as usize].partner)
        }
        _ => return None,
    })
}

pub const ALL: [Slip; 61] = [
    Slip::BelowHashRisky,
    Slip::BelowHashCovers,
    Slip::BelowHashOpenSecret,
    Slip::DeepBelowHashRisky,
    Slip::DeepBelowHashCovers,
    Slip::VariableBelowHashRisky,
    Slip::EncryptionBelowHashRisky,
    Slip::SignatureBelowHashRisky,
    Slip::HashNotRisky,
    Slip::HashDoesNotCover,
    Slip::HashCoveredByItsMessage,
    Slip::BelowSignatureNotRisky,
    Slip::BelowSignatureDoesNotCover,
    Slip::BelowSignatureNoOpenSecret,
    Slip::SignatureNotRisky,
    Slip::SignatureDoesNotCover,
    Slip::SigningKeysAsPlaces,
    Slip::EntriesBelowHashNotCounted,
    Slip::SignatureAsHat,
    Slip::SignatureCloses,
    Slip::HatEndsAtSignature,
    Slip::GoodMarkBelowHashCoversTheHash,
    Slip::BadMarkBelowHashNotCounted,
    Slip::BadMarkBelowHashIsNoneForHat,
    Slip::BadMarkBelowHashIsNoneForOpen,
    Slip::BadMarkBelowHashExposesTheHash,
    Slip::SigningKeyNotMatched,
    Slip::SigningKeyNotShared,
    Slip::MatchingEndsAtHash,
    Slip::SharingEndsAtHash,
    Slip::HashMatchesSignature,
    Slip::HashMatchesEncryption,
    Slip::HashSharesSignature,
    Slip::HashSharesEncryption,
    Slip::SignatureMatchesEncryption,
    Slip::SignatureSharesEncryption,
    Slip::VariableInItselfBelowHash,
    Slip::VariableInItselfBelowSignature,
    Slip::NonceMatchesHash,
    Slip::NonceMatchesSignature,
    Slip::NonceSharesHash,
    Slip::NonceSharesSignature,
    Slip::HashWithAnyValue,
    Slip::SignatureWithPublicKey,
    Slip::SignatureWithSymmetricKey,
    Slip::SignatureWithNoKey,
    Slip::SignatureNamesPublicKey,
    Slip::HashRefusedInSecret,
    Slip::HashRefusedInPattern,
    Slip::SignatureRefusedInSecret,
    Slip::SignatureRefusedInPattern,
    Slip::HashAsPattern,
    Slip::SignatureAsPattern,
    Slip::HashAlwaysClosed,
    Slip::HashClosedByAnyPart,
    Slip::HashClosedByAllParts,
    Slip::SignatureAlwaysClosed,
    Slip::SignatureClosedByMessageOnly,
    Slip::SignatureClosedByKeyOnly,
    Slip::SignatureClosedByBoth,
    Slip::SignatureClosedByInverse,
];
