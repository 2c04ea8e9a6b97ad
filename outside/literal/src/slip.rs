//! Test builds only: wrong readings of the document, switched on one at a
//! time, to see that the generated files or calls, or the blocks with a known
//! check, tell each from the right reading.

use crate::block;
use crate::hats::{marks_below, Closing, Exception, SureHat};
use crate::numbers::{atom_kind, kind, ENTRIES, MODULUS, MOST_ATOM_BLOCKS};
use crate::read::{check_right, read_atoms, refuse, Atom, Certificate, Rule};
use crate::term::{at_or_above, joined, strictly_above, Path, Place, Symbol, Term};
use crate::verdict::Refusal;
use std::cell::Cell;

pub mod bads;
pub mod checks;
pub mod hashes;
pub mod loaders;
pub mod nonces;
pub mod open_secrets;

#[derive(Clone, Copy, Debug, PartialEq, Eq)]
pub enum Slip {
    // Sure hats.
    BadAsInstanceForHat,
    MarkNotAsked,
    MarkStrictlyAbove,
    MarkAtThePlaceOnly,
    MarkOfAnotherGood,
    HatAtThePlace,
    // Open places.
    OneEncryptionEnough,
    EveryPlaceOpen,
    GoodAsInstanceForOpen,
    BadAsSharingForOpen,
    BadNotReadForOpen,
    // Lists.
    LastBadOnlyForHat,
    LastBadOnlyForOpen,
    FirstBadOnlyForHat,
    FirstBadOnlyForOpen,
    FirstRuleOnly,
    // Marks of bad patterns.
    MarkRefusedInBad,
    MarkedBadTakesAllForHat,
    MarkedBadTakesAllForOpen,
    MarkedBadTakesNothingForHat,
    MarkedBadTakesNothingForOpen,
    MarkOfAnotherBadForHat,
    MarkOfAnotherBadForOpen,
    PlainAsMarkForHat,
    PlainAsMarkForOpen,
    BadMarkAboveNotCountedForHat,
    BadMarkAtThePlaceOnlyForOpen,
    MarkBelowNotCountedForHat,
    MarkBelowCountedForVariablesOnly,
    MarkBelowCountedIfItIsThere,
    MarkBelowCountedForOpen,
    BadMarkCovers,
    RootKeyOfBadAsked,
    // Nonce variables.
    NonceMatchesPrincipal,
    NonceMatchesKey,
    NonceMatchesPair,
    NonceMatchesEncryption,
    NonceMatchesVariable,
    NonceVariableNotMatched,
    ListedNonceNotMatched,
    KnownNonceOnlyMatched,
    NonceSharesPrincipal,
    NonceSharesKey,
    NonceSharesPair,
    NonceSharesEncryption,
    NonceVariablesNotShared,
    ListedNonceNotShared,
    KnownNonceOnlyShared,
    ListedNoncesOnly,
    RangeForgotten,
    NonceAsPlain,
    MarkedNonceAsMarked,
    MarkedNonceAsNonce,
    MarkedNonceNoMark,
    MarkedNonceNoMarkInBad,
    NonceVariableNotRisky,
    NonceVariableRiskyBySharing,
    ShownByItsNumber,
    NonceInSecret,
    MarkedNonceInRule,
    MarkedNonceRefusedInBad,
    NonceValuesToFifteen,
    // Hashes and signatures: places.
    BelowHashRisky,
    BelowHashCovers,
    BelowHashOpenSecret,
    DeepBelowHashRisky,
    DeepBelowHashCovers,
    VariableBelowHashRisky,
    EncryptionBelowHashRisky,
    SignatureBelowHashRisky,
    HashNotRisky,
    HashDoesNotCover,
    HashCoveredByItsMessage,
    BelowSignatureNotRisky,
    BelowSignatureDoesNotCover,
    BelowSignatureNoOpenSecret,
    SignatureNotRisky,
    SignatureDoesNotCover,
    SigningKeysAsPlaces,
    EntriesBelowHashNotCounted,
    // Hashes and signatures: hats.
    SignatureAsHat,
    SignatureCloses,
    HatEndsAtSignature,
    GoodMarkBelowHashCoversTheHash,
    BadMarkBelowHashNotCounted,
    BadMarkBelowHashIsNoneForHat,
    BadMarkBelowHashIsNoneForOpen,
    BadMarkBelowHashExposesTheHash,
    // Hashes and signatures: matching and sharing.
    SigningKeyNotMatched,
    SigningKeyNotShared,
    MatchingEndsAtHash,
    SharingEndsAtHash,
    HashMatchesSignature,
    HashMatchesEncryption,
    HashSharesSignature,
    HashSharesEncryption,
    SignatureMatchesEncryption,
    SignatureSharesEncryption,
    VariableInItselfBelowHash,
    VariableInItselfBelowSignature,
    NonceMatchesHash,
    NonceMatchesSignature,
    NonceSharesHash,
    NonceSharesSignature,
    // Hashes and signatures: reading and number 10.
    HashWithAnyValue,
    SignatureWithPublicKey,
    SignatureWithSymmetricKey,
    SignatureWithNoKey,
    SignatureNamesPublicKey,
    HashRefusedInSecret,
    HashRefusedInPattern,
    SignatureRefusedInSecret,
    SignatureRefusedInPattern,
    HashAsPattern,
    SignatureAsPattern,
    HashAlwaysClosed,
    HashClosedByAnyPart,
    HashClosedByAllParts,
    SignatureAlwaysClosed,
    SignatureClosedByMessageOnly,
    SignatureClosedByKeyOnly,
    SignatureClosedByBoth,
    SignatureClosedByInverse,
    // Places and rules.
    KeysAsPlaces,
    VariableAtFirstOccurrenceOnly,
    VariableNotRisky,
    RiskyByEquality,
    RootNoPlace,
    PremiseNotRead,
    // Open secrets.
    OpenSecretNotRefused,
    OpenSecretPasses,
    OpenSecretBySharing,
    OpenSecretBySharingOfNested,
    OpenSecretAtomsOnly,
    OpenSecretAsWholePremiseOnly,
    OpenSecretAtClosedPlace,
    OpenSecretInConclusion,
    OpenSecretOnlyIfUncovered,
    OpenSecretInFirstRuleOnly,
    OpenSecretOfLastRule,
    OpenSecretBeforeKeys,
    LastOpenSecret,
    OpenSecretByOrderOfSecrets,
    TwelveBeforeFifteen,
    FifteenRuleByRule,
    TwelveBeforeFifteenRuleByRule,
    // Matching and sharing.
    RepeatedVariableFree,
    MarkedAsPlain,
    VariableInItself,
    VariablesNotApart,
    // Reading and the numbers.
    CheckUnreduced,
    ChecksOverAllBlocksFirst,
    UnusedNotRead,
    PartnerNotNamedBack,
    AnyAtomAsKey,
    EightBeforeSeven,
    PlaceWithinConclusion,
    TenBeforeNine,
    ClosedByInverse,
    RootKeyItself,
    // Two atom blocks.
    SecondNumberedFromZero,
    SecondNumberedOneOn,
    SecondNotReached,
    SecondIfItsCheckIsRight,
    FirstNotFull,
    FirstAtomsAtOnce,
    AtomsAfterTheNextCheck,
    AtomByItsNumber,
    PartnerInItsBlock,
    SymmetricNamesItsPlace,
    ThirdAtomBlock,
    // A tally for each loader; told apart by calls.
    NextLoaderRaised,
    FirstLoaderRaised,
    EveryLoaderRaised,
    OtherLoadersForgotten,
    AcceptedAsRefused,
    RefusedAsAccepted,
    WrongLengthNotCounted,
    CountWraps,
    FullRefusedKeepsAccepted,
    FullAcceptedKeepsRefused,
    FullCountRefused,
    LoaderModulo8,
    LoaderModulo256,
    LoaderModulo65536,
    LoaderSigned,
    LoaderEightAllowed,
    LoaderSevenRefused,
    SixteenRaisesACount,
    SixteenAfterTheFile,
    SixteenAfterTheLength,
    SixteenForgetsTheTally,
    SixteenNamesTheLoader,
    SixteenHasAPart,
    // The check of a block; told apart by blocks.
    WeightsFrom507,
    WeightsFrom509,
    WeightsRising,
    StoredBytesInA,
    StoredBytesInB,
    AIn16Bits,
    BIn16Bits,
    PartsIn16Bits,
    ModulusLeft,
    SumsModulo65536,
}

thread_local! {
    static CURRENT: Cell<Option<Slip>> = const { Cell::new(None) };
}

pub fn is(slip: Slip) -> bool {
    CURRENT.get() == Some(slip)
}

/// Runs `work` with one slip switched on.
pub fn with<R>(slip: Slip, work: impl FnOnce() -> R) -> R {
    CURRENT.set(Some(slip));
    let result = work();
    CURRENT.set(None);
    result
}

/// An encryption's or a signature's key as if it stood beside the message.
pub fn add_key_place(path: &Path, entry: usize, symbol: Symbol, found: &mut Vec<Place<'_>>) {
    let key = match symbol {
        Symbol::Encryption(key) if is(Slip::KeysAsPlaces) => key,
        Symbol::Signature(key) if is(Slip::SigningKeysAsPlaces) => key,
        _ => return,
    };
    found.push(Place {
        path: joined(path, &[1]),
        entry,
        subterm: Box::leak(Box::new(Term::Atom(key))),
    });
}

/// A marked variable read as the plain one of its number.
pub fn variable_read(variable: &Term) -> Term {
    match variable {
        Term::Marked(number) if is(Slip::MarkedAsPlain) => Term::Plain(*number),
        _ => nonces::variable_read(variable),
    }
}

/// One good pattern matches, the mark may be another's.
pub fn give_more_marks(certificate: &Certificate, hat: Option<&mut SureHat>) {
    let others = match is(Slip::BadMarkCovers) {
        true => &certificate.bads,
        false => &certificate.goods,
    };
    if !is(Slip::MarkOfAnotherGood) && !is(Slip::BadMarkCovers) {
        return;
    }
    if let Some(hat) = hat {
        let more = others.iter().flat_map(|p| marks_below(&hat.path, &p.term));
        hat.marks.extend(more.collect::<Vec<_>>());
    }
}

/// Keeps the places that a wrong reading calls open; false if none is on.
pub fn open_otherwise(all: &mut Vec<Place>, closings: &[Closing]) -> bool {
    if is(Slip::OneEncryptionEnough) {
        let upper = all.iter().filter(|upper| upper.subterm.is_encryption());
        let upper: Vec<Path> = upper.map(|upper| upper.path.clone()).collect();
        all.retain(|place| {
            let above = upper.iter().filter(|u| strictly_above(u, &place.path));
            let closing = closings.iter().filter(|upper| upper.closes(place));
            let above = above.count();
            above == 0 || closing.count() < above
        });
        return true;
    }
    is(Slip::EveryPlaceOpen)
}

/// Wrong ways to ask a bad pattern's marks about a place of a premise.
pub fn exposes_otherwise(bad: &Exception, place: &Place) -> Option<bool> {
    let path = &place.path;
    if is(Slip::BadMarkAtThePlaceOnlyForOpen) {
        return some_mark(bad, |mark| mark == path);
    }
    if is(Slip::MarkBelowCountedForOpen) {
        return some_mark(bad, |m| at_or_above(m, path) || at_or_above(path, m));
    }
    None
}

/// Wrong ways to ask a bad pattern's marks about a place of a conclusion.
pub fn may_expose_otherwise(bad: &Exception, place: &Place) -> Option<bool> {
    let path = &place.path;
    if is(Slip::BadMarkAboveNotCountedForHat) {
        return some_mark(bad, |mark| at_or_above(path, mark));
    }
    let for_variables_only = is(Slip::MarkBelowCountedForVariablesOnly);
    if is(Slip::MarkBelowNotCountedForHat) || for_variables_only && !place.subterm.is_variable() {
        return some_mark(bad, |mark| at_or_above(mark, path));
    }
    None
}

/// Whether a mark is wanted; none for a bad pattern without marks.
fn some_mark(bad: &Exception, wanted: impl Fn(&Path) -> bool) -> Option<bool> {
    (!bad.marks.is_empty()).then(|| bad.marks.iter().any(wanted))
}

/// Places left out of the judging of a conclusion.
pub fn drop_places(places: &mut Vec<Place<'_>>) {
    if is(Slip::RootNoPlace) {
        places.remove(0);
    }
    if is(Slip::VariableAtFirstOccurrenceOnly) {
        let mut seen: Vec<Term> = Vec::new();
        places.retain(|place| {
            let again = place.subterm.is_variable() && seen.contains(place.subterm);
            seen.push(place.subterm.clone());
            !again
        });
    }
}

pub fn same_remainders(right: (u16, u16), stored: (u16, u16)) -> bool {
    right == (stored.0 % MODULUS, stored.1 % MODULUS)
}

/// The entry counted from the conclusion's first.
pub fn entry_told(rule: &Rule, entry: usize) -> usize {
    if is(Slip::PlaceWithinConclusion) {
        entry - rule.premise_entries()
    } else {
        entry
    }
}

pub fn key_for_closed(certificate: &Certificate, key: u16) -> u16 {
    if is(Slip::ClosedByInverse) {
        certificate.atoms[key as usize].partner
    } else {
        key
    }
}

pub fn inverse_read(key: u16, inverse: u16) -> u16 {
    if is(Slip::RootKeyItself) {
        key
    } else {
        inverse
    }
}

/// Wrong counts of atom blocks.
pub fn atom_blocks_read(blocks: &[&[u8]]) -> Option<usize> {
    let is_atoms = |block: &&&[u8]| block::kind(block) == kind::ATOMS;
    let leading = blocks.iter().take_while(is_atoms).count();
    if is(Slip::ThirdAtomBlock) && leading > MOST_ATOM_BLOCKS {
        return Some(MOST_ATOM_BLOCKS + 1);
    }
    let second = blocks.get(1)?;
    (is(Slip::SecondIfItsCheckIsRight) && !check_right(second)).then_some(1)
}

/// The entries of the first atom block judged in that block's turn.
pub fn judge_at_once(atoms: &[&[u8]], number: usize) -> Result<(), Refusal> {
    let counts_fit = atoms.iter().all(|a| block::first_count(a) <= ENTRIES);
    if !is(Slip::FirstAtomsAtOnce) || number > 0 || !counts_fit {
        return Ok(());
    }
    match read_atoms(atoms) {
        Err(refusal) if refusal.block == 0 => Err(refusal),
        _ => Ok(()),
    }
}

/// 2 of the block after the atoms, before 6.
pub fn read_the_next_check(blocks: &[&[u8]], next: usize) -> Result<(), Refusal> {
    match blocks.get(next) {
        Some(block) if is(Slip::AtomsAfterTheNextCheck) && !check_right(block) => {
            Err(refuse(2, next, 0))
        }
        _ => Ok(()),
    }
}

/// The second's atoms numbered otherwise: in place of the first's, or one on.
pub fn joined_otherwise(mut atoms: Vec<Atom>) -> Vec<Atom> {
    if atoms.len() <= ENTRIES {
        return atoms;
    }
    if is(Slip::SecondNumberedFromZero) {
        let second = atoms.split_off(ENTRIES);
        let replaced = second.len().min(atoms.len());
        atoms.splice(..replaced, second);
    }
    if is(Slip::SecondNumberedOneOn) {
        let between = Atom {
            kind: atom_kind::PRINCIPAL,
            known: 1,
            partner: 0,
        };
        atoms.insert(ENTRIES, between);
    }
    atoms
}

pub fn atom_told(number: usize, entry: usize) -> usize {
    if is(Slip::AtomByItsNumber) {
        number
    } else {
        entry
    }
}

pub fn is_beyond_its_block(partner: u16, i: usize) -> bool {
    is(Slip::PartnerInItsBlock) && partner as usize / ENTRIES != i / ENTRIES
}

pub fn atom_reached(atom: Option<&Atom>, number: u16) -> Option<&Atom> {
    let kept = !is(Slip::SecondNotReached) || (number as usize) < ENTRIES;
    atom.filter(|_| kept)
}

const ALL: [Slip; 110] = [
    Slip::BadAsInstanceForHat,
    Slip::MarkNotAsked,
    Slip::MarkStrictlyAbove,
    Slip::MarkAtThePlaceOnly,
    Slip::MarkOfAnotherGood,
    Slip::HatAtThePlace,
    Slip::OneEncryptionEnough,
    Slip::EveryPlaceOpen,
    Slip::GoodAsInstanceForOpen,
    Slip::BadAsSharingForOpen,
    Slip::BadNotReadForOpen,
    Slip::LastBadOnlyForHat,
    Slip::LastBadOnlyForOpen,
    Slip::FirstBadOnlyForHat,
    Slip::FirstBadOnlyForOpen,
    Slip::FirstRuleOnly,
    Slip::MarkRefusedInBad,
    Slip::MarkedBadTakesAllForHat,
    Slip::MarkedBadTakesAllForOpen,
    Slip::MarkedBadTakesNothingForHat,
    Slip::MarkedBadTakesNothingForOpen,
    Slip::MarkOfAnotherBadForHat,
    Slip::MarkOfAnotherBadForOpen,
    Slip::PlainAsMarkForHat,
    Slip::PlainAsMarkForOpen,
    Slip::BadMarkAboveNotCountedForHat,
    Slip::BadMarkAtThePlaceOnlyForOpen,
    Slip::MarkBelowNotCountedForHat,
    Slip::MarkBelowCountedForVariablesOnly,
    Slip::MarkBelowCountedIfItIsThere,
    Slip::MarkBelowCountedForOpen,
    Slip::BadMarkCovers,
    Slip::RootKeyOfBadAsked,
    Slip::NonceMatchesPrincipal,
    Slip::NonceMatchesKey,
    Slip::NonceMatchesPair,
    Slip::NonceMatchesEncryption,
    Slip::NonceMatchesVariable,
    Slip::NonceVariableNotMatched,
    Slip::ListedNonceNotMatched,
    Slip::KnownNonceOnlyMatched,
    Slip::NonceSharesPrincipal,
    Slip::NonceSharesKey,
    Slip::NonceSharesPair,
    Slip::NonceSharesEncryption,
    Slip::NonceVariablesNotShared,
    Slip::ListedNonceNotShared,
    Slip::KnownNonceOnlyShared,
    Slip::ListedNoncesOnly,
    Slip::RangeForgotten,
    Slip::NonceAsPlain,
    Slip::MarkedNonceAsMarked,
    Slip::MarkedNonceAsNonce,
    Slip::MarkedNonceNoMark,
    Slip::MarkedNonceNoMarkInBad,
    Slip::NonceVariableNotRisky,
    Slip::NonceVariableRiskyBySharing,
    Slip::ShownByItsNumber,
    Slip::NonceInSecret,
    Slip::MarkedNonceInRule,
    Slip::MarkedNonceRefusedInBad,
    Slip::NonceValuesToFifteen,
    Slip::KeysAsPlaces,
    Slip::VariableAtFirstOccurrenceOnly,
    Slip::VariableNotRisky,
    Slip::RiskyByEquality,
    Slip::RootNoPlace,
    Slip::PremiseNotRead,
    Slip::OpenSecretNotRefused,
    Slip::OpenSecretPasses,
    Slip::OpenSecretBySharing,
    Slip::OpenSecretBySharingOfNested,
    Slip::OpenSecretAtomsOnly,
    Slip::OpenSecretAsWholePremiseOnly,
    Slip::OpenSecretAtClosedPlace,
    Slip::OpenSecretInConclusion,
    Slip::OpenSecretOnlyIfUncovered,
    Slip::OpenSecretInFirstRuleOnly,
    Slip::OpenSecretOfLastRule,
    Slip::OpenSecretBeforeKeys,
    Slip::LastOpenSecret,
    Slip::OpenSecretByOrderOfSecrets,
    Slip::TwelveBeforeFifteen,
    Slip::FifteenRuleByRule,
    Slip::TwelveBeforeFifteenRuleByRule,
    Slip::RepeatedVariableFree,
    Slip::MarkedAsPlain,
    Slip::VariableInItself,
    Slip::VariablesNotApart,
    Slip::CheckUnreduced,
    Slip::ChecksOverAllBlocksFirst,
    Slip::UnusedNotRead,
    Slip::PartnerNotNamedBack,
    Slip::AnyAtomAsKey,
    Slip::EightBeforeSeven,
    Slip::PlaceWithinConclusion,
    Slip::TenBeforeNine,
    Slip::ClosedByInverse,
    Slip::RootKeyItself,
    Slip::SecondNumberedFromZero,
    Slip::SecondNumberedOneOn,
    Slip::SecondNotReached,
    Slip::SecondIfItsCheckIsRight,
    Slip::FirstNotFull,
    Slip::FirstAtomsAtOnce,
    Slip::AtomsAfterTheNextCheck,
    Slip::AtomByItsNumber,
    Slip::PartnerInItsBlock,
    Slip::SymmetricNamesItsPlace,
    Slip::ThirdAtomBlock,
];

mod tests {
    use super::*;
    use crate::{verdict, Verdict};

    const FILES: u64 = 4_000;

    /// How many of the files get another verdict under the slip.
    fn told_apart(files: &[(Vec<u8>, Verdict)], slip: Slip) -> usize {
        let differs = |(file, right): &&(Vec<u8>, Verdict)| with(slip, || verdict(file)) != *right;
        files.iter().filter(differs).count()
    }

    fn with_verdict(file: Vec<u8>) -> (Vec<u8>, Verdict) {
        let right = verdict(&file);
        (file, right)
    }

    #[test]
    fn generated_files_tell_every_slip() {
        let files: Vec<_> = (0..FILES).map(generate::file).map(with_verdict).collect();
        let counts: Vec<(Slip, usize)> = [&ALL[..], &hashes::ALL]
            .concat()
            .iter()
            .map(|slip| (*slip, told_apart(&files, *slip)))
            .collect();
        for (slip, count) in &counts {
            println!("{slip:?}: {count} of {FILES} files differ");
        }
        let missed: Vec<_> = counts.iter().filter(|(_, count)| *count == 0).collect();
        assert!(missed.is_empty(), "no file tells {missed:?}");
    }
}
