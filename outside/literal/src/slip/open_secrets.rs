//! Wrong readings of which rule 15 refuses, at which entry, and when.

use super::{Slip, CURRENT};
use crate::hats::{first_open_secret, first_secret, first_uncovered, is_listed};
use crate::hats::{open_places, shares_with_some, stands_at};
use crate::judge::{rule_not_passing, rule_with_open_secret};
use crate::read::{Certificate, Listed, Rule};
use crate::term::{places, Place, Term};
use crate::verdict::Refusal;

/// Numbers 15 and 12 over the rules, in another order or of other rules; none
/// if no such slip is on.
pub fn rules_judged_otherwise(certificate: &Certificate) -> Option<Result<(), Refusal>> {
    let fifteen = rule_with_open_secret;
    let twelve = rule_not_passing;
    let then_twelve = |of: Certificate| fifteen(&of).and_then(|()| twelve(certificate));
    let has_none = |rule: &Rule| first_open_secret(certificate, rule).is_none();
    let does_not_pass = |rule: &Rule| first_uncovered(certificate, rule).is_some();
    let first = certificate.rules[0].block;
    Some(match CURRENT.get()? {
        Slip::OpenSecretNotRefused => twelve(certificate),
        Slip::OpenSecretPasses => twelve(&only(certificate, has_none)),
        Slip::OpenSecretOnlyIfUncovered => then_twelve(only(certificate, does_not_pass)),
        Slip::OpenSecretInFirstRuleOnly => then_twelve(only(certificate, |r| r.block == first)),
        Slip::OpenSecretOfLastRule => then_twelve(reversed(certificate)),
        Slip::TwelveBeforeFifteen => twelve(certificate).and_then(|()| fifteen(certificate)),
        Slip::FifteenRuleByRule => rule_by_rule(certificate, [fifteen, twelve]),
        Slip::TwelveBeforeFifteenRuleByRule => rule_by_rule(certificate, [twelve, fifteen]),
        _ => return None,
    })
}

/// The certificate with these of its rules.
fn only(certificate: &Certificate, wanted: impl Fn(&Rule) -> bool) -> Certificate {
    let mut fewer = certificate.clone();
    fewer.rules.retain(wanted);
    fewer
}

fn reversed(certificate: &Certificate) -> Certificate {
    let mut turned = certificate.clone();
    turned.rules.reverse();
    turned
}

type Asked = fn(&Certificate) -> Result<(), Refusal>;

/// Both numbers for a rule before the next rule.
fn rule_by_rule(certificate: &Certificate, numbers: [Asked; 2]) -> Result<(), Refusal> {
    for rule in &certificate.rules {
        let alone = only(certificate, |other| other.block == rule.block);
        numbers.iter().try_for_each(|asked| asked(&alone))?;
    }
    Ok(())
}

/// The entry that a wrong reading names for a rule; none if no such slip is on.
pub fn first_otherwise(certificate: &Certificate, rule: &Rule) -> Option<Option<usize>> {
    let open = open_places(certificate, rule);
    let secrets = &certificate.secrets;
    let shares = |place: &&Place| shares_with_some(&certificate.atoms, place.subterm, secrets);
    let is_secret = |place: &&Place| is_listed(place.subterm, secrets);
    let is_atom = |place: &&Place| matches!(place.subterm, Term::Atom(_));
    let found = match CURRENT.get()? {
        Slip::OpenSecretBySharing => open.iter().find(shares),
        Slip::OpenSecretBySharingOfNested => open
            .iter()
            .find(|p| is_secret(p) || is_nested(p) && shares(p)),
        Slip::OpenSecretAtomsOnly => open.iter().find(|p| is_atom(p) && is_secret(p)),
        Slip::OpenSecretAsWholePremiseOnly => open.first().filter(is_secret),
        Slip::OpenSecretAtClosedPlace => return Some(first_at_any_place(rule, secrets)),
        Slip::OpenSecretInConclusion => return Some(first_in_conclusion(certificate, rule)),
        Slip::LastOpenSecret => open.iter().rfind(is_secret),
        Slip::OpenSecretByOrderOfSecrets => {
            let first = secrets.iter().find(|s| stands_at(&open, &s.term))?;
            open.iter().find(|place| *place.subterm == first.term)
        }
        _ => return None,
    };
    Some(found.map(|place| place.entry))
}

fn is_nested(place: &Place) -> bool {
    place.subterm.size() > 1
}

fn first_at_any_place(rule: &Rule, secrets: &[Listed]) -> Option<usize> {
    first_secret(&places(rule.premise.as_ref()?), secrets)
}

/// The conclusion read as if it were the premise.
fn first_in_conclusion(certificate: &Certificate, rule: &Rule) -> Option<usize> {
    let turned = Rule {
        premise: Some(rule.conclusion.clone()),
        ..rule.clone()
    };
    let open = open_places(certificate, &turned);
    let found = first_secret(&open, &certificate.secrets)?;
    Some(rule.premise_entries() + found)
}
