//! The verdict: reading, then the numbers 9, 10, 11, 15 and 12, each over all
//! blocks.

use crate::hats::{first_open_secret, first_uncovered, is_listed};
use crate::read::{read, refuse, Certificate};
#[cfg(test)]
use crate::slip::{self, Slip};
use crate::term::Term;
use crate::verdict::{Counts, Refusal, Verdict};

/// The verdict on a file.
pub fn verdict(file: &[u8]) -> Verdict {
    match judge(file) {
        Ok(certificate) => Verdict::Accepted(counts(&certificate)),
        Err(refusal) => Verdict::Refused(refusal),
    }
}

fn judge(file: &[u8]) -> Result<Certificate, Refusal> {
    let certificate = read(file)?;
    #[cfg(test)]
    if slip::is(Slip::TenBeforeNine) {
        secret_not_weakly_closed(&certificate)?;
    }
    known_secret(&certificate)?;
    secret_not_weakly_closed(&certificate)?;
    #[cfg(test)]
    if slip::is(Slip::OpenSecretBeforeKeys) {
        rule_with_open_secret(&certificate)?;
    }
    root_key_not_kept(&certificate)?;
    #[cfg(test)]
    if let Some(other) = slip::open_secrets::rules_judged_otherwise(&certificate) {
        return other.map(|()| certificate);
    }
    rule_with_open_secret(&certificate)?;
    rule_not_passing(&certificate)?;
    Ok(certificate)
}

fn counts(certificate: &Certificate) -> Counts {
    Counts {
        blocks: certificate.blocks as u32,
        secrets: certificate.secrets.len() as u32,
        good: certificate.goods.len() as u32,
        bad: certificate.bads.len() as u32,
        rules: certificate.rules.len() as u32,
    }
}

/// 9: a secret is a known atom.
fn known_secret(certificate: &Certificate) -> Result<(), Refusal> {
    for secret in &certificate.secrets {
        if let Term::Atom(number) = secret.term {
            if certificate.atoms[number as usize].known == 1 {
                return Err(refuse(9, secret.block, 0));
            }
        }
    }
    Ok(())
}

/// 10: with a pair, one half is listed; with {m}k, m or k is; with a hash, its
/// message; with a signature, its message or its key.
fn secret_not_weakly_closed(certificate: &Certificate) -> Result<(), Refusal> {
    let listed = |term: &Term| is_listed(term, &certificate.secrets);
    for secret in &certificate.secrets {
        let closed = match &secret.term {
            Term::Pair(left, right) => listed(left) || listed(right),
            Term::Encryption(message, key) => {
                #[cfg(test)]
                let key = &slip::key_for_closed(certificate, *key);
                listed(message) || listed(&Term::Atom(*key))
            }
            Term::Hash(message) => listed(message),
            Term::Signature(message, key) => listed(message) || listed(&Term::Atom(*key)),
            _ => true,
        };
        #[cfg(test)]
        let closed = slip::hashes::closed_otherwise(certificate, &secret.term).unwrap_or(closed);
        if !closed {
            return Err(refuse(10, secret.block, 0));
        }
    }
    Ok(())
}

/// 11: the inverse of a good pattern's root key is not a listed secret.
fn root_key_not_kept(certificate: &Certificate) -> Result<(), Refusal> {
    let patterns = certificate.goods.iter();
    #[cfg(test)]
    let patterns = patterns.chain(slip::bads::asked_for_their_root_key(certificate));
    for good in patterns {
        if let Term::Encryption(_, key) = good.term {
            let inverse = certificate.atoms[key as usize].partner;
            #[cfg(test)]
            let inverse = slip::inverse_read(key, inverse);
            if !is_listed(&Term::Atom(inverse), &certificate.secrets) {
                return Err(refuse(11, good.block, 0));
            }
        }
    }
    Ok(())
}

/// 15: a listed secret stands at an open place of a premise.
pub(crate) fn rule_with_open_secret(certificate: &Certificate) -> Result<(), Refusal> {
    for rule in &certificate.rules {
        if let Some(entry) = first_open_secret(certificate, rule) {
            #[cfg(test)]
            let entry = slip::hashes::entry_told(rule, entry);
            return Err(refuse(15, rule.block, entry));
        }
    }
    Ok(())
}

/// 12: a risky place is not covered.
pub(crate) fn rule_not_passing(certificate: &Certificate) -> Result<(), Refusal> {
    for rule in &certificate.rules {
        if let Some(entry) = first_uncovered(certificate, rule) {
            #[cfg(test)]
            let entry = slip::hashes::entry_told(rule, slip::entry_told(rule, entry));
            return Err(refuse(12, rule.block, entry));
        }
        #[cfg(test)]
        if slip::is(Slip::FirstRuleOnly) {
            return Ok(());
        }
    }
    Ok(())
}
