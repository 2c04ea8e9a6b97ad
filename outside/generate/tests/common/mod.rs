//! What the statistics have in common.

use literal::hats::{first_open_secret, first_uncovered};
use literal::read::{Certificate, Rule};

/// Number, block and entry.
pub type Answer = (u8, usize, usize);

/// 15 over all rules, then 12 over all rules.
pub fn answer_by(
    certificate: &Certificate,
    first_open_secret: impl Fn(&Rule) -> Option<usize>,
    first_uncovered: impl Fn(&Rule) -> Option<usize>,
) -> Option<Answer> {
    let mut rules = certificate.rules.iter();
    let fifteen = rules.find_map(|rule| Some((15, rule.block, first_open_secret(rule)?)));
    let mut rules = certificate.rules.iter();
    fifteen.or_else(|| rules.find_map(|rule| Some((12, rule.block, first_uncovered(rule)?))))
}

/// None if all rules pass.
pub fn answer(certificate: &Certificate) -> Option<Answer> {
    answer_by(
        certificate,
        |rule| first_open_secret(certificate, rule),
        |rule| first_uncovered(certificate, rule),
    )
}
