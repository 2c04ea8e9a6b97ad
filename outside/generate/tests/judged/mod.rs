//! The generated files whose rules are judged.

use crate::common::{answer, Answer};
use literal::read::{read, Certificate};
use literal::Verdict;

/// What this seed's file says, and what its rules are refused with, if they are;
/// nothing if its form is wrong or its secrets are.
pub fn judged(seed: u64) -> Option<(Certificate, Option<Answer>)> {
    let file = generate::file(seed);
    let found = match literal::verdict(&file) {
        Verdict::Accepted(_) => None,
        Verdict::Refused(r) if [12, 15].contains(&r.number) => {
            Some((r.number, r.block as usize, r.place as usize))
        }
        Verdict::Refused(_) => return None,
    };
    let certificate = read(&file).expect("its form is right");
    assert_eq!(found, answer(&certificate));
    Some((certificate, found))
}
