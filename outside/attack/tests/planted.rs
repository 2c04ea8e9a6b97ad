//! Attacks that were planted: the search finds them, with no more steps of rules with
//! variables, or it does not claim to have searched so far.

mod common;

use attack::{search, Outcome};
use common::planted::planted;

#[test]
fn planted_attacks_are_found() {
    let (mut found, mut long) = (0, 0);
    for seed in 0..50_000 {
        let Some((certificate, planted)) = planted(seed) else {
            continue;
        };
        match search(&certificate) {
            Outcome::Found(attack) => {
                let steps = attack.steps.iter();
                let steps = steps.filter(|step| !step.replacement.is_empty()).count();
                assert!(steps <= planted, "seed {seed}: {steps}, planted {planted}");
                found += 1;
                long += usize::from(steps >= 2);
            }
            Outcome::NotFound(bound) => {
                let claims = bound.whole || bound.steps.is_some_and(|steps| steps >= planted);
                assert!(!claims, "seed {seed}: planted {planted}, {bound}");
            }
        }
    }
    println!("{found} found, {long} with two steps or more");
    assert!(found > 40_000 && long > 5_000, "{found}, {long}");
}
