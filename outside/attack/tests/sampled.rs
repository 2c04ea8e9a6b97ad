//! Random runs against the search: what a run of few steps derives, the search
//! derives too, or it does not claim to have searched so far.

mod common;

use attack::{search, Attack, Bound, Outcome};
use common::sampler::steps_of_a_run;
use common::{number, small};
use generate::random::Random;
use literal::read::{read, Certificate};

/// The fewest steps of rules with variables among random runs with a secret.
fn sampled(seed: u64, certificate: &Certificate, runs: usize) -> Option<usize> {
    let mut random = Random::new(seed);
    let all = (0..runs).filter_map(|_| steps_of_a_run(certificate, &mut random, 4));
    all.min()
}

fn claims(bound: &Bound, steps: usize) -> bool {
    bound.whole || bound.steps.is_some_and(|searched| searched >= steps)
}

/// Steps of rules with variables.
fn steps_with_variables(attack: &Attack) -> usize {
    let steps = attack.steps.iter();
    steps.filter(|step| !step.replacement.is_empty()).count()
}

/// How many certificates have a run by sampling, and how many by the search.
fn compare(certificates: impl Iterator<Item = (u64, Certificate)>, runs: usize) -> (usize, usize) {
    let (mut by_sampling, mut by_search) = (0, 0);
    for (seed, certificate) in certificates {
        let sampled = sampled(seed, &certificate, runs);
        by_sampling += usize::from(sampled.is_some());
        match (search(&certificate), sampled) {
            (Outcome::Found(attack), _) => {
                by_search += 1;
                let searched = steps_with_variables(&attack);
                assert!(sampled.is_none_or(|steps| steps >= searched), "{seed}");
            }
            (Outcome::NotFound(bound), Some(steps)) => {
                assert!(!claims(&bound, steps), "{seed}: {steps} steps, {bound}")
            }
            _ => {}
        }
    }
    println!("{by_sampling} by sampling, {by_search} by the search");
    (by_sampling, by_search)
}

/// Those that are refused with 9 or a later number.
fn judged(make: fn(u64) -> Vec<u8>, seeds: u64) -> impl Iterator<Item = (u64, Certificate)> {
    let files = (0..seeds).map(move |seed| (seed, make(seed)));
    let refused = files.filter(|(_, file)| number(file) >= 9);
    refused.filter_map(|(seed, file)| Some((seed, read(&file).ok()?)))
}

#[test]
fn generated_files() {
    let (sampled, found) = compare(judged(generate::certificate, 250), 40);
    assert!(sampled >= 15 && found >= sampled);
    let (sampled, found) = compare(judged(generate::deep, 150), 40);
    assert!(sampled >= 15 && found >= sampled);
}

/// Certificates in which steps often fit together, so that there are attacks of
/// more than one step with variables.
#[test]
fn small_certificates() {
    let all = (0..1_000).map(|seed| (seed, small::certificate(seed)));
    let (sampled, found) = compare(all, 100);
    assert!(sampled >= 300 && found >= sampled);
}
