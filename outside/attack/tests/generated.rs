//! Generated files: none that is accepted has an attack.

mod common;

use attack::{search, walk, Outcome};
use common::number;
use literal::read::read;

/// How many files were accepted, were refused with 12, and of these how many
/// have an attack.
#[derive(Debug, Default)]
struct Counts {
    accepted: usize,
    refused: usize,
    attacked: usize,
}

fn counts(name: &str, make: fn(u64) -> Vec<u8>, seeds: u64) -> Counts {
    let mut counts = Counts::default();
    for seed in 0..seeds {
        let file = make(seed);
        let is_attacked = || is_attacked(&file).map_err(|wrong| format!("{name} {seed}: {wrong}"));
        match number(&file) {
            0 => {
                counts.accepted += 1;
                assert_eq!(is_attacked(), Ok(false), "{name} {seed}");
            }
            12 => {
                counts.refused += 1;
                counts.attacked += usize::from(is_attacked().expect("a run"));
            }
            _ => {}
        }
    }
    println!("{name}: {counts:?}");
    counts
}

/// Whether an attack is found; an error if the walk refuses it.
fn is_attacked(file: &[u8]) -> Result<bool, String> {
    let certificate = read(file).expect("a certificate");
    match search(&certificate) {
        Outcome::Found(attack) => walk::check(&certificate, &attack).map(|()| true),
        Outcome::NotFound(_) => Ok(false),
    }
}

#[test]
fn certificates() {
    let counts = counts("certificate", generate::certificate, 4_000);
    assert!(counts.accepted >= 1_000 && counts.refused >= 1_500 && counts.attacked >= 300);
}

#[test]
fn files() {
    let counts = counts("file", generate::file, 4_000);
    assert!(counts.accepted >= 800 && counts.refused >= 1_200 && counts.attacked >= 250);
}

#[test]
fn deep_files() {
    let counts = counts("deep", generate::deep, 3_000);
    assert!(counts.accepted >= 300 && counts.refused >= 2_000 && counts.attacked >= 500);
}
