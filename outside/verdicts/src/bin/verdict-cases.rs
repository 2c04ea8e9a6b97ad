//! Asks the archive about every file with a known answer, and prints what it
//! answers otherwise.

use std::process::ExitCode;
use verdicts::known::Known;
use verdicts::seals::{self, sealing};
use verdicts::{cases, hashes, loaders, marked_bad, more_atoms, nonce_variables, open_secrets};
use verdicts::{failed, known, proved, Checker, Difference};

/// Blocks whose differences are shown; of the others only how many there are.
const SHOWN: usize = 20;

fn main() -> ExitCode {
    command::run(|_| Ok(run()? == 0))
}

/// How many answers differ.
fn run() -> Result<usize, String> {
    let lists = [
        ("document 01", cases::all()?),
        ("document 02, No. 1", more_atoms::all()?),
        ("document 02, No. 2", marked_bad::all()?),
        ("document 02, No. 3", nonce_variables::all()?),
        ("document 02, No. 4", open_secrets::all()?),
        ("document 02, No. 7", hashes::all()?),
        ("corpus", known::corpus()?),
        ("examples", known::texts("../../examples")?),
        ("loader", known::texts("../../loader/certificates")?),
        ("check program", known::program()?),
    ];
    let mut wrong = 0;
    for (title, list) in &lists {
        let differ: usize = list.iter().map(told).sum();
        println!("{title}: {} files, {differ} answers differ", list.len());
        wrong += differ;
    }
    wrong += tallies()? + blocks()?;
    let differ = document_seals(&proved::CHECKER) + document_seals(&proved::WITH_NULL);
    println!("sealing: {differ} answers differ");
    Ok(wrong + differ)
}

/// Empty slices once as they are and once with a null pointer.
fn told(known: &Known) -> usize {
    let mut found = known.differences(&proved::CHECKER);
    found.extend(known.differences(&proved::WITH_NULL));
    tell(&known.name, &found);
    found.len()
}

fn tell(name: &str, found: &[Difference]) {
    for difference in found {
        println!("{name}: {difference}");
    }
}

/// Checks that take a tally.
fn tallies() -> Result<usize, String> {
    let (all, mut differ) = (loaders::all()?, 0);
    for counted in &all {
        let checkers = [proved::CHECKER, proved::WITH_NULL].iter();
        for difference in checkers.filter_map(|checker| counted.difference(checker)) {
            println!("{}: {difference}", counted.name);
            differ += 1;
        }
    }
    let count = all.len();
    println!("document 02, No. 5: {count} checks with a tally, {differ} answers differ");
    Ok(differ)
}

/// Blocks with a known check, sealed and judged.
fn blocks() -> Result<usize, String> {
    let front = seals::front()?;
    let (mut count, mut shown, mut differ) = (0, 0, 0);
    for last in seals::all(&front) {
        let mut found = last.differences(&proved::CHECKER);
        found.extend(last.differences(&proved::WITH_NULL));
        if !found.is_empty() && shown < SHOWN {
            shown += 1;
            tell(&last.seal.name, &found);
        }
        count += 1;
        differ += found.len();
    }
    println!("document 02, No. 6: {count} blocks sealed and judged, {differ} answers differ");
    Ok(differ)
}

/// The document's blocks with their checks, and lengths other than 512.
fn document_seals(checker: &Checker) -> usize {
    let right = cases::sealed().map(|(bytes, check)| {
        let before = [&bytes[..], &[7; 4]].concat();
        (before, [&bytes[..], &check].concat(), 4)
    });
    let wrong = [0, 1, 508, 511, 513, 1024].map(|n| (vec![7; n], vec![7; n], failed(13)));
    let all = right.iter().chain(&wrong);
    let found: Vec<Difference> = all
        .filter_map(|(before, after, answer)| sealing(checker, before, after, *answer))
        .collect();
    found.iter().for_each(|difference| println!("{difference}"));
    found.len()
}
