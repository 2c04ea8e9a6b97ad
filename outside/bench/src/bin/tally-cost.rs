//! `tally-cost`: what a tally adds to a check of the typical file, and what a
//! number costs that no loader has: its file is not looked at. Exits with 1 if the
//! check with a tally takes more than 1.2 times the check, or 16 more than a
//! hundredth of it.

use bench::files::{self, TYPICAL};
use bench::{clock, proved};
use std::process::ExitCode;

const ROUNDS: usize = 100;
const MOST_WITH_A_TALLY: f64 = 1.2;
const MOST_FOR_NOBODY: f64 = 0.01;

fn main() -> ExitCode {
    command::run(run)
}

fn run(words: &[&str]) -> Result<bool, String> {
    if !words.is_empty() {
        return Err("tally-cost".to_string());
    }
    let typical = files::certificates(&files::own())?
        .into_iter()
        .find(|certificate| certificate.name == TYPICAL)
        .ok_or(format!("no file {TYPICAL}"))?;
    let checks = [
        proved::check,
        proved::check_of_loader,
        proved::check_of_nobody,
    ];
    let [plain, loader, nobody] = clock::fastest(checks, &typical.bytes, ROUNDS);
    let (loader, nobody) = (loader / plain, nobody / plain);
    println!("{TYPICAL}: {plain:.2} microseconds; with a tally {loader:.3} times that, for a number above 7 {nobody:.6}");
    Ok(loader <= MOST_WITH_A_TALLY && nobody <= MOST_FOR_NOBODY)
}
