//! Times the archive on ordinary pairs and on the chain family, all in one run
//! and by turns. Only the ratios mean anything.

use compare::{atoms, chains, ordinary, proved, Answer};
use literal::numbers::{tag, MOST_ENTRIES};
use literal::{encode, Term};
use std::hint::black_box;
use std::process::ExitCode;
use std::time::Instant;

const ROUNDS: usize = 2_000;
/// Calls that are timed as one.
const CALLS: usize = 4;
const MOST: f64 = 20.0;

struct Case {
    name: String,
    atoms: Vec<u8>,
    first: Vec<u8>,
    second: Vec<u8>,
    expected: Answer,
    ask: fn(&[u8], &[u8], &[u8]) -> Answer,
    /// Nanoseconds of one call, a number for each round.
    times: Vec<u64>,
}

fn main() -> ExitCode {
    let mut ordinary = ordinary_cases();
    let mut chains = chain_cases();
    let mut tests = tests_alone(&ordinary[0]);
    for case in ordinary.iter().chain(&chains).chain([&tests]) {
        if (case.ask)(&case.atoms, &case.first, &case.second) != case.expected {
            println!("{}: not {}", case.name, case.expected);
            return ExitCode::FAILURE;
        }
    }
    for _ in 0..ROUNDS {
        for case in ordinary.iter_mut().chain(&mut chains) {
            case.time();
        }
        tests.time();
    }
    report(&ordinary, &chains, &tests)
}

fn ordinary_cases() -> Vec<Case> {
    ordinary::pairs()
        .into_iter()
        .map(|pair| Case::new(pair.name, &pair.first, &pair.second, pair.shares))
        .collect()
}

fn chain_cases() -> Vec<Case> {
    chains::family()
        .into_iter()
        .map(|chain| Case::new(&chain.name, &chain.first, &chain.second, chain.shares))
        .collect()
}

/// The tests that the bytes are terms, and next to nothing else: sameness of
/// two terms that differ in their first entry.
fn tests_alone(ordinary: &Case) -> Case {
    let mut first = vec![tag::ENCRYPTION, 0, 0, 0];
    first.extend(&ordinary.first[8..]);
    Case {
        name: "tests alone".to_string(),
        atoms: atoms::all_keys(),
        first,
        second: ordinary.second.clone(),
        expected: Answer::No,
        ask: proved::same,
        times: Vec::new(),
    }
}

impl Case {
    fn new(name: &str, first: &Term, second: &Term, shares: bool) -> Case {
        assert_eq!([first.size(), second.size()], [MOST_ENTRIES; 2], "{name}");
        Case {
            name: name.to_string(),
            atoms: atoms::all_keys(),
            first: encode(first),
            second: encode(second),
            expected: Answer::of(shares),
            ask: proved::shares,
            times: Vec::with_capacity(ROUNDS),
        }
    }

    fn time(&mut self) {
        let [atoms, first, second] = [&self.atoms, &self.first, &self.second];
        let start = Instant::now();
        for _ in 0..CALLS {
            let answer = (self.ask)(black_box(atoms), black_box(first), black_box(second));
            black_box(answer);
        }
        let taken = start.elapsed().as_nanos() as u64;
        self.times.push(taken / CALLS as u64);
    }

    fn median(&self) -> f64 {
        let mut times = self.times.clone();
        times.sort_unstable();
        times[times.len() / 2] as f64
    }

    fn line(&self, unit: f64) {
        let median = self.median();
        println!(
            "{median:8.0} ns {:6.2}  {} ({})",
            median / unit,
            self.name,
            self.expected
        );
    }
}

fn report(ordinary: &[Case], chains: &[Case], tests: &Case) -> ExitCode {
    let unit = ordinary[0].median();
    for case in ordinary.iter().chain(chains) {
        case.line(unit);
    }
    let tested = tests.median();
    println!("{tested:8.0} ns {:6.2}  {}", tested / unit, tests.name);
    let largest = chains.iter().map(Case::median).fold(0.0, f64::max);
    let ratio = largest / unit;
    let without = (largest - tested) / (unit - tested);
    println!(
        "largest chain to ordinary: {ratio:.2} (without the tests {without:.2}), at most {MOST}"
    );
    if ratio > MOST {
        return ExitCode::FAILURE;
    }
    ExitCode::SUCCESS
}
