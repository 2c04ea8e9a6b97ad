//! Microseconds of one check.

use std::hint::black_box;
use std::time::{Duration, Instant};

const ROUND: Duration = Duration::from_micros(300);

pub type Check = fn(&[u8]) -> u32;

/// So many calls that a round takes long enough for the clock.
pub fn calls_of_a_round(check: Check, file: &[u8]) -> usize {
    let mut calls = 1;
    while microseconds(check, file, calls) * (calls as f64) < ROUND.as_micros() as f64 {
        calls *= 2;
    }
    calls
}

/// Microseconds of one call, over this many; one call before is not timed.
pub fn microseconds(check: Check, file: &[u8], calls: usize) -> f64 {
    black_box(check(black_box(file)));
    let start = Instant::now();
    for _ in 0..calls {
        black_box(check(black_box(file)));
    }
    start.elapsed().as_nanos() as f64 / 1_000.0 / calls as f64
}

/// Microseconds of one call, without a call before.
pub fn once(check: Check, file: &[u8]) -> f64 {
    let start = Instant::now();
    black_box(check(black_box(file)));
    start.elapsed().as_nanos() as f64 / 1_000.0
}

/// The fastest of many rounds of each check; the checks take turns.
pub fn fastest<const N: usize>(checks: [Check; N], file: &[u8], rounds: usize) -> [f64; N] {
    let calls = checks.map(|check| calls_of_a_round(check, file));
    let mut best = [f64::INFINITY; N];
    for _ in 0..rounds {
        for i in 0..N {
            best[i] = best[i].min(microseconds(checks[i], file, calls[i]));
        }
    }
    best
}
