//! `bench [--at-most R]`: times the archive's check against `fast::check`, on
//! the files of this folder and on the corpus. Both get the same buffer, which
//! holds one file, is never written, and is warm: every round of calls is
//! preceded by calls that are not timed. The two take turns; the figure is the
//! fastest of many rounds. Exits with 1 if the answers differ, or if some ratio
//! is above R.

use bench::files::{self, Certificate, TYPICAL};
use bench::{clock, proved, stack};
use std::path::Path;
use std::process::ExitCode;

const ROUNDS: usize = 100;

struct Case {
    name: String,
    file: Vec<u8>,
    answer: u32,
    proved: f64,
    fast: f64,
}

fn main() -> ExitCode {
    command::run(run)
}

fn run(words: &[&str]) -> Result<bool, String> {
    let at_most = match words {
        [] => f64::INFINITY,
        ["--at-most", most] => command::number(most)?,
        _ => return Err("bench [--at-most R]".to_string()),
    };
    let mut all = cases(&files::own())?;
    let own = all.len();
    all.extend(cases(&files::corpus())?);
    for case in &mut all {
        case.time();
    }
    table(&all)?;
    stack_line(&all[..own]);
    largest(&all, at_most)
}

/// A case for each certificate of the folder, if both answer the same.
fn cases(folder: &Path) -> Result<Vec<Case>, String> {
    let certificates = files::certificates(folder)?;
    certificates.into_iter().map(Case::of).collect()
}

impl Case {
    fn of(certificate: Certificate) -> Result<Case, String> {
        let Certificate { name, bytes: file } = certificate;
        let (answer, other) = (proved::check(&file), fast::check(&file));
        if answer != other {
            return Err(format!("{name}: proved answers {answer}, fast {other}"));
        }
        Ok(Case {
            name,
            file,
            answer,
            proved: f64::INFINITY,
            fast: f64::INFINITY,
        })
    }

    fn time(&mut self) {
        [self.proved, self.fast] = clock::fastest([proved::check, fast::check], &self.file, ROUNDS);
    }

    fn ratio(&self) -> f64 {
        self.proved / self.fast
    }
}

fn table(all: &[Case]) -> Result<(), String> {
    let typical = all
        .iter()
        .find(|case| case.name == TYPICAL)
        .ok_or(format!("no file {TYPICAL}"))?;
    println!("Microseconds of one check, warm buffers, one unchanged buffer for each file.");
    println!("Relative: to {TYPICAL}, in the same implementation. Answer: number block place.");
    println!();
    println!(
        "{:24} {:>10} {:>10} {:>10} {:>8} {:>10} {:>10}",
        "file", "answer", "proved", "fast", "ratio", "proved rel", "fast rel"
    );
    for case in all {
        println!(
            "{:24} {:>10} {:>10.2} {:>10.2} {:>8.2} {:>10.4} {:>10.4}",
            case.name,
            files::in_words(case.answer),
            case.proved,
            case.fast,
            case.ratio(),
            case.proved / typical.proved,
            case.fast / typical.fast
        );
    }
    println!();
    Ok(())
}

/// The peak of both over this folder's files.
fn stack_line(files: &[Case]) {
    let worst = |check: fn(&[u8]) -> u32| {
        files
            .iter()
            .map(|case| (stack::peak(check, &case.file), case.name.as_str()))
            .max()
            .unwrap_or((0, "no file"))
    };
    for (name, check) in [
        ("proved", proved::check as fn(&[u8]) -> u32),
        ("fast", fast::check),
    ] {
        let (bytes, file) = worst(check);
        println!("peak stack of one check, {name}: {bytes} bytes ({file})");
    }
}

/// Prints the largest ratio: is it at most this?
fn largest(all: &[Case], at_most: f64) -> Result<bool, String> {
    let worst = all
        .iter()
        .max_by(|one, other| one.ratio().total_cmp(&other.ratio()))
        .ok_or("no files")?;
    println!(
        "largest ratio proved/fast: {:.2} ({})",
        worst.ratio(),
        worst.name
    );
    let above = worst.ratio() > at_most;
    if above {
        println!("above {at_most}");
    }
    Ok(!above)
}
