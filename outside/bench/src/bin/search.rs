//! `search TRIES SEED time|ratio|fast|stack [--family NAME] [--write FOLDER]
//! [--at-most TIME RATIO]`: looks for slow files.
//!
//! Each family, and each file of `bench/files`, gets so many tries. They climb
//! by the time of the proved check, by its ratio to `fast`, by the time of
//! `fast`, or by the proved check's stack. A line tells the dearest file that
//! came of each; `--write` keeps these files. With `--at-most` it exits with 1
//! if one is above TIME times the typical file or above RATIO times `fast`,
//! measured again before it is said.

use bench::files::{self, Certificate, TYPICAL};
use bench::search::climb::{climb, Found};
use bench::search::families::{self, Family};
use bench::search::measure::{By, Scale};
use bench::{proved, stack};
use generate::random::Random;
use std::path::PathBuf;
use std::process::ExitCode;

const USAGE: &str = "search TRIES SEED time|ratio|fast|stack [--family NAME] [--write FOLDER] \
                     [--at-most TIME RATIO]";

struct Wanted {
    tries: usize,
    seed: u64,
    by: By,
    family: Option<String>,
    folder: Option<PathBuf>,
    at_most: Option<(f64, f64)>,
}

impl Wanted {
    fn takes(&self, family: &Family) -> bool {
        self.family.as_ref().is_none_or(|name| *name == family.name)
    }
}

fn main() -> ExitCode {
    command::run(|words| run(&wanted(words).ok_or(USAGE)?))
}

fn wanted(words: &[&str]) -> Option<Wanted> {
    let [tries, seed, by, options @ ..] = words else {
        return None;
    };
    let mut wanted = Wanted {
        tries: tries.parse().ok()?,
        seed: seed.parse().ok()?,
        by: By::named(by)?,
        family: None,
        folder: None,
        at_most: None,
    };
    let mut left = options;
    while !left.is_empty() {
        left = match left {
            ["--family", name, rest @ ..] => {
                wanted.family = Some(name.to_string());
                rest
            }
            ["--write", folder, rest @ ..] => {
                wanted.folder = Some(PathBuf::from(folder));
                rest
            }
            ["--at-most", time, ratio, rest @ ..] => {
                wanted.at_most = Some((time.parse().ok()?, ratio.parse().ok()?));
                rest
            }
            _ => return None,
        };
    }
    Some(wanted)
}

fn run(wanted: &Wanted) -> Result<bool, String> {
    let typical = files::own().join(format!("{TYPICAL}.cert"));
    let mut scale = Scale::of(&Certificate::read(&typical)?.bytes);
    println!(
        "{:32} {:>9} {:>10} {:>10} {:>10} {:>8}",
        "family", "answer", "to typical", "to fast", "fast rel", "stack"
    );
    let mut too_dear = 0;
    for (i, family) in all()?.iter().enumerate() {
        if !wanted.takes(family) {
            continue;
        }
        let random = &mut Random::new(wanted.seed.wrapping_add(1_000_003 * i as u64));
        if let Some(mut found) = climb(family, wanted.tries, random, &scale, wanted.by) {
            too_dear += is_too_dear(wanted, &mut scale, &mut found) as usize;
            line(&found, &scale);
            keep(wanted, &found)?;
        }
    }
    if too_dear > 0 {
        println!("{too_dear} above the bounds");
    }
    Ok(too_dear == 0)
}

/// The families, then the own files that are judged to the end.
fn all() -> Result<Vec<Family>, String> {
    let mut all = families::written();
    for Certificate { name, bytes } in files::certificates(&files::own())? {
        all.extend(families::from_file(&name, &bytes));
    }
    Ok(all)
}

/// Above the bounds, and still so when it and the typical file are measured
/// again.
fn is_too_dear(wanted: &Wanted, scale: &mut Scale, found: &mut Found) -> bool {
    let Some((time, ratio)) = wanted.at_most else {
        return false;
    };
    for _ in 0..4 {
        if scale.time(found.cost) <= time && scale.ratio(found.cost) <= ratio {
            return false;
        }
        scale.again();
        found.again();
    }
    true
}

fn line(found: &Found, scale: &Scale) {
    let file = found.sketch.bytes();
    println!(
        "{:32} {:>9} {:>10.2} {:>10.2} {:>10.2} {:>8}",
        found.family,
        files::in_words(fast::check(&file)),
        scale.time(found.cost),
        scale.ratio(found.cost),
        scale.fast(found.cost),
        stack::peak(proved::check, &file)
    );
}

fn keep(wanted: &Wanted, found: &Found) -> Result<(), String> {
    let Some(folder) = &wanted.folder else {
        return Ok(());
    };
    let path = folder.join(format!("{}.cert", found.family));
    std::fs::write(&path, found.sketch.bytes()).map_err(|error| command::files::told(&path, error))
}
