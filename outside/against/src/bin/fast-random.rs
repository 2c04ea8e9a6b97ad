//! `fast-random N [SEED]`: N generated files, from this seed on, checked by
//! `fast` and by `literal`: by turns mixed files and files with deep sharing.

use against::disagreement;
use command::Seeds;
use std::collections::BTreeMap;
use std::process::ExitCode;

fn main() -> ExitCode {
    command::run(run)
}

fn run(words: &[&str]) -> Result<bool, String> {
    let seeds = Seeds::of(words, "fast-random")?;
    let mut wrong = 0;
    let mut numbers = BTreeMap::new();
    for seed in seeds.all() {
        let file = file(seed);
        *numbers.entry(fast::check(&file) >> 16).or_insert(0) += 1;
        if let Some(text) = disagreement(&file) {
            println!("seed {seed}: {text}");
            wrong += 1;
        }
    }
    let Seeds { count, first } = seeds;
    println!(
        "{count} files from seed {first}, {}, {wrong} disagree",
        shares(&numbers)
    );
    Ok(wrong == 0)
}

fn file(seed: u64) -> Vec<u8> {
    match seed % 4 {
        0 | 1 => generate::file(seed),
        2 => generate::certificate(seed),
        _ => generate::deep(seed),
    }
}

fn shares(numbers: &BTreeMap<u32, usize>) -> String {
    let parts: Vec<String> = numbers
        .iter()
        .map(|(number, count)| match number {
            0 => format!("{count} accepted"),
            _ => format!("{count} with {number}"),
        })
        .collect();
    parts.join(", ")
}
