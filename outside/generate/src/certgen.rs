//! Writes generated files: `certgen file|certificate|damaged|deep SEED` to
//! standard output, `certgen many FIRST COUNT DIRECTORY` as SEED.cert files, and
//! `certgen pair SEED` as two lines of hex.

use command::number;
use std::io::{self, Write};
use std::process::ExitCode;

fn main() -> ExitCode {
    command::run(|words| run(words).map(|()| true))
}

fn run(words: &[&str]) -> Result<(), String> {
    match words {
        ["file", seed] => out(&generate::file(number(seed)?)),
        ["certificate", seed] => out(&generate::certificate(number(seed)?)),
        ["damaged", seed] => out(&generate::damaged(number(seed)?)),
        ["deep", seed] => out(&generate::deep(number(seed)?)),
        ["pair", seed] => {
            let pair = generate::pair(number(seed)?);
            out(format!("{}\n{}\n", hex(&pair.pattern), hex(&pair.term)).as_bytes())
        }
        ["many", first, count, directory] => many(number(first)?, number(count)?, directory),
        _ => Err(
            "certgen file|certificate|damaged|deep|pair SEED, many FIRST COUNT DIRECTORY".into(),
        ),
    }
}

fn out(bytes: &[u8]) -> Result<(), String> {
    io::stdout().write_all(bytes).map_err(|e| e.to_string())
}

fn hex(bytes: &[u8]) -> String {
    bytes.iter().map(|byte| format!("{byte:02x}")).collect()
}

fn many(first: u64, count: u64, directory: &str) -> Result<(), String> {
    for seed in first..first + count {
        let path = format!("{directory}/{seed}.cert");
        std::fs::write(path, generate::file(seed)).map_err(|e| e.to_string())?;
    }
    Ok(())
}
