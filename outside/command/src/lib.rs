//! What the programs have in common: their words, how they end, and the files
//! of a folder. It knows nothing of certificates.

pub mod files;

use std::io::{self, Read, Write};
use std::process::ExitCode;
use std::str::FromStr;

/// Runs a program on the words of its command line. It ends well if it answers
/// true; a message goes to standard error.
pub fn run(program: impl FnOnce(&[&str]) -> Result<bool, String>) -> ExitCode {
    run_or_status(1, program)
}

/// The same, but after a message it ends with this status.
pub fn run_or_status(
    trouble: u8,
    program: impl FnOnce(&[&str]) -> Result<bool, String>,
) -> ExitCode {
    let words = std::env::args_os().skip(1);
    let words: Vec<String> = words.map(|word| word.to_string_lossy().into()).collect();
    let words: Vec<&str> = words.iter().map(String::as_str).collect();
    match program(&words) {
        Ok(true) => ExitCode::SUCCESS,
        Ok(false) => ExitCode::FAILURE,
        Err(message) => {
            // Where even this cannot be written, the status is left to tell.
            let _ = writeln!(io::stderr(), "{message}");
            ExitCode::from(trouble)
        }
    }
}

/// All of standard input.
pub fn input() -> Result<Vec<u8>, String> {
    let mut bytes = Vec::new();
    let read = io::stdin().read_to_end(&mut bytes);
    read.map_err(|error| format!("standard input: {error}"))?;
    Ok(bytes)
}

/// Writes all of this to standard output, or tells why not.
pub fn output(bytes: &[u8]) -> Result<(), String> {
    let mut out = io::stdout();
    let written = out.write_all(bytes).and_then(|()| out.flush());
    written.map_err(|error| format!("standard output: {error}"))
}

pub fn number<T: FromStr>(word: &str) -> Result<T, String> {
    word.parse().map_err(|_| format!("`{word}` is no number"))
}

/// So many seeds, from this one on.
#[derive(Clone, Copy, Debug)]
pub struct Seeds {
    pub count: u64,
    pub first: u64,
}

impl Seeds {
    /// From the words `N [SEED]` of this program.
    pub fn of(words: &[&str], program: &str) -> Result<Seeds, String> {
        let (count, first) = match words {
            [count] => (number(count)?, 0),
            [count, first] => (number(count)?, number(first)?),
            _ => return Err(format!("{program} N [SEED]")),
        };
        Ok(Seeds { count, first })
    }

    pub fn all(self) -> impl Iterator<Item = u64> {
        (0..self.count).map(move |i| self.first.wrapping_add(i))
    }
}
