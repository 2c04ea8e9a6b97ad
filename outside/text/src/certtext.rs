//! `certtext assemble [NAME] < in.txt > out.cert` and
//! `certtext print [--entries] < in.cert`. Any trouble ends it with status 2.

use command::{input, output, run_or_status};
use std::process::ExitCode;

const USAGE: &str = "certtext assemble [NAME] < in.txt > out.cert, or print [--entries] < in.cert";

fn main() -> ExitCode {
    run_or_status(2, |words| run(words).map(|()| true))
}

fn run(words: &[&str]) -> Result<(), String> {
    let out = match words {
        ["assemble"] => assembled("standard input", &input()?)?,
        ["assemble", name] => assembled(name, &input()?)?,
        ["print"] => text::print(&input()?).into_bytes(),
        ["print", "--entries"] => text::print_entries(&input()?).into_bytes(),
        _ => return Err(USAGE.to_string()),
    };
    output(&out)
}

/// The blocks of a text; errors call it by this name.
fn assembled(name: &str, bytes: &[u8]) -> Result<Vec<u8>, String> {
    let assembled = text::text_of(bytes).and_then(text::assemble);
    assembled.map_err(|error| error.told(name, &String::from_utf8_lossy(bytes)))
}
