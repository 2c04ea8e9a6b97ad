//! `certwhy why|lint text|bytes NAME LINE < FILE`: behind the verdict line that the
//! proved check gave this file, why it is refused, or what is suspect about it.
//! Any trouble ends it with status 2.

use command::{input, output, run_or_status};
use explain::source::Source;
use std::process::ExitCode;

const USAGE: &str = "certwhy why|lint text|bytes NAME LINE < FILE";

fn main() -> ExitCode {
    run_or_status(2, |words| run(words).map(|()| true))
}

fn run(words: &[&str]) -> Result<(), String> {
    let [what, form, name, line] = words else {
        return Err(USAGE.to_string());
    };
    let source = match *form {
        "text" => Source::of_text(name, &input()?)?,
        "bytes" => Source::of_bytes(name, input()?),
        _ => return Err(USAGE.to_string()),
    };
    let said = match *what {
        "why" => explain::why(&source, line),
        "lint" => explain::lint(&source, line),
        _ => return Err(USAGE.to_string()),
    };
    output(said.as_bytes())
}
