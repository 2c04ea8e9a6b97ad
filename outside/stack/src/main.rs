//! `stack-bound ARCHIVE FUNCTION TABLE [HEADER MACRO]`: the bytes of stack that
//! a call of the function takes at most, its return address included, and the
//! way to the deepest. With a header, exits with 1 if its macro is smaller.

use command::files::text;
use stack::bound::{Bound, Bounds, Frames};
use stack::{code, depths, frame};
use std::process::{Command, ExitCode};

const USAGE: &str = "stack-bound ARCHIVE FUNCTION TABLE [HEADER MACRO]";

fn main() -> ExitCode {
    command::run(run)
}

fn run(words: &[&str]) -> Result<bool, String> {
    let (archive, function, table, stated) = match words {
        [archive, function, table] => (archive, function, table, None),
        [archive, function, table, header, name] => {
            (archive, function, table, Some((header, name)))
        }
        _ => return Err(USAGE.to_string()),
    };
    let bound = bound(archive, function, table)?;
    let bytes = (bound.bytes + 8).next_multiple_of(16);
    for step in &bound.path {
        println!("  {step}");
    }
    println!("{function}: at most {bytes} bytes of stack, the return address included");
    let Some((header, name)) = stated else {
        return Ok(true);
    };
    let stated = macro_in(&text(header.as_ref())?, name).ok_or(format!("no {name} in {header}"))?;
    let fault = if stated < bytes { ": too small" } else { "" };
    println!("{name} in {header} is {stated}{fault}");
    Ok(stated >= bytes)
}

fn bound(archive: &str, function: &str, table: &str) -> Result<Bound, String> {
    let functions = code::functions(&objdump(&["-dr", archive])?)?;
    let tables = objdump(&["-r", archive])?;
    let mut frames = Frames::new();
    for (name, function) in &functions {
        let own = code::jump_tables_are_own(&tables, name);
        frames.insert(name.clone(), frame::frame(name, function, own)?);
    }
    let depths = depths::read(&text(table.as_ref())?)?;
    Bounds::new(&frames, &depths).of(function)
}

fn objdump(words: &[&str]) -> Result<String, String> {
    let output = Command::new("objdump").args(words).output();
    let output = output.map_err(|error| format!("objdump: {error}"))?;
    match output.status.success() {
        true => Ok(String::from_utf8_lossy(&output.stdout).into_owned()),
        false => Err(String::from_utf8_lossy(&output.stderr).into_owned()),
    }
}

/// The number in `#define NAME number`.
fn macro_in(header: &str, name: &str) -> Option<u64> {
    header.lines().find_map(|line| {
        let mut words = line.split_whitespace();
        let defines = words.next() == Some("#define") && words.next() == Some(name);
        defines.then(|| words.next()?.parse().ok()).flatten()
    })
}
