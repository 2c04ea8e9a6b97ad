//! The program `certtext`: what it writes and how it ends.

use std::io::Write;
use std::process::{Child, Command, Output, Stdio};
use text::document::ATOMS;

fn certtext(words: &[&str], out: Stdio) -> Child {
    let mut command = Command::new(env!("CARGO_BIN_EXE_certtext"));
    let command = command.args(words).stdin(Stdio::piped()).stdout(out);
    command.stderr(Stdio::piped()).spawn().unwrap()
}

/// Hands in these bytes and waits for the end.
fn ended(mut child: Child, input: &[u8]) -> Output {
    // A program that has ended already reads nothing: that is no fault.
    let _ = child.stdin.take().unwrap().write_all(input);
    child.wait_with_output().unwrap()
}

fn run(words: &[&str], input: &[u8]) -> Output {
    ended(certtext(words, Stdio::piped()), input)
}

fn message(output: &Output) -> String {
    String::from_utf8(output.stderr.clone()).unwrap()
}

#[test]
fn assembling_and_printing() {
    let assembled = run(&["assemble"], ATOMS.as_bytes());
    assert_eq!(assembled.status.code(), Some(0));
    assert_eq!(assembled.stdout, text::assemble(ATOMS).unwrap());
    assert_eq!(message(&assembled), "");
    let printed = run(&["print"], &assembled.stdout);
    assert_eq!(printed.status.code(), Some(0));
    assert_eq!(printed.stdout, text::print(&assembled.stdout).into_bytes());
    let entries = run(&["print", "--entries"], &assembled.stdout);
    assert_eq!(entries.status.code(), Some(0));
    let numbered = text::print_entries(&assembled.stdout);
    assert_eq!(entries.stdout, numbered.into_bytes());
}

#[test]
fn errors_end_with_2() {
    let wrong = run(&["assemble", "lane.txt"], b"secret N\n");
    assert_eq!(wrong.status.code(), Some(2));
    assert_eq!(wrong.stdout, b"");
    assert_eq!(
        message(&wrong),
        "\
lane.txt:1:8: expected an atom's name, found `N`, which is no atom
    1 | secret N
      |        ^
hint: an atom needs a line `atom N ..`, and a variable is written `?N`
"
    );
    let unnamed = run(&["assemble"], b"secrets N");
    assert_eq!(unnamed.status.code(), Some(2));
    assert!(message(&unnamed).starts_with("standard input:1:1: expected `atom`"));
    let bytes = run(&["assemble", "a.cert"], &text::assemble(ATOMS).unwrap());
    assert_eq!(bytes.status.code(), Some(2));
    assert!(message(&bytes).starts_with("a.cert:1:1: expected text, found"));
    for words in [
        &[][..],
        &["prints"],
        &["assemble", "a", "b"],
        &["print", "a"],
    ] {
        let usage = run(words, b"");
        assert_eq!(usage.status.code(), Some(2), "{words:?}");
        assert!(message(&usage).starts_with("certtext assemble [NAME]"));
    }
}

/// A full or closed standard output is told of, and is no panic.
#[test]
fn outputs_that_cannot_be_written() {
    let block = text::assemble(ATOMS).unwrap();
    for (words, input) in [(["assemble"], ATOMS.as_bytes()), (["print"], &block)] {
        let full = std::fs::OpenOptions::new().write(true).open("/dev/full");
        let ended_full = ended(certtext(&words, full.unwrap().into()), input);
        assert_eq!(ended_full.status.code(), Some(2));
        assert!(message(&ended_full).starts_with("standard output: "));
        let mut closed = certtext(&words, Stdio::piped());
        drop(closed.stdout.take());
        let ended_closed = ended(closed, input);
        assert_eq!(ended_closed.status.code(), Some(2));
        assert!(message(&ended_closed).starts_with("standard output: "));
        assert_eq!(message(&ended_closed).lines().count(), 1);
    }
}
