//! What several of these tests use.

#![allow(dead_code)] // Each test program uses some of it.

use text::document::{ATOMS, GOOD, SECRETS};
use text::{assemble, Span};

/// The checker's line on these lines after the document's atoms.
pub fn line_of(rest: &str) -> String {
    let bytes = assemble(&format!("{ATOMS}{rest}")).unwrap();
    let line = literal::line(&literal::verdict(&bytes));
    String::from_utf8(line).unwrap().trim_end().to_string()
}

/// The usual secrets and good pattern, and these lines.
pub fn usual(rest: &str) -> String {
    line_of(&format!("{SECRETS}{GOOD}{rest}"))
}

/// The piece of the text that a span names; it must be there.
pub fn cut(text: &str, at: Span) -> String {
    let line = text.lines().nth(at.line - 1).expect("the line is there");
    let piece: String = line.chars().skip(at.column - 1).take(at.width).collect();
    assert_eq!(piece.chars().count(), at.width, "{at:?} is inside `{line}`");
    piece
}

pub fn cut_all(text: &str, spans: &[Span]) -> Vec<String> {
    spans.iter().map(|span| cut(text, *span)).collect()
}

/// No notes.
pub const NONE: [&str; 0] = [];

/// The notes of a printed text: its comments without those that number blocks
/// and entries.
pub fn notes(printed: &str) -> Vec<&str> {
    let comments = printed.lines().filter(|line| line.starts_with('#'));
    let others = comments.filter(|line| !line.starts_with("#  "));
    others.filter(|line| !numbers_atoms(line)).collect()
}

/// Whether this is `# block N: atoms N to N`.
fn numbers_atoms(comment: &str) -> bool {
    let is_number = |word: &&str| word.parse::<usize>().is_ok();
    let without: Vec<&str> = comment
        .split([' ', ':'])
        .filter(|word| !word.is_empty() && !is_number(word))
        .collect();
    without == ["#", "block", "atoms", "to"]
}
