//! A line of a text with a piece of it marked by carets.

use crate::letters::is_visible;
use crate::origin::Span;
use std::ops::Range;

/// Lines up to this many characters are shown whole.
const LONGEST: usize = 200;
/// Of a longer line so many characters are shown, so many of them before the
/// piece.
const SHOWN: usize = 160;
const BEFORE: usize = 60;

/// Two lines: the one of the text with its number, and carets below the piece.
/// Tabs stay tabs in both, so that the carets stand below it.
pub fn pointed(text: &str, at: Span) -> String {
    let line = text.lines().nth(at.line.saturating_sub(1)).unwrap_or("");
    let line: Vec<char> = line.chars().map(drawn).collect();
    let start = at.column.saturating_sub(1).min(line.len());
    let shown = shown_part(line.len(), start);
    let carets = at.width.min(shown.end - start).max(1);
    let front = if shown.start > 0 { ".." } else { "" };
    let back = if shown.end < line.len() { ".." } else { "" };
    let number = format!("{:5}", at.line);
    let piece: String = line[shown.clone()].iter().collect();
    let before = front
        .chars()
        .chain(line[shown.start..start].iter().copied());
    let margin = " ".repeat(number.len());
    let indent: String = before.map(blank).collect();
    let carets = "^".repeat(carets);
    format!("{number} | {front}{piece}{back}\n{margin} | {indent}{carets}")
}

/// The characters of a line that are shown, for a piece that starts there.
fn shown_part(length: usize, start: usize) -> Range<usize> {
    if length <= LONGEST {
        return 0..length;
    }
    let from = start.saturating_sub(BEFORE).min(length - SHOWN);
    from..from + SHOWN
}

/// What cannot be seen, or would move the cursor, gets a sign of its own.
fn drawn(character: char) -> char {
    match is_visible(character) || character == '\t' {
        true => character,
        false => char::REPLACEMENT_CHARACTER,
    }
}

fn blank(character: char) -> char {
    match character {
        '\t' => '\t',
        _ => ' ',
    }
}
