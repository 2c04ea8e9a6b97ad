//! Lines of an explanation.

use crate::layout::{block_of, kind_words};
use crate::source::{At, Source};

/// Of many patterns that fail alike, so many are told and the rest counted.
pub const MOST_TOLD: usize = 6;

/// What is wrong somewhere: found, expected.
pub struct Finding {
    pub what: String,
    pub at: At,
    pub found: String,
    pub expected: String,
}

#[derive(Default)]
pub struct Report {
    text: String,
}

impl Report {
    pub fn line(&mut self, line: impl AsRef<str>) {
        self.text.push_str(line.as_ref());
        self.text.push('\n');
    }

    /// An empty line and a title.
    pub fn title(&mut self, title: &str) {
        self.text.push('\n');
        self.line(title);
    }

    /// A line that belongs to the title.
    pub fn item(&mut self, words: impl AsRef<str>) {
        self.line(format!("  {}", words.as_ref()));
    }

    /// A line that belongs to the item before it.
    pub fn detail(&mut self, words: impl AsRef<str>) {
        self.line(format!("    {}", words.as_ref()));
    }

    /// Where and what, the line with a caret, what was found and expected.
    pub fn finding(&mut self, source: &Source, finding: &Finding) {
        if let At::Entry(block, _) = finding.at {
            let kind = kind_words(literal::block::kind(block_of(&source.file, block)));
            self.line(format!("{}, {kind}", source.label(At::Block(block))));
        }
        self.line(format!("{}: {}", source.label(finding.at), finding.what));
        if let Some(pointed) = source.pointed(finding.at) {
            self.line(pointed);
        }
        self.line(format!("expected {}", finding.expected));
        self.line(format!("found    {}", finding.found));
    }

    /// A part besides, with its line and a caret.
    pub fn also(&mut self, source: &Source, at: At, words: &str) {
        self.line(format!("{}: {words}", source.label(at)));
        if let Some(pointed) = source.pointed(at) {
            self.line(pointed);
        }
    }

    pub fn text(self) -> String {
        self.text
    }
}

/// The words with commas, and `or` before the last.
pub fn either(words: &[String]) -> String {
    listed(words, "or")
}

/// The words with commas, and `and` before the last.
pub fn all_of(words: &[String]) -> String {
    listed(words, "and")
}

fn listed(words: &[String], last: &str) -> String {
    match words {
        [] => "none".to_string(),
        [one] => one.clone(),
        [before @ .., end] => format!("{} {last} {end}", before.join(", ")),
    }
}

/// As `1 block` or `2 blocks`.
pub fn counted(count: usize, word: &str) -> String {
    match count {
        1 => format!("1 {word}"),
        _ => format!("{count} {word}s"),
    }
}

/// A term that is long is cut in prose.
pub fn short(term: String) -> String {
    const MOST: usize = 100;
    match term.char_indices().nth(MOST) {
        Some((end, _)) => format!("{}..", &term[..end]),
        None => term,
    }
}
