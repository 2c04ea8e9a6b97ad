//! Texts and files to explain.
#![allow(dead_code)]

use explain::source::Source;
use std::path::{Path, PathBuf};

pub const NAME: &str = "lane.txt";

pub fn of_text(text: &str) -> Source {
    Source::of_text(NAME, text.as_bytes()).unwrap_or_else(|error| panic!("{error}"))
}

/// The line that `literal` gives.
pub fn line(source: &Source) -> String {
    let line = literal::line(&literal::verdict(&source.file));
    String::from_utf8(line).unwrap().trim_end().to_string()
}

pub fn why(source: &Source) -> String {
    explain::why(source, &line(source))
}

pub fn lint(source: &Source) -> String {
    explain::lint(source, &line(source))
}

/// What is said of this text, and the same of its bytes.
pub fn both_whys(text: &str) -> [String; 2] {
    let source = of_text(text);
    let bytes = Source::of_bytes("lane.cert", source.file.clone());
    [why(&source), why(&bytes)]
}

/// Whether the explanation has these words; else it is shown.
pub fn assert_says(said: &str, words: &str) {
    assert!(said.contains(words), "`{words}` is not said:\n{said}");
}

/// A folder that is named from this crate's.
pub fn folder(name: &str) -> PathBuf {
    Path::new(env!("CARGO_MANIFEST_DIR")).join(name)
}

/// The texts of a folder with their names.
pub fn texts(name: &str) -> Vec<(String, String)> {
    let paths = command::files::ending_in("txt", &folder(name)).unwrap();
    let read = |path: &PathBuf| {
        let text = command::files::text(path).unwrap();
        (command::files::name(path), text)
    };
    paths.iter().map(read).collect()
}
