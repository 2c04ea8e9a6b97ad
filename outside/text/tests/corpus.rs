//! Certificates of published protocols: the line from their bytes and from
//! their text.

use command::files;
use std::path::{Path, PathBuf};

/// Name, text and bytes of every certificate.
fn certificates() -> Vec<(String, String, Vec<u8>)> {
    let folder = Path::new(env!("CARGO_MANIFEST_DIR")).join("../corpus");
    let paths = files::ending_in("txt", &folder).unwrap();
    let read = |path: &PathBuf| {
        let bytes = files::bytes(&path.with_extension("cert")).unwrap();
        (files::name(path), files::text(path).unwrap(), bytes)
    };
    paths.iter().map(read).collect()
}

/// The line expected at the present level.
fn expected_line(text: &str) -> Option<String> {
    let line = text::level::expected_line(text)?;
    Some(format!("{line}\n"))
}

fn line_of(bytes: &[u8]) -> String {
    String::from_utf8(literal::line(&literal::verdict(bytes))).unwrap()
}

/// Whether the text needs tags that are not in force.
fn needs_later_tags(text: &str) -> bool {
    let lines = text.lines().filter(|line| !line.starts_with('#'));
    lines.into_iter().any(|line| line.contains('<'))
}

#[test]
fn lines_from_bytes() {
    let all = certificates();
    assert_eq!(all.len(), 25);
    for (name, text, bytes) in &all {
        let expected = expected_line(text).expect(name);
        assert_eq!(line_of(bytes), expected, "{name}");
    }
}

#[test]
fn lines_from_texts() {
    let mut assembled_count = 0;
    for (name, text, bytes) in certificates() {
        let assembled = text::assemble(&text);
        if needs_later_tags(&text) {
            let error = assembled.expect_err(&name);
            assert_eq!(error.found, "`<`", "{name}: {error}");
            let hint = error.hint.expect(&name);
            assert!(hint.contains("not in force"), "{name}: {hint}");
            continue;
        }
        let assembled = assembled.unwrap_or_else(|error| panic!("{name}: {error}"));
        assert_eq!(assembled, bytes, "{name}");
        assert_eq!(line_of(&assembled), expected_line(&text).unwrap(), "{name}");
        assembled_count += 1;
    }
    assert_eq!(assembled_count, 24);
}

#[test]
fn printed_texts_assemble_to_the_same_bytes() {
    for (name, text, bytes) in certificates() {
        let printed = text::print(&bytes);
        if needs_later_tags(&text) {
            assert!(printed.contains("is none of 1 to 9"), "{name}");
            continue;
        }
        assert_eq!(text::assemble(&printed), Ok(bytes), "{name}");
    }
}

/// Of several comments the last that is in force, whatever their order.
#[test]
fn lines_by_level() {
    let comment = |level: u32, line: &str| format!("#: expect {level} {line}\n");
    let now = text::level::LEVEL;
    let line = |comments: &[String]| text::level::expected_line(&comments.concat()).map(str::len);
    assert_eq!(line(&[comment(0, "a")]), Some(1));
    assert_eq!(line(&[comment(0, "a"), comment(now, "bb")]), Some(2));
    assert_eq!(line(&[comment(now, "bb"), comment(0, "a")]), Some(2));
    assert_eq!(line(&[comment(0, "a"), comment(now + 1, "bb")]), Some(1));
    assert_eq!(line(&[comment(now + 1, "bb")]), None);
}
