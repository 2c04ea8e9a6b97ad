//! Bytes that are to be a text.

use text::document::ATOMS;
use text::{assemble, text_of, Error, Span, LONGEST_TEXT};

fn error_of(bytes: &[u8]) -> Error {
    text_of(bytes).unwrap_err()
}

#[test]
fn texts() {
    for text in [
        "",
        "atom Ключ nonce known\n",
        "a\tb\r\nc\r\n\r\n",
        "a\r",
        "a\r\r\n",
    ] {
        assert_eq!(text_of(text.as_bytes()), Ok(text));
    }
}

#[test]
fn longest_text() {
    let text = " ".repeat(LONGEST_TEXT);
    assert_eq!(text_of(text.as_bytes()), Ok(text.as_str()));
    let error = error_of((text + " ").as_bytes());
    let words = "1:1: expected a text of at most 1048576 bytes, found more";
    assert_eq!(error.to_string(), words);
}

#[test]
fn byte_order_marks() {
    let save = "save the text as UTF-8 without a byte order mark (BOM)";
    for (mark, name) in [
        (&b"\xEF\xBB\xBF"[..], "UTF-8"),
        (b"\xFF\xFE", "UTF-16, little-endian"),
        (b"\xFE\xFF", "UTF-16, big-endian"),
        (b"\xFF\xFE\0\0", "UTF-32, little-endian"),
        (b"\0\0\xFE\xFF", "UTF-32, big-endian"),
    ] {
        let error = error_of(&[mark, b"atom"].concat());
        let words = "1:1: expected text in UTF-8 without a byte order mark, found";
        let found = format!("{words} the byte order mark of {name}; {save}");
        assert_eq!(error.to_string(), found);
    }
}

#[test]
fn utf_16_without_a_mark() {
    let little: Vec<u8> = ATOMS.encode_utf16().flat_map(u16::to_le_bytes).collect();
    let big: Vec<u8> = ATOMS.encode_utf16().flat_map(u16::to_be_bytes).collect();
    for (bytes, name) in [(little, "little"), (big, "big")] {
        let error = error_of(&bytes);
        assert_eq!(
            error.found,
            format!("what looks like UTF-16, {name}-endian")
        );
        assert_eq!(error.expected, "text in UTF-8");
        assert!(error.hint.unwrap().contains("UTF-8"));
    }
}

#[test]
fn control_characters() {
    let zero = error_of(b"atom A\r\n\tx\0y").to_string();
    assert_eq!(
        zero,
        "2:3: expected text, found the control character U+0000"
    );
    let escape = error_of("é\u{1b}[0m".as_bytes()).to_string();
    assert_eq!(
        escape,
        "1:2: expected text, found the control character U+001B"
    );
    let certificate = error_of(&assemble(ATOMS).unwrap()).to_string();
    let words = "1:1: expected text, found the control character U+0001; \
                 this looks like the bytes of a certificate, not like its text";
    assert_eq!(certificate, words);
}

#[test]
fn bytes_that_are_not_utf_8() {
    let latin = error_of(b"# caf\xE9 cr\xE8me\n").to_string();
    let words = "1:6: expected text in UTF-8, found the byte 0xE9; \
                 this looks like Latin-1 or Windows-1252: save the text as UTF-8";
    assert_eq!(latin, words);
    let windows = error_of(&["# é\natom K".as_bytes(), b"\x92"].concat());
    assert_eq!((windows.at.line, windows.at.column), (2, 7));
    assert_eq!(windows.found, "the byte 0x92");
    let hint = "this looks like Windows-1252: save the text as UTF-8";
    assert_eq!(windows.hint.as_deref(), Some(hint));
    let binary = error_of(b"\xC3\x28\x01\x02");
    assert_eq!(
        (binary.found.as_str(), binary.hint),
        ("the byte 0xC3", None)
    );
    let cut_off = error_of(&"# Ж".as_bytes()[..3]).to_string();
    assert!(cut_off.starts_with("1:3: expected text in UTF-8, found the byte 0xD0"));
}

/// Without newlines the first comment would be the whole text.
#[test]
fn carriage_returns_alone() {
    let text = "# a comment\ratom A principal known\rsecret A\r";
    let words = "1:12: expected a newline, found a carriage return alone; \
                 save the text with LF or CR LF between the lines, not with CR alone";
    assert_eq!(error_of(text.as_bytes()).to_string(), words);
    assert_eq!(assemble(text).unwrap_err().to_string(), words);
    let second = error_of(b"one\r\ntwo\rthree\r\n").at;
    let at = Span {
        line: 2,
        column: 4,
        width: 1,
    };
    assert_eq!(second, at);
    let windows = ATOMS.replace('\n', "\r\n");
    assert_eq!(assemble(&windows), assemble(ATOMS));
}
