//! Bytes that are to be a text.

use crate::error::Error;
use crate::letters::told_sign;
use crate::origin::Span;

const MARKS: [(&[u8], &str); 5] = [
    (&[0xEF, 0xBB, 0xBF], "UTF-8"),
    // Before UTF-16, whose mark is the beginning of this one.
    (&[0xFF, 0xFE, 0, 0], "UTF-32, little-endian"),
    (&[0, 0, 0xFE, 0xFF], "UTF-32, big-endian"),
    (&[0xFF, 0xFE], "UTF-16, little-endian"),
    (&[0xFE, 0xFF], "UTF-16, big-endian"),
];

/// A longer text has lines to spare for every certificate.
pub const LONGEST_TEXT: usize = 1 << 20;

const NO_MARK: &str = "text in UTF-8 without a byte order mark";
const UTF_8: &str = "text in UTF-8";
const SAVE: &str = "save the text as UTF-8 without a byte order mark (BOM)";

/// The text that the bytes are.
pub fn text_of(bytes: &[u8]) -> Result<&str, Error> {
    // The whole text, of which no piece is drawn.
    let start = Span {
        width: 0,
        ..behind("")
    };
    if bytes.len() > LONGEST_TEXT {
        let expected = format!("a text of at most {LONGEST_TEXT} bytes");
        return Err(Error::new(start, &expected, "more"));
    }
    if let Some((_, name)) = MARKS.iter().find(|(mark, _)| bytes.starts_with(mark)) {
        let found = format!("the byte order mark of {name}");
        return Err(Error::new(start, NO_MARK, &found).or_hint(SAVE));
    }
    if let Some(name) = utf_16(bytes) {
        let found = format!("what looks like {name}");
        return Err(Error::new(start, UTF_8, &found).or_hint(SAVE));
    }
    let (text, wrong_byte) = utf_8_at_front(bytes);
    if let Some(error) = control(text).or_else(|| lone_return(text)) {
        return Err(error);
    }
    match wrong_byte {
        None => Ok(text),
        Some(byte) => {
            let found = format!("the byte 0x{byte:02X}");
            let error = Error::new(behind(text), UTF_8, &found);
            Err(error.or_maybe(latin_1(byte, bytes)))
        }
    }
}

/// UTF-16 without a mark: every second byte at the front is zero, no other is.
fn utf_16(bytes: &[u8]) -> Option<&'static str> {
    let pairs: Vec<&[u8]> = bytes.chunks_exact(2).take(16).collect();
    if pairs.len() < 2 {
        return None;
    }
    if pairs.iter().all(|pair| pair[0] != 0 && pair[1] == 0) {
        return Some("UTF-16, little-endian");
    }
    let is_big_endian = pairs.iter().all(|pair| pair[0] == 0 && pair[1] != 0);
    is_big_endian.then_some("UTF-16, big-endian")
}

/// The text before the first byte that is no UTF-8, and that byte.
fn utf_8_at_front(bytes: &[u8]) -> (&str, Option<u8>) {
    let chunk = bytes.utf8_chunks().next();
    let text = chunk.map_or("", |chunk| chunk.valid());
    (text, bytes.get(text.len()).copied())
}

/// The first control character, if there is one that lines do not need.
fn control(text: &str) -> Option<Error> {
    let is_wrong = |c: char| c.is_control() && !['\t', '\n', '\r'].contains(&c);
    let at = text.find(is_wrong)?;
    let error = Error::new(behind(&text[..at]), "text", &told_sign(&text[at..]));
    Some(match text.starts_with('\u{1}') {
        true => error.or_hint("this looks like the bytes of a certificate, not like its text"),
        false => error,
    })
}

/// The first carriage return that does not stand at the end of a line. As the
/// only sign between lines it would make the whole text one line.
pub fn lone_return(text: &str) -> Option<Error> {
    let in_line = |(line_number, line): (usize, &str)| {
        let at = line.trim_end_matches('\r').find('\r')?;
        Some(Span {
            line: line_number,
            ..behind(&line[..at])
        })
    };
    let at = (1..).zip(text.split('\n')).find_map(in_line)?;
    let error = Error::new(at, "a newline", "a carriage return alone");
    Some(error.or_hint("save the text with LF or CR LF between the lines, not with CR alone"))
}

/// A letter or a sign outside ASCII, if the other bytes are those of a text.
fn latin_1(byte: u8, bytes: &[u8]) -> Option<String> {
    let is_text = |byte: &u8| *byte >= b' ' || b"\t\n\r".contains(byte);
    let name = match byte {
        0xA0.. => "Latin-1 or Windows-1252",
        _ => "Windows-1252",
    };
    let hint = format!("this looks like {name}: save the text as UTF-8");
    bytes.iter().all(is_text).then_some(hint)
}

/// The one character behind this text.
fn behind(text: &str) -> Span {
    let last_line = text.rsplit('\n').next().unwrap_or("");
    Span {
        line: text.matches('\n').count() + 1,
        column: last_line.chars().count() + 1,
        width: 1,
    }
}
