//! Letters and signs that look like those of the text form, or like nothing.

/// Letters of other alphabets, each beside the Latin one that it looks like.
const LOOKALIKES: [(&str, &str); 3] = [
    ("АВЕЅІЈКМНОРСТХаеіјорсух", "ABESIJKMHOPCTXaeijopcyx"),
    ("ΑΒΕΖΗΙΚΜΝΟΡΤΥΧονι", "ABEZHIKMNOPTYXovi"),
    ("’‘′´", "''''"),
];

/// How far the full-width signs stand behind those of ASCII.
const FULL_WIDTH: u32 = 0xFEE0;

/// The sign of ASCII that this one looks like, if it is another.
pub fn ascii_like(character: char) -> Option<char> {
    if ('！'..='～').contains(&character) {
        return char::from_u32(character as u32 - FULL_WIDTH);
    }
    let alike = |(others, ours): &(&str, &'static str)| {
        let place = others.chars().position(|other| other == character)?;
        ours.chars().nth(place)
    };
    LOOKALIKES.iter().find_map(alike)
}

/// The name with the letters of ASCII that its letters look like.
pub fn in_ascii(name: &str) -> String {
    name.chars()
        .map(|letter| ascii_like(letter).unwrap_or(letter))
        .collect()
}

/// Whether the character shows as a sign of its own.
pub fn is_visible(character: char) -> bool {
    match character.is_ascii() {
        true => !character.is_ascii_control(),
        false => character.escape_debug().count() == 1,
    }
}

/// A name that means nothing here, its letters outside ASCII by their numbers.
pub fn told_name(name: &str) -> String {
    let shown = quoted(name);
    match name.chars().find(|letter| !letter.is_ascii()) {
        Some(letter) if name.len() == letter.len_utf8() => told_sign(name),
        Some(letter) => format!("{shown}, in which `{letter}` is {}", number(letter)),
        None => shown,
    }
}

/// A sign that means nothing here, by its number if it is outside ASCII.
pub fn told_sign(sign: &str) -> String {
    match sign.chars().next() {
        Some(c) if c.is_control() => format!("the control character {}", number(c)),
        Some(c) if !is_visible(c) => number(c),
        Some(c) if !c.is_ascii() => format!("`{c}` ({})", number(c)),
        _ => quoted(sign),
    }
}

/// A longer word is cut.
pub const LONGEST_WORD: usize = 40;

/// The word in quotation marks; of a long one the beginning.
pub fn quoted(word: &str) -> String {
    match word.char_indices().nth(LONGEST_WORD) {
        Some((end, _)) => format!("`{}..`", &word[..end]),
        None => format!("`{word}`"),
    }
}

fn number(character: char) -> String {
    format!("U+{:04X}", character as u32)
}
