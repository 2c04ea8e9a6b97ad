//! Whatever the text, assembling ends with blocks or with an error that points
//! into it.

use generate::random::Random;
use text::document::{joined_atoms, ATOMS, GOOD, SECRETS};
use text::{assemble, print, text_of, Error};

/// Characters that are put in.
const PUT_IN: &str = "(){},?*!-><=#hsign KANx09'_\t\n\r;:%/\"→К（\u{200B}\u{301}\0é";

/// The error's piece begins inside the text, or right behind a line of it, and
/// it can be told.
fn assert_inside(text: &str, error: &Error) {
    let lines: Vec<&str> = text.lines().collect();
    let line = lines.get(error.at.line.wrapping_sub(1));
    let length = line.unwrap_or_else(|| panic!("no such line: {error}\n{text}"));
    let length = length.chars().count();
    let end = error.at.column + error.at.width;
    assert!(
        (1..=length + 1).contains(&error.at.column),
        "{error}\n{text}"
    );
    assert!(end <= length + 2 && error.at.width > 0, "{error}\n{text}");
    assert!(!error.expected.is_empty() && !error.found.is_empty());
    assert!(error.told("x", text).lines().count() >= 3, "{error}");
}

fn assembles(text: &str) -> bool {
    match assemble(text) {
        Ok(file) => {
            assert_eq!(file.len() % 512, 0);
            true
        }
        Err(error) => {
            assert_inside(text, &error);
            false
        }
    }
}

/// One slip: a character left out, doubled, replaced or put in, two lines
/// swapped, or one left out.
fn with_a_slip(random: &mut Random, text: &str) -> String {
    let mut letters: Vec<char> = text.chars().collect();
    let mut lines: Vec<&str> = text.lines().collect();
    let at = random.below(letters.len().max(1));
    let other = *random.pick(&PUT_IN.chars().collect::<Vec<_>>());
    let line = random.below(lines.len().max(1));
    match random.below(6) {
        _ if lines.is_empty() => letters.push(other),
        0 => drop(letters.remove(at)),
        1 => letters.insert(at, letters[at]),
        2 => letters[at] = other,
        3 => letters.insert(at, other),
        4 => {
            lines.swap(line, 0);
            return lines.join("\n");
        }
        _ => {
            lines.remove(line);
            return lines.join("\n");
        }
    }
    letters.into_iter().collect()
}

#[test]
fn texts_with_slips() {
    let own = format!("{ATOMS}{SECRETS}{GOOD}rule {{sig((?x, h(?n!y)))KIi}}KA -> ?x # why\n");
    let (mut right, mut wrong) = (0, 0);
    for seed in 0..6_000 {
        let mut random = Random::new(seed);
        let mut text = match seed % 3 {
            0 => own.clone(),
            1 => print(&generate::certificate(seed)),
            _ => joined_atoms() + "secret {(P, S)}K\nrule -> {*n!7}S",
        };
        for _ in 0..random.between(1, 4) {
            text = with_a_slip(&mut random, &text);
        }
        match assembles(&text) {
            true => right += 1,
            false => wrong += 1,
        }
    }
    assert!(right > 500 && wrong > 2_000, "{right} {wrong}");
}

#[test]
fn every_beginning_of_a_text() {
    let lines = "good {(*s, (?n!x, h(T)))}KA # all\nrule sig(?x)KIi -> {(?x, N)}KI\n";
    let text = format!("# Ключ\r\n{ATOMS}{lines}");
    let ends = text.char_indices().map(|(at, _)| at);
    let whole = ends.filter(|end| assembles(&text[..*end])).count();
    assert!(whole > 25, "{whole}");
    assert!(assembles(&text));
}

/// Any bytes: what is a text is assembled, and other bytes are told of too.
#[test]
fn any_bytes() {
    let mut texts = 0;
    for seed in 0..3_000 {
        let mut random = Random::new(seed);
        let mut bytes = [ATOMS, SECRETS].concat().into_bytes();
        for _ in 0..random.below(3) {
            let at = random.below(bytes.len());
            bytes[at] = random.byte();
        }
        match text_of(&bytes) {
            Ok(text) => {
                assembles(text);
                texts += 1;
            }
            Err(error) => assert_inside(&String::from_utf8_lossy(&bytes), &error),
        }
    }
    assert!((1_000..2_900).contains(&texts), "{texts}");
}

#[test]
fn random_signs() {
    let signs: Vec<char> = PUT_IN.chars().collect();
    for seed in 0..3_000 {
        let mut random = Random::new(seed);
        let length = random.below(60);
        let line: String = (0..length).map(|_| *random.pick(&signs)).collect();
        assembles(&format!("{ATOMS}rule {line}"));
        assembles(&line);
    }
}
