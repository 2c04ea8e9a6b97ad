//! Any file and any text gets its explanation: generated and damaged files, and
//! texts with characters changed. Nothing may panic.

mod common;

use common::{line, lint, of_text, why};
use explain::source::Source;
use generate::random::Random;
use literal::Verdict;
use std::collections::BTreeMap;

fn number(source: &Source) -> u8 {
    match literal::verdict(&source.file) {
        Verdict::Accepted(_) => 0,
        Verdict::Refused(refusal) => refusal.number,
    }
}

/// What every explanation of a refusal has.
fn looked_at(source: &Source, seed: u64) {
    let said = why(source);
    let has = |words: &str| said.contains(words);
    match number(source) {
        0 => assert!(has("Nothing is to be explained"), "seed {seed}"),
        _ => assert!(has("\nexpected ") && has("\nfound "), "seed {seed}\n{said}"),
    }
    assert!(!has("DIFFER"), "seed {seed}");
    assert!(!lint(source).is_empty());
}

/// Damaged files show each of the numbers 1 to 11; as bytes and, where they can be
/// printed whole, as text.
#[test]
fn damaged_files() {
    let mut numbers = BTreeMap::new();
    for seed in 0..6_000 {
        let bytes = generate::damaged(seed);
        let source = Source::of_bytes("lane.cert", bytes.clone());
        looked_at(&source, seed);
        *numbers.entry(number(&source)).or_insert(0) += 1;
        if let Ok(source) = Source::of_text("lane.txt", text::print(&bytes).as_bytes()) {
            looked_at(&source, seed);
        }
    }
    println!("{numbers:?}");
    assert!(
        (1..=11).all(|number| numbers.get(&number) > Some(&20)),
        "{numbers:?}"
    );
}

/// For a 12 every encryption above the place is spoken of, and the caret stands
/// below a term that is the one at the place.
#[test]
fn generated_files() {
    let mut uncovered = 0;
    for seed in 0..3_000 {
        let source = Source::of_bytes("lane.cert", generate::file(seed));
        looked_at(&source, seed);
        if number(&source) == 12 {
            uncovered += 1;
            says_all_above(&source, seed);
        }
    }
    assert!(uncovered > 300, "{uncovered}");
}

fn says_all_above(source: &Source, seed: u64) {
    let certificate = literal::read::read(&source.file).unwrap();
    let Verdict::Refused(refusal) = literal::verdict(&source.file) else {
        panic!("seed {seed}");
    };
    let mut rules = certificate.rules.iter();
    let rule = rules
        .find(|rule| rule.block == refusal.block as usize)
        .unwrap();
    let entry = refusal.place as usize - rule.premise_entries();
    let places = literal::term::places(&rule.conclusion);
    let place = places.iter().find(|place| place.entry == entry).unwrap();
    let above = places.iter().filter(|upper| {
        upper.subterm.is_encryption() && literal::term::strictly_above(&upper.path, &place.path)
    });
    let said = why(source);
    let told = said.matches("is no sure hat:").count();
    assert_eq!(told, above.count(), "seed {seed}\n{said}");
    let span = source.span(explain::source::At::Entry(
        rule.block,
        refusal.place as usize,
    ));
    let carets = "^".repeat(span.unwrap().width);
    assert!(said.contains(&format!("{carets}\n")), "seed {seed}\n{said}");
}

/// Bytes that are no blocks at all.
#[test]
fn random_bytes() {
    let mut random = Random::new(7);
    for length in [0, 1, 511, 512, 513, 1_024, 5_120, 32_768, 33_280, 40_000] {
        for _ in 0..10 {
            let bytes: Vec<u8> = (0..length).map(|_| random.byte()).collect();
            looked_at(&Source::of_bytes("lane.cert", bytes), length as u64);
        }
    }
}

/// Texts with a piece left out, doubled or changed: an error with file, line and
/// column, or an explanation.
#[test]
fn changed_texts() {
    let (mut errors, mut read) = (0, 0);
    for (name, text) in common::texts("../../examples") {
        let mut random = Random::new(name.len() as u64);
        for _ in 0..150 {
            match Source::of_text("lane.txt", &changed(text.as_bytes(), &mut random)) {
                Err(told) => {
                    assert!(is_located(&told), "{told}");
                    errors += 1;
                }
                Ok(source) => {
                    looked_at(&source, 0);
                    read += 1;
                }
            }
        }
    }
    println!("{errors} errors, {read} explained");
    assert!(errors > 300 && read > 300);
}

fn changed(text: &[u8], random: &mut Random) -> Vec<u8> {
    const SIGNS: &[u8] = b"(){},?*-> #Nn!0K\t\r\xc3";
    let start = text.iter().position(|byte| *byte == b'\n').unwrap();
    let mut bytes = text.to_vec();
    for _ in 0..random.between(1, 2) {
        let at = random.between(start, bytes.len() - 1);
        match random.below(3) {
            0 => {
                bytes.remove(at);
            }
            1 => bytes.insert(at, bytes[at]),
            _ => bytes[at] = SIGNS[random.below(SIGNS.len())],
        }
    }
    bytes
}

/// `lane.txt:LINE:COLUMN: expected .., found ..`
fn is_located(told: &str) -> bool {
    let mut parts = told.splitn(4, ':');
    let name = parts.next() == Some("lane.txt");
    let mut is_number = || {
        parts
            .next()
            .is_some_and(|part| part.parse::<usize>().is_ok())
    };
    let located = is_number() && is_number();
    let first = told.lines().next().unwrap_or_default();
    name && located && first.contains(": expected ") && first.contains(", found ")
}

/// The text itself and its bytes have the same verdict, and what is said of both
/// names the same entries.
#[test]
fn text_and_bytes_agree() {
    for (_, text) in common::texts("../../examples") {
        let source = of_text(&text);
        let bytes = Source::of_bytes("lane.cert", source.file.clone());
        assert_eq!(line(&source), line(&bytes));
        let entries = |said: String| said.matches("entry ").count();
        assert_eq!(entries(why(&source)), entries(why(&bytes)));
    }
}
