//! The archive and the outside reference on the known answers.

use compare::no_terms::{self, NoTerm};
use compare::{outside, proved, vectors, words, Answer, QUESTIONS};

#[test]
fn both_give_the_known_answers() {
    let vectors = vectors::all().unwrap();
    assert!(vectors.len() >= 40);
    for vector in &vectors {
        let atoms = &vector.atoms;
        for (question, s, t, expected) in vector.questions() {
            let asked = words::asked(question, atoms, s, t);
            assert_eq!(
                outside::ask(question, atoms, s, t),
                expected,
                "literal, {asked}"
            );
            assert_eq!(
                proved::ask(question, atoms, s, t),
                expected,
                "archive, {asked}"
            );
        }
    }
}

#[test]
fn both_read_no_term() {
    let term = words::entries("?x").unwrap();
    for NoTerm { what, atoms, bytes } in &no_terms::all() {
        for question in QUESTIONS {
            for (s, t) in [(&term, bytes), (bytes, &term), (bytes, bytes)] {
                assert_eq!(
                    outside::ask(question, atoms, s, t),
                    Answer::NoTerm,
                    "{what}"
                );
                assert_eq!(proved::ask(question, atoms, s, t), Answer::NoTerm, "{what}");
            }
        }
    }
}

#[test]
fn words_come_back_as_entries() {
    for vector in vectors::all().unwrap() {
        for term in [vector.first, vector.second] {
            assert_eq!(words::entries(&words::shown(&term)), Ok(term));
        }
    }
}

/// At most 63 entries, and the largest are among the vectors.
#[test]
fn the_largest_terms_have_63_entries() {
    let vectors = vectors::all().unwrap();
    let sizes = vectors.iter().map(|vector| vector.first.len() / 4);
    assert_eq!(sizes.max(), Some(63));
}
