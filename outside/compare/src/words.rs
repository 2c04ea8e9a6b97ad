//! Terms in the text form. The first eight atoms have the document's names,
//! the others are `a8` to `a251`.

use crate::{atoms, Question};
use literal::block::{entry_at, first_count};
use literal::numbers::{BLOCK, HEADER, MOST_ATOMS, MOST_ENTRIES};
use literal::Term;
use text::{document, sorts};

pub fn name(number: u16) -> String {
    match document::name(number as usize) {
        Some(name) => name.to_string(),
        None => format!("a{number}"),
    }
}

/// The entries of the term that the text says.
pub fn entries(term: &str) -> Result<Vec<u8>, String> {
    let atoms: String = (0..MOST_ATOMS as u16)
        .map(|n| format!("atom {} symmetric known\n", name(n)))
        .collect();
    let file = text::assemble(&format!("{atoms}good {term}"))
        .map_err(|error| format!("{term}: expected {}, found {}", error.expected, error.found))?;
    let block = &file[file.len() - BLOCK..];
    Ok(block[HEADER..entry_at(first_count(block))].to_vec())
}

pub fn text_of(term: &Term) -> String {
    match term {
        Term::Atom(number) => name(*number),
        Term::Pair(left, right) => format!("({}, {})", text_of(left), text_of(right)),
        Term::Encryption(message, key) => format!("{{{}}}{}", text_of(message), name(*key)),
        Term::Hash(message) => format!("h({})", text_of(message)),
        Term::Signature(message, key) => format!("sig({}){}", text_of(message), name(*key)),
        variable => sorts::shown(variable).expect("all other terms are variables"),
    }
}

/// The question with its terms and, in short, its atoms.
pub fn asked(question: Question, atoms: &[u8], s: &[u8], t: &[u8]) -> String {
    let (s, t, atoms) = (shown(s), shown(t), atoms::shown(atoms));
    format!("{question}: {s} and {t}, {atoms}")
}

/// The term as text, or the bytes if they are none, whatever the atoms are.
pub fn shown(bytes: &[u8]) -> String {
    match literal::decode(bytes) {
        Some(term) if term.size() <= MOST_ENTRIES => text_of(&term),
        _ => format!("the bytes [{}]", hex(bytes)),
    }
}

fn hex(bytes: &[u8]) -> String {
    let entries: Vec<String> = bytes
        .chunks(4)
        .map(|entry| entry.iter().map(|byte| format!("{byte:02x}")).collect())
        .collect();
    entries.join(" ")
}
