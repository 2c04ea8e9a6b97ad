//! The numbers 6, 7 and 8: entries of atoms and of terms.

use crate::layout::block_of;
use crate::report::{counted, Finding};
use crate::source::{At, Source};
use literal::block::{self, Entry};
use literal::numbers::{atom_kind, kind, tag, BLOCK, ENTRIES, MOST_ATOM_BLOCKS, VARIABLES};

/// The entries of the atom blocks at the front.
fn atoms(file: &[u8]) -> Vec<Entry> {
    let blocks = file.chunks_exact(BLOCK).take(MOST_ATOM_BLOCKS);
    let atoms = blocks.take_while(|block| block::kind(block) == kind::ATOMS);
    atoms
        .flat_map(|block| block::entries(block, 0, block::first_count(block).min(ENTRIES)))
        .collect()
}

/// 6: an atom entry.
pub fn atom(source: &Source, number: usize, place: usize) -> Finding {
    let atoms = atoms(&source.file);
    let (expected, found) = wrong_atom(source, &atoms, ENTRIES * number + place);
    Finding {
        what: "the entry of an atom is wrong".to_string(),
        at: At::Entry(number, place),
        found,
        expected,
    }
}

/// What is expected of this atom and what was found.
fn wrong_atom(source: &Source, atoms: &[Entry], i: usize) -> (String, String) {
    let atom = atoms[i];
    if !(atom_kind::PRINCIPAL..=atom_kind::SYMMETRIC).contains(&atom.first) {
        let kinds = "kind 1 (principal), 2 (nonce), 3 (public), 4 (private) or 5 (symmetric key)";
        return (kinds.to_string(), format!("kind {}", atom.first));
    }
    if atom.second > 1 {
        let known = "0 (unknown) or 1 (known)".to_string();
        return (known, format!("{} as known", atom.second));
    }
    let name = source.atom(i as u16);
    match atom.first {
        atom_kind::PRINCIPAL | atom_kind::NONCE => (
            format!(
                "no partner, which is 0: {} has none",
                atom_words(atom.first)
            ),
            partner_words(source, atoms, atom.value),
        ),
        atom_kind::SYMMETRIC => (
            format!("partner {name}: a symmetric key is its own partner"),
            partner_words(source, atoms, atom.value),
        ),
        atom_kind::PUBLIC => wrong_partner(source, atoms, i, &name, atom_kind::PRIVATE),
        _ => wrong_partner(source, atoms, i, &name, atom_kind::PUBLIC),
    }
}

/// A partner that is listed, by its name; another one by its number.
fn partner_words(source: &Source, atoms: &[Entry], partner: u16) -> String {
    match (partner as usize) < atoms.len() {
        true => format!("partner {}", source.atom(partner)),
        false => format!("partner {partner}; {} atoms are listed", atoms.len()),
    }
}

/// The partner of a public or private key.
fn wrong_partner(
    source: &Source,
    atoms: &[Entry],
    i: usize,
    name: &str,
    wanted: u8,
) -> (String, String) {
    let wanted = atom_words(wanted);
    let expected = format!("{wanted} that names {name} as its partner too");
    let value = atoms[i].value;
    let mut found = partner_words(source, atoms, value);
    if let Some(partner) = atoms.get(value as usize) {
        found += &format!(", {}", atom_words(partner.first));
        if partner.value as usize != i {
            found += &format!(", whose partner is {}", source.atom(partner.value));
        }
    }
    (expected, found)
}

/// A kind of atom in words.
pub fn atom_words(kind: u8) -> &'static str {
    match kind {
        atom_kind::PRINCIPAL => "a principal",
        atom_kind::NONCE => "a nonce",
        atom_kind::PUBLIC => "a public key",
        atom_kind::PRIVATE => "a private key",
        atom_kind::SYMMETRIC => "a symmetric key",
        _ => "an atom of an unknown kind",
    }
}

/// 7: an entry of a term.
pub fn entry(source: &Source, number: usize, place: usize) -> Finding {
    let block = block_of(&source.file, number);
    let entry = block::entry(block, place);
    let (expected, found) = wrong_entry(source, block::kind(block), &entry);
    Finding {
        what: "a tag, zero byte or value is wrong, or a variable is not allowed here".to_string(),
        at: At::Entry(number, place),
        found,
        expected,
    }
}

/// What is expected of this entry and what was found.
fn wrong_entry(source: &Source, kind: u8, entry: &Entry) -> (String, String) {
    let value = entry.value;
    if !(tag::ATOM..=tag::SIGNATURE).contains(&entry.first) {
        let expected = format!("a tag from {} to {}", tag::ATOM, tag::SIGNATURE);
        return (expected, format!("tag {}", entry.first));
    }
    if entry.second != 0 {
        let expected = "zero in the entry's second byte".to_string();
        return (expected, entry.second.to_string());
    }
    match entry.first {
        tag::PAIR => ("value 0 of a pair".to_string(), format!("value {value}")),
        tag::HASH => ("value 0 of a hash".to_string(), format!("value {value}")),
        tag::PLAIN..=tag::MARKED_NONCE => wrong_variable(kind, entry),
        _ => wrong_number(source, entry),
    }
}

fn wrong_variable(kind: u8, entry: &Entry) -> (String, String) {
    let marked = matches!(entry.first, tag::MARKED | tag::MARKED_NONCE);
    let word = if marked {
        "a marked variable"
    } else {
        "a variable"
    };
    if entry.value >= VARIABLES as u16 {
        let expected = format!("a variable's number from 0 to {}", VARIABLES - 1);
        return (expected, entry.value.to_string());
    }
    let expected = match kind {
        kind::SECRET => "a secret without variables",
        _ => "marked variables in good and bad patterns only",
    };
    (expected.to_string(), word.to_string())
}

/// The number of an atom or of a key.
fn wrong_number(source: &Source, entry: &Entry) -> (String, String) {
    let atoms = atoms(&source.file);
    let Some(atom) = atoms.get(entry.value as usize) else {
        let last = atoms.len().saturating_sub(1);
        let expected = format!("an atom's number from 0 to {last}: so many are listed");
        return (expected, entry.value.to_string());
    };
    let name = source.atom(entry.value);
    let found = format!("{name}, {}", atom_words(atom.first));
    match entry.first {
        tag::SIGNATURE => ("a private key to sign with".to_string(), found),
        _ => ("a key to encrypt under".to_string(), found),
    }
}

/// 8: no whole term, or a pattern that is no encryption.
pub fn whole(source: &Source, number: usize, place: usize) -> Finding {
    let block = block_of(&source.file, number);
    let (kind, first) = (block::kind(block), block::first_count(block));
    let end = match kind {
        kind::RULE if place >= first => first + block::second_count(block),
        _ => first,
    };
    let entries = block::entries(block, place, end);
    let (expected, found) = match ends(&entries) {
        Ok(0) => (
            "an encryption {..}KEY at the root of a pattern".to_string(),
            root_words(entries[0].first).to_string(),
        ),
        Ok(more) => (
            "entries that are exactly one term".to_string(),
            format!("a whole term, and behind it {}", entry_count(more)),
        ),
        Err(missing) => (
            "entries that are exactly one term".to_string(),
            format!(
                "{}, which need {} more",
                entry_count(entries.len()),
                counted(missing, "term")
            ),
        ),
    };
    Finding {
        what: "the entries are not exactly one term, or a pattern is no encryption".to_string(),
        at: At::Entry(number, place),
        found,
        expected,
    }
}

fn entry_count(count: usize) -> String {
    match count {
        1 => "1 entry".to_string(),
        _ => format!("{count} entries"),
    }
}

/// How many entries stand behind the first term, or how many terms it lacks.
fn ends(entries: &[Entry]) -> Result<usize, usize> {
    let mut wanted = 1;
    for (i, entry) in entries.iter().enumerate() {
        wanted = wanted - 1 + children(entry.first);
        if wanted == 0 {
            return Ok(entries.len() - i - 1);
        }
    }
    Err(wanted)
}

fn children(tag: u8) -> usize {
    match tag {
        tag::PAIR => 2,
        tag::ENCRYPTION | tag::HASH | tag::SIGNATURE => 1,
        _ => 0,
    }
}

fn root_words(tag: u8) -> &'static str {
    match tag {
        tag::ATOM => "an atom",
        tag::PAIR => "a pair",
        tag::HASH => "a hash, which is no hat",
        tag::SIGNATURE => "a signature, which hides nothing",
        _ => "a variable",
    }
}
