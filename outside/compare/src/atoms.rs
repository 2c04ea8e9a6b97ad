//! Atom lists as bytes: entries of four, of which only the kind counts here.

use literal::numbers::{atom_kind, ENTRY, MOST_ATOMS};
use literal::read::Atom;

/// As many atoms as there can be, all of them keys that may sign.
pub fn all_keys() -> Vec<u8> {
    of_kinds(&[atom_kind::PRIVATE; MOST_ATOMS])
}

pub fn of_kinds(kinds: &[u8]) -> Vec<u8> {
    kinds.iter().flat_map(|kind| [*kind, 1, 0, 0]).collect()
}

pub fn bytes(atoms: &[Atom]) -> Vec<u8> {
    let entry = |atom: &Atom| {
        let [low, high] = atom.partner.to_le_bytes();
        [atom.kind, atom.known, low, high]
    };
    atoms.iter().flat_map(entry).collect()
}

/// The atoms that the bytes list; a last entry that is not whole counts for none.
pub fn read(bytes: &[u8]) -> Vec<Atom> {
    let atom = |entry: &[u8]| Atom {
        kind: entry[0],
        known: entry[1],
        partner: u16::from_le_bytes([entry[2], entry[3]]),
    };
    bytes.chunks_exact(ENTRY).map(atom).collect()
}

/// A line's list of kinds: words such as `nonce`, or `nonce*3` for three.
pub fn in_words(words: &str) -> Result<Vec<u8>, String> {
    let mut kinds = Vec::new();
    for word in words.split_whitespace() {
        let (name, count) = word.split_once('*').unwrap_or((word, "1"));
        let count = count.parse().map_err(|_| format!("`{word}`: no number"))?;
        kinds.extend(vec![kind(name)?; count]);
    }
    Ok(of_kinds(&kinds))
}

fn kind(name: &str) -> Result<u8, String> {
    match name {
        "principal" => Ok(atom_kind::PRINCIPAL),
        "nonce" => Ok(atom_kind::NONCE),
        "public" => Ok(atom_kind::PUBLIC),
        "private" => Ok(atom_kind::PRIVATE),
        "symmetric" => Ok(atom_kind::SYMMETRIC),
        _ => Err(format!("`{name}` is no kind of atom")),
    }
}

/// The kinds by number, for a report.
pub fn shown(bytes: &[u8]) -> String {
    let all = read(bytes);
    let kinds: Vec<String> = all.iter().map(|atom| atom.kind.to_string()).collect();
    match kinds.len() {
        0..=16 => format!("atoms of kinds [{}]", kinds.join(" ")),
        many => format!("{many} atoms, the first of kind {}", kinds[0]),
    }
}
