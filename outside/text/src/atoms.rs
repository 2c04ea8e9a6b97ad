//! The lines of atoms.

use crate::error::Error;
use crate::hints;
use crate::letters::quoted;
use crate::lines::Line;
use crate::names::{near_atom, no_atom, number_of};
use crate::nearest::did_you_mean;
use crate::origin::{BlockOrigin, Span};
use crate::reader::Reader;
use crate::tokens::Token;
use literal::block::sealed;
use literal::numbers::{atom_kind, kind, ENTRIES, ENTRY, MOST_ATOMS};

/// The kinds of atoms.
pub const KINDS: [(&str, u8); 5] = [
    ("principal", atom_kind::PRINCIPAL),
    ("nonce", atom_kind::NONCE),
    ("public", atom_kind::PUBLIC),
    ("private", atom_kind::PRIVATE),
    ("symmetric", atom_kind::SYMMETRIC),
];
/// Whether an atom is known.
pub const KNOWN: [(&str, u8); 2] = [("known", 1), ("unknown", 0)];

pub fn atom_names(atoms: &[Line]) -> Result<Vec<String>, Error> {
    let mut names: Vec<String> = Vec::new();
    for line in atoms {
        let (name, at) = atom_name(&mut line.reader())?;
        if let Some(first) = number_of(name, &names) {
            let hint = format!(
                "the atom of line {} has this name",
                atoms[first as usize].span().line
            );
            return Err(Error::new(at, "a new name", &quoted(name)).or_hint(&hint));
        }
        if names.len() == MOST_ATOMS {
            let expected = format!("at most {MOST_ATOMS} atoms");
            return Err(Error::new(at, &expected, "one more"));
        }
        names.push(name.to_string());
    }
    Ok(names)
}

fn atom_name<'a>(reader: &mut Reader<'a>) -> Result<(&'a str, Span), Error> {
    let named = reader.name("the atom's name");
    named.map_err(|error| error.or_hint(hints::ATOM_LINE))
}

/// As many blocks as the atoms take, all but the last full.
pub fn atom_blocks(atoms: &[Line], names: &[String]) -> Result<Vec<u8>, Error> {
    let mut entries = Vec::new();
    for (number, line) in (0..).zip(atoms) {
        entries.extend(atom_entry(number, line, names)?);
    }
    let blocks = entries.chunks(ENTRY * ENTRIES);
    Ok(blocks.flat_map(|e| sealed(kind::ATOMS, e, &[])).collect())
}

/// The origins of those blocks.
pub fn atom_origins(atoms: &[Line]) -> Vec<BlockOrigin> {
    let spans: Vec<Span> = atoms.iter().map(Line::span).collect();
    let origin = |lines: &[Span]| BlockOrigin {
        line: lines[0],
        entries: lines.to_vec(),
        variables: Vec::new(),
    };
    spans.chunks(ENTRIES).map(origin).collect()
}

fn atom_entry(number: u16, line: &Line, names: &[String]) -> Result<Vec<u8>, Error> {
    let mut reader = line.reader();
    atom_name(&mut reader)?;
    let kind = kind_of_atom(&mut reader)?;
    let known = reader.one_of(&KNOWN);
    let known = known.map_err(|error| error.or_hint(hints::ATOM_LINE))?;
    let partner = match (partner(&mut reader, names)?, kind) {
        (Some(partner), _) => partner,
        (None, atom_kind::SYMMETRIC) => number,
        (None, atom_kind::PUBLIC | atom_kind::PRIVATE) => {
            return Err(reader.error("`partner`").or_hint(hints::PARTNERS))
        }
        _ => 0,
    };
    reader.end()?;
    let [low, high] = partner.to_le_bytes();
    Ok(vec![kind, known, low, high])
}

fn kind_of_atom(reader: &mut Reader) -> Result<u8, Error> {
    let hint = match reader.peek() {
        Some(Token::Name(name)) if name == "key" => hints::KEY_KIND,
        _ => hints::ATOM_LINE,
    };
    let kind = reader.one_of(&KINDS);
    kind.map_err(|error| error.or_hint(hint))
}

/// The partner's number, if the line goes on.
fn partner(reader: &mut Reader, names: &[String]) -> Result<Option<u16>, Error> {
    match reader.peek() {
        None => return Ok(None),
        Some(Token::Name(word)) if word == "partner" => reader.skip(),
        Some(_) => return Err(no_partner(reader)),
    }
    let (name, at) = reader.name("the partner's name")?;
    match number_of(name, names) {
        Some(number) => Ok(Some(number)),
        None => Err(no_atom(at, "an atom's name", name).or_maybe(near_atom(name, names))),
    }
}

/// That something else stands where a partner may be named.
fn no_partner(reader: &Reader) -> Error {
    let near = match reader.peek() {
        Some(Token::Name(name)) => did_you_mean(name, ["partner"].into_iter()),
        _ => None,
    };
    let error = reader.error("`partner` or the end of the line");
    error.or_maybe(near).or_hint(hints::PARTNER)
}
