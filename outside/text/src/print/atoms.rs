//! The list of atoms, and the lines of its blocks.

use super::{entries_used, Printer};
use crate::atoms::{KINDS, KNOWN};
use crate::reader::word_for;
use literal::block::{self, Entry};
use literal::numbers::{atom_kind, kind, BLOCK, ENTRIES, MOST_ATOM_BLOCKS};

/// The entries of the first block, if that is an atom block, and of the second,
/// if that is one too and goes on from a full one.
pub struct AtomList {
    entries: Vec<Entry>,
}

impl AtomList {
    pub fn of(file: &[u8]) -> AtomList {
        let mut entries = Vec::new();
        for (number, block) in file.chunks_exact(BLOCK).enumerate() {
            if !goes_on(&entries, number, block) {
                break;
            }
            entries.extend(block::entries(block, 0, entries_used(block)));
        }
        AtomList { entries }
    }

    /// Whether the atoms of this block are in the list.
    pub fn has_those_of(&self, number: usize) -> bool {
        self.entries.len() > ENTRIES * number
    }

    /// Whether the blocks before this one are full.
    pub fn is_full_before(&self, number: usize) -> bool {
        self.entries.len() >= ENTRIES * number
    }

    /// A name for a listed atom, by its kind and number.
    pub fn name(&self, number: usize) -> String {
        let letter = match self.entries[number].first {
            atom_kind::PRINCIPAL => 'a',
            atom_kind::NONCE => 'n',
            atom_kind::PUBLIC..=atom_kind::SYMMETRIC => 'k',
            _ => 'e',
        };
        format!("{letter}{number}")
    }

    pub fn listed_name(&self, number: u16) -> Option<String> {
        let number = number as usize;
        (number < self.entries.len()).then(|| self.name(number))
    }

    pub fn is_key(&self, number: u16) -> bool {
        (atom_kind::PUBLIC..=atom_kind::SYMMETRIC).contains(&self.entries[number as usize].first)
    }

    pub fn is_private_key(&self, number: u16) -> bool {
        self.entries[number as usize].first == atom_kind::PRIVATE
    }

    /// The line of an atom, or what is wrong with it.
    fn line(&self, number: usize) -> Result<String, String> {
        let entry = &self.entries[number];
        let (kind, known) = (entry.first, entry.second);
        let kind = word_for(kind, &KINDS).ok_or(format!("{kind} is no kind of atom"))?;
        let known = word_for(known, &KNOWN).ok_or(format!("known is {known}"))?;
        let line = format!("atom {} {kind} {known}", self.name(number));
        let unsaid = match entry.first {
            atom_kind::PRINCIPAL | atom_kind::NONCE => Some(0),
            atom_kind::SYMMETRIC => Some(number),
            _ => None,
        };
        if unsaid == Some(entry.value as usize) {
            return Ok(line);
        }
        match self.listed_name(entry.value) {
            Some(partner) => Ok(format!("{line} partner {partner}")),
            None => Err(format!(
                "{kind}, {known}, and its partner {} is not listed",
                entry.value
            )),
        }
    }
}

/// Whether this is an atom block whose atoms can be numbered on from these.
fn goes_on(before: &[Entry], number: usize, block: &[u8]) -> bool {
    let is_atoms = block::kind(block) == kind::ATOMS;
    is_atoms && number < MOST_ATOM_BLOCKS && before.len() == ENTRIES * number
}

impl Printer {
    /// The lines of listed atoms, and which these are.
    pub fn atoms(&mut self, number: usize, block: &[u8]) {
        let first = ENTRIES * number;
        let last = first + entries_used(block) - 1;
        self.line(&format!("# block {number}: atoms {first} to {last}"));
        for (i, atom) in (first..=last).enumerate() {
            match self.atoms.line(atom) {
                Ok(line) if self.with_entries => {
                    self.line(&format!("{line}  # block {number}, entry {i}"))
                }
                Ok(line) => self.line(&line),
                Err(fault) => {
                    let words = format!("entry {i}, {}: {fault}", self.atoms.name(atom));
                    self.note(number, &words)
                }
            }
        }
    }

    /// Atoms that have no number.
    pub fn other_atoms(&mut self, number: usize, block: &[u8]) {
        for i in 0..entries_used(block) {
            let e = block::entry(block, i);
            let words = format!(
                "entry {i}: atom of kind {}, known {}, partner {}",
                e.first, e.second, e.value
            );
            self.note(number, &words);
        }
    }
}
