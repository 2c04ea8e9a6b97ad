//! Reading a file into a certificate: the numbers 1 to 8, in the document's
//! order.

pub use crate::atom::Atom;
use crate::block::{self, Entry};
use crate::numbers::{atom_kind, kind, tag};
use crate::numbers::{BLOCK, CHECKED, ENTRIES, MOST_ATOM_BLOCKS, MOST_BYTES};
use crate::numbers::{MOST_ENTRIES, VARIABLES};
#[cfg(test)]
use crate::slip::{self, Slip};
use crate::term::{term_of, Term};
use crate::verdict::Refusal;

/// A secret or a pattern, and its block.
#[derive(Clone, Debug)]
pub struct Listed {
    pub block: usize,
    pub term: Term,
}

#[derive(Clone, Debug)]
pub struct Rule {
    pub block: usize,
    pub premise: Option<Term>,
    pub conclusion: Term,
}

impl Rule {
    /// How many entries stand before the conclusion's first.
    pub fn premise_entries(&self) -> usize {
        self.premise.as_ref().map_or(0, Term::size)
    }
}

#[derive(Clone, Debug, Default)]
pub struct Certificate {
    pub blocks: usize,
    pub atoms: Vec<Atom>,
    pub secrets: Vec<Listed>,
    pub goods: Vec<Listed>,
    pub bads: Vec<Listed>,
    pub rules: Vec<Rule>,
}

pub(crate) fn refuse(number: u8, block: usize, place: usize) -> Refusal {
    Refusal {
        number,
        block: block as u8,
        place: place as u8,
    }
}

/// The certificate in the file, or the first fault among 1 to 8.
pub fn read(file: &[u8]) -> Result<Certificate, Refusal> {
    if file.is_empty() || file.len() % BLOCK != 0 || file.len() > MOST_BYTES {
        return Err(refuse(1, 0, 0));
    }
    #[cfg(test)]
    if slip::is(Slip::ChecksOverAllBlocksFirst) {
        if let Some(number) = file.chunks(BLOCK).position(|block| !check_right(block)) {
            return Err(refuse(2, number, 0));
        }
    }
    let blocks: Vec<&[u8]> = file.chunks(BLOCK).collect();
    let mut certificate = Certificate {
        blocks: blocks.len(),
        ..Certificate::default()
    };
    let (atoms, terms) = blocks.split_at(atom_blocks(&blocks));
    for number in 0..atoms.len() {
        bytes_right(&blocks, number)?;
        #[cfg(test)]
        slip::judge_at_once(atoms, number)?;
    }
    #[cfg(test)]
    slip::read_the_next_check(&blocks, atoms.len())?;
    certificate.atoms = read_atoms(atoms)?;
    for (i, block) in terms.iter().enumerate() {
        let number = atoms.len() + i;
        bytes_right(&blocks, number)?;
        read_terms(&mut certificate, number, block)?;
    }
    if certificate.secrets.is_empty() || certificate.rules.is_empty() {
        return Err(refuse(4, certificate.blocks, 0));
    }
    Ok(certificate)
}

/// How many blocks hold atoms: byte 0 of the second says whether it is one.
fn atom_blocks(blocks: &[&[u8]]) -> usize {
    #[cfg(test)]
    if let Some(count) = slip::atom_blocks_read(blocks) {
        return count;
    }
    let is_one = |block: &&[u8]| block::kind(block) == kind::ATOMS;
    match blocks.get(1).is_some_and(is_one) {
        true => MOST_ATOM_BLOCKS,
        false => 1,
    }
}

/// Of one block: 2, 3, 5.
fn bytes_right(blocks: &[&[u8]], number: usize) -> Result<(), Refusal> {
    if !check_right(blocks[number]) {
        return Err(refuse(2, number, 0));
    }
    if !kind_right(blocks, number) {
        return Err(refuse(3, number, 0));
    }
    if !layout_right(blocks[number]) || !full_before(blocks, number) {
        return Err(refuse(5, number, 0));
    }
    Ok(())
}

/// A block with terms, after 2, 3 and 5: 7 and 8.
fn read_terms(certificate: &mut Certificate, number: usize, block: &[u8]) -> Result<(), Refusal> {
    match block::kind(block) {
        kind::RULE => {
            let rule = read_rule(&certificate.atoms, number, block)?;
            certificate.rules.push(rule);
        }
        kind => {
            let listed = read_listed(&certificate.atoms, number, block)?;
            match kind {
                kind::SECRET => certificate.secrets.push(listed),
                kind::GOOD => certificate.goods.push(listed),
                _ => certificate.bads.push(listed),
            }
        }
    }
    Ok(())
}

pub(crate) fn check_right(block: &[u8]) -> bool {
    #[cfg(test)]
    if slip::is(Slip::CheckUnreduced) {
        return slip::same_remainders(block::check_of(block), block::stored_check(block));
    }
    block::check_of(block) == block::stored_check(block)
}

/// Atoms first, in one block or two, then the other kinds in rising order.
fn kind_right(blocks: &[&[u8]], number: usize) -> bool {
    let kind = block::kind(blocks[number]);
    if number < atom_blocks(blocks) {
        return kind == kind::ATOMS;
    }
    (kind::SECRET..=kind::RULE).contains(&kind) && block::kind(blocks[number - 1]) <= kind
}

/// Before a second atom block the first is full.
fn full_before(blocks: &[&[u8]], number: usize) -> bool {
    #[cfg(test)]
    if slip::is(Slip::FirstNotFull) {
        return true;
    }
    let is_second = (1..atom_blocks(blocks)).contains(&number);
    !is_second || block::first_count(blocks[number - 1]) == ENTRIES
}

/// The counts, byte 3 and the unused entries.
fn layout_right(block: &[u8]) -> bool {
    counts_right(block) && block[3] == 0 && unused_entries_zero(block)
}

fn counts_right(block: &[u8]) -> bool {
    let first = block::first_count(block);
    let second = block::second_count(block);
    match block::kind(block) {
        kind::ATOMS => (1..=ENTRIES).contains(&first) && second == 0,
        kind::RULE => first <= MOST_ENTRIES && (1..=MOST_ENTRIES).contains(&second),
        _ => (1..=MOST_ENTRIES).contains(&first) && second == 0,
    }
}

fn unused_entries_zero(block: &[u8]) -> bool {
    #[cfg(test)]
    if slip::is(Slip::UnusedNotRead) {
        return true;
    }
    let used = block::first_count(block) + block::second_count(block);
    block[block::entry_at(used)..CHECKED]
        .iter()
        .all(|byte| *byte == 0)
}

/// The atoms of one block, or of two as one list: 6 for each in turn.
pub(crate) fn read_atoms(blocks: &[&[u8]]) -> Result<Vec<Atom>, Refusal> {
    let atoms: Vec<Atom> = blocks.iter().flat_map(|block| atoms_in(block)).collect();
    #[cfg(test)]
    let atoms = slip::joined_otherwise(atoms);
    for i in 0..atoms.len() {
        if !atom_right(&atoms, i) {
            let (block, entry) = (i / ENTRIES, i % ENTRIES);
            #[cfg(test)]
            let entry = slip::atom_told(i, entry);
            return Err(refuse(6, block, entry));
        }
    }
    Ok(atoms)
}

fn atoms_in(block: &[u8]) -> Vec<Atom> {
    let entries = block::entries(block, 0, block::first_count(block));
    let atom = |e: &Entry| Atom {
        kind: e.first,
        known: e.second,
        partner: e.value,
    };
    entries.iter().map(atom).collect()
}

fn atom_right(atoms: &[Atom], i: usize) -> bool {
    let atom = &atoms[i];
    let partner_right = match atom.kind {
        atom_kind::PRINCIPAL | atom_kind::NONCE => atom.partner == 0,
        atom_kind::PUBLIC => names_back(atoms, i, atom_kind::PRIVATE),
        atom_kind::PRIVATE => names_back(atoms, i, atom_kind::PUBLIC),
        #[cfg(test)]
        atom_kind::SYMMETRIC if slip::is(Slip::SymmetricNamesItsPlace) => {
            atom.partner as usize == i % ENTRIES
        }
        atom_kind::SYMMETRIC => atom.partner as usize == i,
        _ => false,
    };
    atom.known <= 1 && partner_right
}

/// Whether the partner of atom i has this kind and names i as its partner.
fn names_back(atoms: &[Atom], i: usize, kind: u8) -> bool {
    match atoms.get(atoms[i].partner as usize) {
        #[cfg(test)]
        Some(partner) if slip::is(Slip::PartnerNotNamedBack) => partner.kind == kind,
        #[cfg(test)]
        Some(_) if slip::is_beyond_its_block(atoms[i].partner, i) => false,
        Some(partner) => partner.kind == kind && partner.partner as usize == i,
        None => false,
    }
}

/// A secret, good or bad block.
fn read_listed(atoms: &[Atom], number: usize, block: &[u8]) -> Result<Listed, Refusal> {
    let kind = block::kind(block);
    let entries = block::entries(block, 0, block::first_count(block));
    entries_right(atoms, number, kind, &entries)?;
    match term_of(&entries) {
        Some(term) if kind == kind::SECRET || may_be_pattern(&term) => Ok(Listed {
            block: number,
            term,
        }),
        _ => Err(refuse(8, number, 0)),
    }
}

fn may_be_pattern(term: &Term) -> bool {
    #[cfg(test)]
    if slip::hashes::may_be_pattern(term) {
        return true;
    }
    term.is_encryption()
}

fn read_rule(atoms: &[Atom], number: usize, block: &[u8]) -> Result<Rule, Refusal> {
    let middle = block::first_count(block);
    let end = middle + block::second_count(block);
    #[cfg(test)]
    if slip::is(Slip::EightBeforeSeven) && middle > 0 {
        entries_right(atoms, number, kind::RULE, &block::entries(block, 0, middle))?;
        term_of(&block::entries(block, 0, middle)).ok_or(refuse(8, number, 0))?;
    }
    entries_right(atoms, number, kind::RULE, &block::entries(block, 0, end))?;
    let premise = if middle == 0 {
        None
    } else {
        let term = term_of(&block::entries(block, 0, middle));
        Some(term.ok_or(refuse(8, number, 0))?)
    };
    let term = term_of(&block::entries(block, middle, end));
    Ok(Rule {
        block: number,
        premise,
        conclusion: term.ok_or(refuse(8, number, middle))?,
    })
}

fn entries_right(
    atoms: &[Atom],
    number: usize,
    kind: u8,
    entries: &[Entry],
) -> Result<(), Refusal> {
    for (i, entry) in entries.iter().enumerate() {
        if !entry_right(atoms, kind, entry) {
            return Err(refuse(7, number, i));
        }
    }
    Ok(())
}

/// Tag, zero byte and value, and whether a variable may stand here.
fn entry_right(atoms: &[Atom], kind: u8, entry: &Entry) -> bool {
    #[cfg(test)]
    if let Some(answer) = slip::nonces::entry_right_otherwise(kind, entry) {
        return answer;
    }
    #[cfg(test)]
    if let Some(answer) = slip::hashes::entry_right_otherwise(atoms, kind, entry) {
        return answer;
    }
    let atom = atoms.get(entry.value as usize);
    #[cfg(test)]
    let atom = slip::atom_reached(atom, entry.value);
    let is_variable = entry.value < VARIABLES as u16;
    let tag_and_value_right = match entry.first {
        tag::ATOM => atom.is_some(),
        #[cfg(test)]
        tag::ENCRYPTION if slip::is(Slip::AnyAtomAsKey) => atom.is_some(),
        #[cfg(test)]
        tag::MARKED if slip::is(Slip::MarkRefusedInBad) => is_variable && kind == kind::GOOD,
        tag::PAIR | tag::HASH => entry.value == 0,
        tag::SIGNATURE => atom.is_some_and(Atom::is_private_key),
        tag::ENCRYPTION => atom.is_some_and(Atom::is_key),
        tag::PLAIN | tag::PLAIN_NONCE => is_variable && kind != kind::SECRET,
        tag::MARKED | tag::MARKED_NONCE => is_variable && matches!(kind, kind::GOOD | kind::BAD),
        _ => false,
    };
    entry.second == 0 && tag_and_value_right
}
