//! Numbers 2 to 8, block by block, and what the blocks say.

use crate::alphabet::{value_of, Alphabet, AtomBlocks, IN_PATTERN, IN_RULE, IN_SECRET, NEVER};
use crate::block::{self, Block};
use crate::fault;
use crate::numbers::{kind, ATOM_BLOCKS, BLOCK, ENTRIES, PLACES, SLOTS};
use crate::term::Term;
use std::ops::Range;

pub struct Certificate {
    pub alphabet: Alphabet,
    /// Two for a block; the first is empty for a rule without a premise.
    pub terms: [Term; SLOTS],
    pub has_nonce_variables: bool,
    /// The first block of each kind, and the number of blocks.
    starts: [usize; kind::RULE as usize + 2],
}

impl Certificate {
    pub const EMPTY: Certificate = Certificate {
        alphabet: Alphabet::EMPTY,
        terms: [Term::EMPTY; SLOTS],
        has_nonce_variables: false,
        starts: [0; kind::RULE as usize + 2],
    };

    pub fn blocks_of(&self, kind: u8) -> Range<usize> {
        self.starts[kind as usize]..self.starts[kind as usize + 1]
    }

    pub fn term(&self, block: usize) -> &Term {
        &self.terms[slot(block)]
    }

    pub fn conclusion(&self, block: usize) -> &Term {
        &self.terms[slot(block) + 1]
    }

    /// Reads all blocks; the check of block 0 is known to be right.
    pub fn read(&mut self, file: &[u8]) -> Result<(), u32> {
        let blocks = file.len() / BLOCK;
        let first = self.atoms(file)?;
        self.starts.fill(first);
        let mut kind_before = kind::SECRET;
        for i in first..blocks {
            let block = block::part(file, i);
            if !block::check_is_right(block) {
                return Err(fault(2, i, 0));
            }
            let kind = block[0];
            if kind < kind_before || kind > kind::RULE {
                return Err(fault(3, i, 0));
            }
            self.starts[kind_before as usize + 1..=kind as usize].fill(i);
            kind_before = kind;
            self.block(block, i)?;
        }
        self.starts[kind_before as usize + 1..].fill(blocks);
        if self.blocks_of(kind::SECRET).is_empty() || self.blocks_of(kind::RULE).is_empty() {
            return Err(fault(4, blocks, 0));
        }
        if self.has_nonce_variables {
            let alphabet = &self.alphabet;
            self.terms.iter_mut().for_each(|t| t.find_nonces(alphabet));
        }
        Ok(())
    }

    /// Reads the atom blocks; answers how many there are.
    fn atoms(&mut self, file: &[u8]) -> Result<usize, u32> {
        let first = block::part(file, 0);
        if first[0] != kind::ATOMS {
            return Err(fault(3, 0, 0));
        }
        let (count, _) = block::counts(first).ok_or(fault(5, 0, 0))?;
        let mut all = AtomBlocks {
            blocks: [first; ATOM_BLOCKS],
            counts: [count, 0],
        };
        let has_second = file.get(BLOCK) == Some(&kind::ATOMS);
        if has_second {
            all.blocks[1] = block::part(file, 1);
            all.counts[1] = second_count(all.blocks[1], count)?;
        }
        let blocks = 1 + has_second as usize;
        for block in 0..blocks {
            let atoms = self.alphabet.add_atoms(&all, block);
            atoms.map_err(|entry| fault(6, block, entry))?;
        }
        Ok(blocks)
    }

    /// Numbers 5, 7 and 8 for a block of terms.
    fn block(&mut self, block: &Block, i: usize) -> Result<(), u32> {
        let (first, second) = block::counts(block).ok_or(fault(5, i, 0))?;
        let place = place_of(block[0]);
        let slot = slot(i);
        let entries = block::entries(block);
        let before = self.terms[slot].read(room(&entries, 0), first, &self.alphabet, place);
        let after = self.terms[slot + 1].read(room(&entries, first), second, &self.alphabet, place);
        let any = entries[..ENTRIES].iter().fold(0, |any, entry| any | entry);
        if any & NEVER != 0 || !before || !after {
            let is_wrong = |entry: &u32| !self.alphabet.allows(*entry, place);
            let entry = entries.iter().position(is_wrong).unwrap_or(0);
            return Err(fault(7, i, entry));
        }
        self.prepare(block[0], i)
            .map_err(|entry| fault(8, i, entry))
    }

    /// Number 8, and what the term is needed for later.
    fn prepare(&mut self, kind: u8, i: usize) -> Result<(), usize> {
        let [term, conclusion] = [self.term(i), self.conclusion(i)];
        let is_missing = kind == kind::RULE && term.length() == 0;
        let is_no_pattern = matches!(kind, kind::GOOD | kind::BAD) && term.encryptions & 1 == 0;
        if !(is_missing || term.is_whole()) || is_no_pattern {
            return Err(0);
        }
        if kind == kind::RULE && !conclusion.is_whole() {
            return Err(term.length());
        }
        let for_nonces = term.nonce_variables() | conclusion.nonce_variables();
        self.has_nonce_variables |= for_nonces != 0;
        let term = &mut self.terms[slot(i)];
        match kind {
            kind::SECRET if term.length() == 1 => {
                self.alphabet.add_secret_atom(value_of(term.symbol(0)))
            }
            kind::SECRET => term.put_end(),
            kind::GOOD | kind::BAD => term.make_pattern(),
            _ => {}
        }
        Ok(())
    }
}

/// Numbers 2 and 5 for a second atom block, behind so many atoms.
fn second_count(block: &Block, before: usize) -> Result<usize, u32> {
    if !block::check_is_right(block) {
        return Err(fault(2, 1, 0));
    }
    match block::counts(block) {
        Some((count, _)) if before == ENTRIES => Ok(count),
        _ => Err(fault(5, 1, 0)),
    }
}

/// The slot of a block's first term; the next one is its second.
#[inline(always)]
fn slot(block: usize) -> usize {
    (2 * block) & (SLOTS - 2)
}

/// The entries from this one on.
fn room(entries: &[u32; 2 * PLACES], first: usize) -> &[u32; PLACES] {
    entries[first..first + PLACES]
        .try_into()
        .expect("64 entries")
}

fn place_of(kind: u8) -> u32 {
    match kind {
        kind::SECRET => IN_SECRET,
        kind::GOOD | kind::BAD => IN_PATTERN,
        _ => IN_RULE,
    }
}
