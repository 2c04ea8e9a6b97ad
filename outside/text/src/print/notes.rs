//! Notes on blocks: their check, order and header, and what may not stand in
//! them.

use super::{entries_used, Printer};
use literal::block;
use literal::numbers::{kind, tag, ENTRIES, ENTRY, MOST_ATOM_BLOCKS, MOST_ENTRIES};

impl Printer {
    pub fn check(&mut self, number: usize, block: &[u8]) {
        let (a, b) = block::stored_check(block);
        let (right_a, right_b) = block::check_of(block);
        if (a, b) != (right_a, right_b) {
            let words = format!("the check is {a} and {b}, not {right_a} and {right_b}");
            self.note(number, &words);
        }
    }

    pub fn order(&mut self, number: usize, kind: u8) {
        match self.kind_before {
            None if kind != kind::ATOMS => self.note(number, "the first block holds no atoms"),
            Some(kind::ATOMS) if kind == kind::ATOMS => self.more_atoms(number),
            Some(before) if before > kind => {
                self.note(number, &format!("kind {kind} after kind {before}"))
            }
            _ => {}
        }
    }

    /// An atom block right after another.
    fn more_atoms(&mut self, number: usize) {
        if number >= MOST_ATOM_BLOCKS {
            let words = format!("more than {MOST_ATOM_BLOCKS} blocks of atoms");
            self.note(number, &words);
        } else if !self.atoms.is_full_before(number) {
            self.note(number, "atoms after a block of atoms that is not full");
        }
    }

    pub fn header(&mut self, number: usize, block: &[u8]) {
        let kind = block::kind(block);
        let first = block::first_count(block);
        let second = block::second_count(block);
        let first_right = match kind {
            kind::ATOMS => (1..=ENTRIES).contains(&first),
            kind::RULE => first <= MOST_ENTRIES,
            _ => (1..=MOST_ENTRIES).contains(&first),
        };
        let second_right = if kind == kind::RULE {
            (1..=MOST_ENTRIES).contains(&second)
        } else {
            second == 0
        };
        if !first_right {
            self.note(number, &format!("the first count cannot be {first}"));
        }
        if !second_right {
            self.note(number, &format!("the second count cannot be {second}"));
        }
        if block[3] != 0 {
            self.note(number, &format!("byte 3 is {}", block[3]));
        }
    }

    pub fn unused(&mut self, number: usize, block: &[u8]) {
        for i in entries_used(block)..ENTRIES {
            if block[block::entry_at(i)..block::entry_at(i + 1)] != [0; ENTRY] {
                self.note(number, &format!("unused entry {i} is not zero"));
            }
        }
    }

    /// Notes on what a whole term may not hold in this kind of block.
    pub fn not_allowed(&mut self, number: usize, block: &[u8]) {
        let kind = block::kind(block);
        for i in 0..entries_used(block) {
            let entry = block::entry(block, i);
            let words = match entry.first {
                tag::ENCRYPTION if !self.atoms.is_key(entry.value) => "is no key",
                tag::SIGNATURE if !self.atoms.is_private_key(entry.value) => "is no private key",
                tag::PLAIN..=tag::MARKED_NONCE if kind == kind::SECRET => "a variable in a secret",
                tag::MARKED | tag::MARKED_NONCE if kind == kind::RULE => {
                    "a marked variable in a rule"
                }
                _ => continue,
            };
            self.note(number, &format!("entry {i}: {words}"));
        }
        let is_pattern = kind == kind::GOOD || kind == kind::BAD;
        if is_pattern && block::entry(block, 0).first != tag::ENCRYPTION {
            self.note(number, "the root of the pattern is no encryption");
        }
    }
}
