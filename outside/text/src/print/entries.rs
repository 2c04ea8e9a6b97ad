//! The entries of a block of terms, one by one.

use super::terms::{shown, Terms};
use super::{entries_used, Printer};
use literal::block::{self, Entry};
use literal::numbers::{kind, tag, VARIABLES};
use literal::term::subterms;
use literal::Term;

impl Printer {
    /// Below a line a comment for each entry: its number, and its subterm
    /// indented by its depth.
    pub fn numbered_entries(&mut self, kind: u8, terms: &Terms) {
        let mut first = 0;
        if let Some(premise) = &terms.premise {
            self.line("#   premise");
            self.numbered(first, premise);
            first = premise.size();
        }
        if kind == kind::RULE {
            self.line("#   conclusion");
        }
        self.numbered(first, &terms.last);
    }

    /// The entries of a term, numbered on from this one.
    fn numbered(&mut self, first: usize, term: &Term) {
        for place in subterms(term) {
            let number = first + place.entry;
            let indent = "  ".repeat(place.path.len());
            let subterm = shown(&self.atoms, place.subterm);
            self.line(&format!("#{number:6} {indent}{subterm}"));
        }
    }

    /// Notes on the entries of a block that is not read whole.
    pub fn each_entry(&mut self, number: usize, block: &[u8]) {
        for i in 0..entries_used(block) {
            let words = match self.entry_words(&block::entry(block, i)) {
                Ok(words) => words,
                Err(fault) => format!("not read, {fault}"),
            };
            self.note(number, &format!("entry {i}: {words}"));
        }
    }

    /// One entry in words, or what is wrong with it.
    pub fn entry_words(&self, entry: &Entry) -> Result<String, String> {
        if entry.second != 0 {
            return Err(format!("its second byte is {}", entry.second));
        }
        let value = entry.value;
        match (entry.first, self.atoms.listed_name(value)) {
            (tag::ATOM, Some(name)) => Ok(format!("atom {name}")),
            (tag::ENCRYPTION, Some(name)) => Ok(format!("encryption under {name}")),
            (tag::SIGNATURE, Some(name)) => Ok(format!("signature with {name}")),
            (tag::ATOM | tag::ENCRYPTION | tag::SIGNATURE, None) => {
                Err(format!("atom number {value} is not listed"))
            }
            (tag::PAIR, _) if value == 0 => Ok("pair".to_string()),
            (tag::PAIR, _) => Err(format!("a pair with value {value}")),
            (tag::HASH, _) if value == 0 => Ok("hash".to_string()),
            (tag::HASH, _) => Err(format!("a hash with value {value}")),
            (tag::PLAIN..=tag::MARKED_NONCE, _) if value >= VARIABLES as u16 => {
                Err(format!("a variable with number {value}"))
            }
            (tag::PLAIN, _) => Ok(format!("plain variable {value}")),
            (tag::MARKED, _) => Ok(format!("marked variable {value}")),
            (tag::PLAIN_NONCE, _) => Ok(format!("plain nonce variable {value}")),
            (tag::MARKED_NONCE, _) => Ok(format!("marked nonce variable {value}")),
            (tag, _) => Err(format!("tag {tag} is none of 1 to 9")),
        }
    }
}
