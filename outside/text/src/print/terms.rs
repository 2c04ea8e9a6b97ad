//! The line of a block of terms.

use super::atoms::AtomList;
use super::Printer;
use crate::lines::KEYWORDS;
use crate::reader::word_for;
use crate::sorts;
use literal::block;
use literal::numbers::{kind, ENTRIES, MOST_ENTRIES};
use literal::term::term_of;
use literal::Term;

/// The terms of a block: a rule's conclusion behind its premise, or the one of
/// another block.
pub struct Terms {
    pub premise: Option<Term>,
    pub last: Term,
}

impl Printer {
    pub fn terms(&mut self, number: usize, block: &[u8]) {
        match self.whole_terms(block) {
            Ok(terms) => {
                self.not_allowed(number, block);
                let line = self.term_line(block, &terms);
                self.line(&format!("{line}  # block {number}"));
                if self.with_entries {
                    self.numbered_entries(block::kind(block), &terms);
                }
            }
            Err(fault) => {
                let word = word(block);
                let words = format!("a {word} block that is not read whole: {fault}");
                self.note(number, &words);
                self.each_entry(number, block);
            }
        }
    }

    /// The terms of a block whose entries are whole terms.
    fn whole_terms(&self, block: &[u8]) -> Result<Terms, String> {
        let first = block::first_count(block);
        let end = first + block::second_count(block);
        if block::kind(block) != kind::RULE {
            let last = self.whole_term(block, 0, first, "the term")?;
            let premise = None;
            return Ok(Terms { premise, last });
        }
        let last = self.whole_term(block, first, end, "the conclusion")?;
        let premise = match first {
            0 => None,
            _ => Some(self.whole_term(block, 0, first, "the premise")?),
        };
        Ok(Terms { premise, last })
    }

    fn whole_term(&self, block: &[u8], from: usize, to: usize, what: &str) -> Result<Term, String> {
        if !(1..=MOST_ENTRIES).contains(&(to - from)) || to > ENTRIES {
            return Err(format!("{what} has {} entries", to - from));
        }
        for i in from..to {
            self.entry_words(&block::entry(block, i))
                .map_err(|fault| format!("entry {i}, {fault}"))?;
        }
        let term = term_of(&block::entries(block, from, to));
        term.ok_or_else(|| format!("the entries of {what} are not exactly one term"))
    }

    fn term_line(&self, block: &[u8], terms: &Terms) -> String {
        let last = shown(&self.atoms, &terms.last);
        match &terms.premise {
            _ if block::kind(block) != kind::RULE => format!("{} {last}", word(block)),
            None => format!("rule -> {last}"),
            Some(premise) => format!("rule {} -> {last}", shown(&self.atoms, premise)),
        }
    }
}

/// The line's first word for a block of terms.
fn word(block: &[u8]) -> &'static str {
    word_for(block::kind(block), &KEYWORDS).expect("only such blocks are read")
}

/// A term over these atoms as text.
pub fn shown(atoms: &AtomList, term: &Term) -> String {
    let shown = |part: &Term| shown(atoms, part);
    let name = |number: &u16| atoms.name(*number as usize);
    match term {
        Term::Atom(number) => name(number),
        Term::Pair(left, right) => format!("({}, {})", shown(left), shown(right)),
        Term::Encryption(message, key) => format!("{{{}}}{}", shown(message), name(key)),
        Term::Hash(message) => format!("h({})", shown(message)),
        Term::Signature(message, key) => format!("sig({}){}", shown(message), name(key)),
        variable => sorts::shown(variable).expect("all other terms are variables"),
    }
}
