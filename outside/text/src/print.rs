//! Bytes to text, as far as they can be read. Comments number the blocks, and
//! what cannot be read is told in notes, which are comments too.

mod atoms;
mod entries;
mod notes;
mod terms;

use atoms::AtomList;
use literal::block;
use literal::numbers::{kind, BLOCK, ENTRIES, MOST_BLOCKS, MOST_BYTES};

/// The file as text, its blocks numbered.
pub fn print(file: &[u8]) -> String {
    printed(file, false)
}

/// The file as text, its blocks and their entries numbered.
pub fn print_entries(file: &[u8]) -> String {
    printed(file, true)
}

fn printed(file: &[u8], with_entries: bool) -> String {
    let mut printer = Printer {
        text: String::new(),
        atoms: AtomList::of(file),
        with_entries,
        kind_before: None,
    };
    printer.length(file.len());
    for (number, block) in file.chunks_exact(BLOCK).enumerate() {
        printer.block(number, block);
        printer.kind_before = Some(block::kind(block));
    }
    printer.text
}

struct Printer {
    text: String,
    atoms: AtomList,
    with_entries: bool,
    kind_before: Option<u8>,
}

impl Printer {
    fn line(&mut self, line: &str) {
        self.text.push_str(line);
        self.text.push('\n');
    }

    fn note(&mut self, number: usize, words: &str) {
        self.line(&format!("# block {number}: {words}"));
    }

    fn length(&mut self, length: usize) {
        if length == 0 {
            self.line("# the file is empty");
        }
        if length % BLOCK != 0 {
            let left = length % BLOCK;
            self.line(&format!("# the last {left} bytes are no whole block"));
        }
        if length > MOST_BYTES {
            self.line(&format!(
                "# {length} bytes are more than {MOST_BLOCKS} blocks"
            ));
        }
    }

    fn block(&mut self, number: usize, block: &[u8]) {
        self.check(number, block);
        let kind = block::kind(block);
        if !(kind::ATOMS..=kind::RULE).contains(&kind) {
            self.note(number, &format!("kind {kind} is none of 1 to 5, not read"));
            return;
        }
        self.order(number, kind);
        self.header(number, block);
        self.unused(number, block);
        match kind {
            kind::ATOMS if self.atoms.has_those_of(number) => self.atoms(number, block),
            kind::ATOMS => self.other_atoms(number, block),
            _ => self.terms(number, block),
        }
    }
}

/// The entries that the counts speak of, at most all.
fn entries_used(block: &[u8]) -> usize {
    let second = if block::kind(block) == kind::RULE {
        block::second_count(block)
    } else {
        0
    };
    (block::first_count(block) + second).min(ENTRIES)
}
