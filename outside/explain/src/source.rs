//! What is explained: the file, as its designer wrote it or, if it came as
//! bytes, as it is printed.

use literal::numbers::{BLOCK, CHECKED, FIRST_FOREIGN};
use literal::Term;
use text::{Assembled, BlockOrigin, Span};

pub struct Source {
    /// What its user calls it.
    name: String,
    text: String,
    pub file: Vec<u8>,
    is_text: bool,
    atoms: Vec<String>,
    /// One for each block; none if the bytes cannot be printed whole.
    blocks: Vec<BlockOrigin>,
}

/// A part of the file.
#[derive(Clone, Copy, Debug, PartialEq, Eq)]
pub enum At {
    File,
    Block(usize),
    Entry(usize, usize),
}

impl Source {
    /// A text that can be assembled; else what is wrong with it, in words.
    pub fn of_text(name: &str, bytes: &[u8]) -> Result<Source, String> {
        let read = text::text_of(bytes);
        let read = read.and_then(|text| Ok((text, text::assembled(text)?)));
        let told = |error: text::Error| error.told(name, &String::from_utf8_lossy(bytes));
        let (text, assembled) = read.map_err(told)?;
        Ok(Source {
            name: name.to_string(),
            text: text.to_string(),
            file: assembled.file,
            is_text: true,
            atoms: assembled.atoms,
            blocks: assembled.blocks,
        })
    }

    /// Any bytes.
    pub fn of_bytes(name: &str, file: Vec<u8>) -> Source {
        let text = text::print(&file);
        let printed = text::assembled(&text).ok();
        let (atoms, blocks) = match printed.filter(|printed| is_whole(printed, &file)) {
            Some(printed) => (printed.atoms, printed.blocks),
            None => (Vec::new(), Vec::new()),
        };
        Source {
            name: name.to_string(),
            text,
            file,
            is_text: false,
            atoms,
            blocks,
        }
    }

    /// How the words of an explanation name places, if not as the designer does.
    pub fn form(&self) -> Option<&'static str> {
        match (self.is_text, self.blocks.is_empty()) {
            (true, _) => None,
            (false, false) => {
                Some("The file came as bytes: lines and names are those that --print gives it.")
            }
            (false, true) => {
                Some("The file came as bytes that cannot be printed whole: places are told by block and entry.")
            }
        }
    }

    /// Whether it is a text without a line but comments.
    pub fn is_empty_text(&self) -> bool {
        self.is_text && self.file.is_empty()
    }

    pub fn name(&self) -> &str {
        &self.name
    }

    // Where.

    pub fn span(&self, at: At) -> Option<Span> {
        match at {
            At::File => None,
            At::Block(block) => Some(self.blocks.get(block)?.line),
            At::Entry(block, entry) => {
                let block = self.blocks.get(block)?;
                block.entries.get(entry).copied().or(Some(block.line))
            }
        }
    }

    /// As `lane.txt:21:17: block 5, entry 3`.
    pub fn label(&self, at: At) -> String {
        match at {
            At::File => self.spot_label(at),
            At::Block(block) => format!("{}: block {block}", self.spot_label(at)),
            At::Entry(block, entry) => {
                format!("{}: block {block}, entry {entry}", self.spot_label(at))
            }
        }
    }

    /// As `lane.txt:21:17`.
    fn spot_label(&self, at: At) -> String {
        match self.span(at) {
            Some(span) => format!("{}:{}:{}", self.name, span.line, span.column),
            None => self.name.clone(),
        }
    }

    /// The line with a caret below the part, if the file has lines.
    pub fn pointed(&self, at: At) -> Option<String> {
        Some(text::pointed(&self.text, self.span(at)?))
    }

    /// As `line 19, block 3`.
    pub fn line_of(&self, block: usize) -> String {
        match self.span(At::Block(block)) {
            Some(span) => format!("line {}, block {block}", span.line),
            None => format!("block {block}"),
        }
    }

    /// As `21:17, entry 3`.
    pub fn spot(&self, block: usize, entry: usize) -> String {
        match self.span(At::Entry(block, entry)) {
            Some(span) => format!("{}:{}, entry {entry}", span.line, span.column),
            None => format!("entry {entry}"),
        }
    }

    // Names.

    pub fn atom(&self, number: u16) -> String {
        match self.atoms.get(number as usize) {
            Some(name) => name.clone(),
            None if number >= FIRST_FOREIGN => format!("foreign{number}"),
            None => format!("atom {number}"),
        }
    }

    /// The term, with the names that the block's variables have.
    pub fn term(&self, block: usize, term: &Term) -> String {
        self.shown(term, &|variable| self.variable(block, variable))
    }

    /// The same with this variable marked.
    pub fn with_mark(&self, block: usize, term: &Term, marked: &Term) -> String {
        self.shown(term, &|variable| {
            let name = self.variable(block, variable);
            match variable == marked {
                true => format!("*{}", name.trim_start_matches('?')),
                false => name,
            }
        })
    }

    fn shown(&self, term: &Term, named: &impl Fn(&Term) -> String) -> String {
        let (open, close) = match term {
            Term::Pair(left, right) => {
                let (left, right) = (self.shown(left, named), self.shown(right, named));
                return format!("({left}, {right})");
            }
            Term::Atom(number) => return self.atom(*number),
            Term::Encryption(_, key) => ("{", format!("}}{}", self.atom(*key))),
            Term::Hash(_) => ("h(", ")".to_string()),
            Term::Signature(_, key) => ("sig(", format!("){}", self.atom(*key))),
            variable => return named(variable),
        };
        let message = term.parts().map(|part| self.shown(part, named));
        format!("{open}{}{close}", message.collect::<String>())
    }

    /// A term without variables, which is of no block.
    pub fn message(&self, message: &Term) -> String {
        self.term(self.blocks.len(), message)
    }

    fn variable(&self, block: usize, variable: &Term) -> String {
        let names = self.blocks.get(block).map(|block| block.variables.iter());
        let named = names.and_then(|mut names| names.find(|(term, _)| term == variable));
        match named {
            Some((_, name)) => name.clone(),
            None => text::sorts::shown(variable).unwrap_or_default(),
        }
    }
}

/// Whether the printed text says all of the file but for the checks.
fn is_whole(printed: &Assembled, file: &[u8]) -> bool {
    let same = |(one, other): (&[u8], &[u8])| one[..CHECKED] == other[..CHECKED];
    let mut both = printed.file.chunks(BLOCK).zip(file.chunks_exact(BLOCK));
    printed.file.len() / BLOCK == file.len() / BLOCK && both.all(same)
}

/// The subterm at this path, or the lowest variable above it.
pub fn down<'a>(term: &'a Term, path: &[u8]) -> &'a Term {
    let Some((step, rest)) = path.split_first() else {
        return term;
    };
    match term.parts().nth(*step as usize) {
        Some(part) => down(part, rest),
        None => term,
    }
}
