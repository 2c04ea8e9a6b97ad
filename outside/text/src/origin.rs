//! Where each part of an assembled text comes from.

use literal::Term;

/// A piece of one line of a text. Lines and columns count from 1, columns in characters.
#[derive(Clone, Copy, Debug, PartialEq, Eq)]
pub struct Span {
    pub line: usize,
    pub column: usize,
    pub width: usize,
}

impl Span {
    /// From the beginning of this piece to the end of another one of its line.
    pub fn up_to(self, last: Span) -> Span {
        Span {
            width: last.column + last.width - self.column,
            ..self
        }
    }

    /// The one character behind this piece.
    pub fn behind(self) -> Span {
        Span {
            column: self.column + self.width,
            width: 1,
            ..self
        }
    }
}

/// Where a block of an assembled text comes from.
#[derive(Clone, Debug)]
pub struct BlockOrigin {
    /// The line without its comment and outer spaces; of an atom block its
    /// first atom's line.
    pub line: Span,
    /// For each entry, in their order (premise first), its whole subterm in the
    /// text: for `{?x}KA` all of that. Of an atom block, for each atom the line
    /// (without comment and outer spaces).
    pub entries: Vec<Span>,
    /// The block's variables with the names that the text gives them, sign
    /// included: (Term::Plain(0), "?x"), (Term::MarkedNonce(1), "*n!s"). Each
    /// once.
    pub variables: Vec<(Term, String)>,
}

/// The sealed blocks of a text and where each part comes from.
#[derive(Clone, Debug)]
pub struct Assembled {
    pub file: Vec<u8>,
    /// The atoms' names by their numbers.
    pub atoms: Vec<String>,
    /// One for each block of `file`.
    pub blocks: Vec<BlockOrigin>,
}
