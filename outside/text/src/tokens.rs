//! The words of one line.

use crate::letters::{quoted, told_sign};
use crate::origin::Span;
use crate::sorts::Sort;

#[derive(Clone, Debug, PartialEq, Eq)]
pub enum Token {
    /// One of ( ) { } ,
    Sign(char),
    Arrow,
    Name(String),
    /// A variable and its name.
    Variable(Sort, String),
    /// `h(` and `sig(`.
    Hash,
    Signature,
    /// What means nothing in the text form.
    Strange(String),
}

/// A token and where it stands.
#[derive(Clone, Debug)]
pub struct Word {
    pub token: Token,
    pub at: Span,
}

impl Token {
    /// How the token is named in an error.
    pub fn shown(&self) -> String {
        match self {
            Token::Sign(sign) => format!("`{sign}`"),
            Token::Arrow => "`->`".to_string(),
            Token::Name(name) => quoted(name),
            Token::Variable(sort, name) => quoted(&sort.named(name)),
            Token::Hash => "`h(`".to_string(),
            Token::Signature => "`sig(`".to_string(),
            Token::Strange(sign) => told_sign(sign),
        }
    }
}

/// The words of a line; a comment runs from `#` to the end of the line.
pub fn words(number: usize, line: &str) -> Vec<Word> {
    let mut left = Left {
        text: line.split('#').next().unwrap_or(""),
        column: 1,
    };
    left.skip_spaces();
    let mut found = Vec::new();
    while let Some(sign) = left.text.chars().next() {
        let (token, length) = first_token(sign, left.text);
        let column = left.column;
        let width = left.skip(length);
        let line = number;
        let at = Span {
            line,
            column,
            width,
        };
        found.push(Word { token, at });
        left.skip_spaces();
    }
    found
}

/// What is left of a line, and the column where it begins.
struct Left<'a> {
    text: &'a str,
    column: usize,
}

impl Left<'_> {
    /// Goes on by so many bytes, and answers how many characters these are.
    fn skip(&mut self, length: usize) -> usize {
        let (skipped, rest) = self.text.split_at(length);
        let width = skipped.chars().count();
        self.text = rest;
        self.column += width;
        width
    }

    fn skip_spaces(&mut self) {
        self.skip(self.text.len() - self.text.trim_start().len());
    }
}

/// The token at the front and how many bytes it takes.
fn first_token(sign: char, rest: &str) -> (Token, usize) {
    match sign {
        '(' | ')' | '{' | '}' | ',' => (Token::Sign(sign), 1),
        '-' | '=' => arrow(rest),
        '?' | '*' => variable(sign, rest),
        _ => match name_at(rest) {
            "" if rest.starts_with("//") => strange("//"),
            "" => strange(&rest[..sign.len_utf8()]),
            name => word(name, &rest[name.len()..]),
        },
    }
}

fn strange(sign: &str) -> (Token, usize) {
    (Token::Strange(sign.to_string()), sign.len())
}

/// The arrow, or what only resembles it, such as `=>`.
fn arrow(rest: &str) -> (Token, usize) {
    let end = rest.find(|c: char| !['-', '=', '>'].contains(&c));
    match &rest[..end.unwrap_or(rest.len())] {
        "->" => (Token::Arrow, 2),
        other => strange(other),
    }
}

/// A name, or the beginning of a hash or a signature: only directly before `(`
/// are `h` and `sig` no names.
fn word(name: &str, after: &str) -> (Token, usize) {
    match (name, after.starts_with('(')) {
        ("h", true) => (Token::Hash, name.len() + 1),
        ("sig", true) => (Token::Signature, name.len() + 1),
        _ => (Token::Name(name.to_string()), name.len()),
    }
}

/// The variable at the front and how many bytes it takes.
fn variable(sign: char, rest: &str) -> (Token, usize) {
    let is_nonce = name_at(&rest[1..]) == "n" && rest[2..].starts_with('!');
    let sort = match (sign, is_nonce) {
        ('?', false) => Sort::Plain,
        ('?', true) => Sort::PlainNonce,
        (_, false) => Sort::Marked,
        (_, true) => Sort::MarkedNonce,
    };
    let sign = sort.sign();
    match name_at(&rest[sign.len()..]) {
        "" => strange(sign),
        name => {
            let token = Token::Variable(sort, name.to_string());
            (token, sign.len() + name.len())
        }
    }
}

/// Letters, digits, `_` and `'` at the front.
fn name_at(text: &str) -> &str {
    let end = text.find(|c: char| !(c.is_alphanumeric() || c == '_' || c == '\''));
    &text[..end.unwrap_or(text.len())]
}
