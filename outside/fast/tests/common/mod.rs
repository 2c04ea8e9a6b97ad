//! Certificates from the document's atoms and some lines, and their answers.

use fast::check;
use text::document::{joined_atoms, ATOMS, GOOD, SECRETS};

pub fn file(rest: &str) -> Vec<u8> {
    text::assemble(&format!("{ATOMS}{rest}")).expect("the text is right")
}

/// The answer to these lines after the atoms.
pub fn answer(rest: &str) -> u32 {
    check(&file(rest))
}

/// With the usual secrets and good pattern.
pub fn usual(rule: &str) -> u32 {
    answer(&format!("{SECRETS}{GOOD}{rule}"))
}

/// With these bad patterns after the usual lines.
pub fn with_bads(bads: &[&str], rule: &str) -> u32 {
    let lines: String = bads.iter().map(|bad| format!("bad {bad}\n")).collect();
    usual(&format!("{lines}rule {rule}"))
}

/// With these secrets' good pattern.
pub fn with_good(good: &str, rule: &str) -> u32 {
    answer(&format!("{SECRETS}good {good}\nrule {rule}"))
}

/// The blocks of a certificate with two atom blocks.
pub fn joined(rest: &str) -> Vec<Vec<u8>> {
    let text = format!("{}secret L\nsecret M\n{rest}", joined_atoms());
    let bytes = text::assemble(&text).expect("the text is right");
    bytes.chunks(512).map(<[u8]>::to_vec).collect()
}

pub fn refused(number: u32, block: u32, place: u32) -> u32 {
    number * 65_536 + block * 256 + place
}
