//! The numbers 1 to 5: length, checks, kinds, counts, from the bytes alone.

use crate::report::{counted, Finding};
use crate::source::At;
use literal::block;
use literal::numbers::{kind, BLOCK, ENTRIES, ENTRY, MOST_BLOCKS, MOST_BYTES, MOST_ENTRIES};

/// 1: the length.
pub fn length(file: &[u8]) -> Finding {
    let length = file.len();
    let left = length % BLOCK;
    let found = match length {
        0 => "nothing: the file is empty".to_string(),
        _ if left != 0 => format!(
            "{}: {} and {} more",
            counted(length, "byte"),
            counted(length / BLOCK, "whole block"),
            counted(left, "byte")
        ),
        _ => format!("{length} bytes: {} blocks", length / BLOCK),
    };
    Finding {
        what: "the length is wrong".to_string(),
        at: At::File,
        found,
        expected: format!("1 to {MOST_BLOCKS} blocks of {BLOCK} bytes, at most {MOST_BYTES} bytes"),
    }
}

/// 1, of a text that has no line.
pub fn no_lines() -> Finding {
    Finding {
        what: "the certificate is empty".to_string(),
        at: At::File,
        found: "a text without a line but comments".to_string(),
        expected: "lines for atoms, secrets, patterns and rules".to_string(),
    }
}

/// 2: the check.
pub fn check(file: &[u8], number: usize) -> Finding {
    let block = block_of(file, number);
    let (a, b) = block::stored_check(block);
    let (right_a, right_b) = block::check_of(block);
    Finding {
        what: "the check is wrong: a byte was changed after sealing, or the block was never sealed"
            .to_string(),
        at: At::Block(number),
        found: format!("{a} in bytes 508 and 509, {b} in bytes 510 and 511"),
        expected: format!("{right_a} and {right_b}, which the first 508 bytes make"),
    }
}

/// 3: the kind.
pub fn kind_order(file: &[u8], number: usize) -> Finding {
    let found = block::kind(block_of(file, number));
    let before = number
        .checked_sub(1)
        .map(|before| block::kind(block_of(file, before)));
    let expected = match before {
        None => "kind 1: atoms come first".to_string(),
        Some(kind::ATOMS) if found == kind::ATOMS => {
            "kinds 2 to 5: at most two blocks of atoms come first".to_string()
        }
        Some(before) => {
            let least = before.max(kind::SECRET);
            format!("{}: kinds rise from block to block", from_kind(least))
        }
    };
    let found = match before {
        Some(before) => format!("{}, behind {}", kind_words(found), kind_words(before)),
        None => kind_words(found),
    };
    Finding {
        what: "the kind of the block is out of order or unknown".to_string(),
        at: At::Block(number),
        found,
        expected,
    }
}

fn from_kind(least: u8) -> String {
    match least {
        kind::RULE.. => "kind 5 (a rule)".to_string(),
        _ => format!("a kind from {least} to 5"),
    }
}

/// A kind as number and word.
pub fn kind_words(kind: u8) -> String {
    let word = match kind {
        kind::ATOMS => "atoms",
        kind::SECRET => "a secret",
        kind::GOOD => "a good pattern",
        kind::BAD => "a bad pattern",
        kind::RULE => "a rule",
        _ => "unknown",
    };
    format!("kind {kind} ({word})")
}

/// 4: no secret or no rule.
pub fn missing(file: &[u8]) -> Finding {
    let has = |kind: u8| file.chunks(BLOCK).any(|block| block::kind(block) == kind);
    let found = match (has(kind::SECRET), has(kind::RULE)) {
        (false, false) => "neither a secret nor a rule",
        (false, true) => "no secret",
        _ => "no rule",
    };
    Finding {
        what: "something is missing".to_string(),
        at: At::File,
        found: format!("{found} in {}", counted(file.len() / BLOCK, "block")),
        expected: "at least one secret and one rule".to_string(),
    }
}

/// 5: a count, byte 3, an unused entry, or a first block of atoms that is not full.
pub fn counts(file: &[u8], number: usize) -> Finding {
    let block = block_of(file, number);
    let (expected, found) = wrong_count(block)
        .or_else(|| wrong_byte(block))
        .unwrap_or_else(|| {
            let full = format!("{ENTRIES} atoms in block 0 before there is a second block of them");
            let atoms = block::first_count(block_of(file, number.saturating_sub(1)));
            (full, format!("{atoms} atoms in block 0"))
        });
    Finding {
        what: "a count, byte 3 or an unused entry is wrong".to_string(),
        at: At::Block(number),
        found,
        expected,
    }
}

/// What is expected of a count and what was found, if one is wrong.
fn wrong_count(block: &[u8]) -> Option<(String, String)> {
    let (least, most) = match block::kind(block) {
        kind::ATOMS => (1, ENTRIES),
        kind::RULE => (0, MOST_ENTRIES),
        _ => (1, MOST_ENTRIES),
    };
    let first = block::first_count(block);
    if !(least..=most).contains(&first) {
        let expected = format!("a first count (byte 1) from {least} to {most}");
        return Some((expected, first.to_string()));
    }
    let second = block::second_count(block);
    match block::kind(block) {
        kind::RULE if !(1..=MOST_ENTRIES).contains(&second) => {
            let expected = format!("a second count (byte 2) from 1 to {MOST_ENTRIES}");
            Some((expected, second.to_string()))
        }
        kind::RULE => None,
        _ if second != 0 => {
            let expected = "zero as the second count (byte 2)".to_string();
            Some((expected, second.to_string()))
        }
        _ => None,
    }
}

/// The same of byte 3 and of the unused entries.
fn wrong_byte(block: &[u8]) -> Option<(String, String)> {
    if block[3] != 0 {
        return Some(("zero in byte 3".to_string(), block[3].to_string()));
    }
    let used = block::first_count(block) + block::second_count(block);
    let entry = (used..ENTRIES).find(|i| entry_bytes(block, *i) != [0; ENTRY])?;
    let expected = format!("zeros in every entry from {used} on: {used} are used");
    let found = format!("{:?} in entry {entry}", entry_bytes(block, entry));
    Some((expected, found))
}

fn entry_bytes(block: &[u8], i: usize) -> &[u8] {
    &block[block::entry_at(i)..block::entry_at(i + 1)]
}

/// The block of this number, which the file has.
pub fn block_of(file: &[u8], number: usize) -> &[u8] {
    &file[BLOCK * number..BLOCK * (number + 1)]
}
