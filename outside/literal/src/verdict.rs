//! What the checker answers, and the forms in which it is handed on.

use crate::numbers::BLOCK;
#[cfg(test)]
use crate::slip::{self, Slip};

#[derive(Clone, Copy, Debug, PartialEq, Eq)]
pub struct Counts {
    pub blocks: u32,
    pub secrets: u32,
    pub good: u32,
    pub bad: u32,
    pub rules: u32,
}

/// The number of the fault, and where it is: 1 to 12 or 15 of a file; 16 of a
/// loader's number, in a check that takes a tally.
#[derive(Clone, Copy, Debug, PartialEq, Eq)]
pub struct Refusal {
    pub number: u8,
    pub block: u8,
    pub place: u8,
}

#[derive(Clone, Copy, Debug, PartialEq, Eq)]
pub enum Verdict {
    Accepted(Counts),
    Refused(Refusal),
}

/// number x 65,536 + block x 256 + place; 0 if accepted.
pub fn packed(verdict: &Verdict) -> u32 {
    match verdict {
        Verdict::Accepted(_) => 0,
        Verdict::Refused(r) => r.number as u32 * 65_536 + r.block as u32 * 256 + r.place as u32,
    }
}

/// The verdict line, with its newline.
pub fn line(verdict: &Verdict) -> Vec<u8> {
    let text = match verdict {
        Verdict::Accepted(c) => format!(
            "accepted blocks={} secrets={} good={} bad={} rules={}\n",
            c.blocks, c.secrets, c.good, c.bad, c.rules
        ),
        Verdict::Refused(r) => {
            format!("refused {} block={} place={}\n", r.number, r.block, r.place)
        }
    };
    text.into_bytes()
}

/// Writes the line into the buffer's first bytes and answers its length.
/// A buffer shorter than the line: 14, and the buffer is unaltered.
pub fn print_line(verdict: &Verdict, buffer: &mut [u8]) -> Result<usize, u32> {
    let line = line(verdict);
    if buffer.len() < line.len() {
        return Err(14);
    }
    buffer[..line.len()].copy_from_slice(&line);
    Ok(line.len())
}

/// The refused block as a part of the file. Empty on acceptance, for the
/// numbers 1, 4 and 16, and for a block that the file lacks.
pub fn refused_part<'a>(file: &'a [u8], verdict: &Verdict) -> &'a [u8] {
    match verdict {
        Verdict::Accepted(_) => &[],
        Verdict::Refused(r) if has_no_part(r.number) => &[],
        Verdict::Refused(r) => {
            let start = BLOCK * r.block as usize;
            file.get(start..start + BLOCK).unwrap_or(&[])
        }
    }
}

/// The numbers that are not about one block.
fn has_no_part(number: u8) -> bool {
    #[cfg(test)]
    if slip::is(Slip::SixteenHasAPart) && number == 16 {
        return false;
    }
    matches!(number, 1 | 4 | 16)
}
