//! Text to sealed bytes. The assembler writes what the text says; judging it
//! is the checker's.

use crate::atoms::{atom_blocks, atom_names, atom_origins};
use crate::error::Error;
use crate::hints;
use crate::lines::{lines, split};
use crate::origin::Assembled;
use crate::terms::term_block;
use literal::numbers::MOST_BLOCKS;

/// The sealed blocks of a text: the atoms as the first block and, from the
/// 127th on, the second; then one block for each other line, in their order.
pub fn assemble(text: &str) -> Result<Vec<u8>, Error> {
    Ok(assembled(text)?.file)
}

/// The sealed blocks of a text and where each part comes from.
pub fn assembled(text: &str) -> Result<Assembled, Error> {
    let lines = lines(text)?;
    let (atom_lines, others) = split(&lines)?;
    let atoms = atom_names(atom_lines)?;
    let mut file = atom_blocks(atom_lines, &atoms)?;
    let mut blocks = atom_origins(atom_lines);
    for line in others {
        if blocks.len() == MOST_BLOCKS {
            let expected = format!("at most {MOST_BLOCKS} blocks");
            return Err(Error::new(line.span(), &expected, "one more").or_hint(hints::BLOCKS));
        }
        let (block, origin) = term_block(line, &atoms)?;
        file.extend(block);
        blocks.push(origin);
    }
    Ok(Assembled {
        file,
        atoms,
        blocks,
    })
}
