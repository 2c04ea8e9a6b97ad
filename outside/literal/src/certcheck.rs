//! The check program: at most 32,769 bytes of standard input, one line out.

use literal::numbers::MOST_BYTES;
use std::io::{self, Read, Write};

/// One byte more than a file may have, so that a longer one is noticed.
const MOST_READ: usize = MOST_BYTES + 1;

fn main() -> io::Result<()> {
    let mut file = Vec::new();
    io::stdin().take(MOST_READ as u64).read_to_end(&mut file)?;
    io::stdout().write_all(&literal::line(&literal::verdict(&file)))
}
