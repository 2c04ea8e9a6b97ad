//! Document 02, No. 6: blocks with a known check, sealed by themselves and judged
//! as the last of a file.

use crate::lent::Lent;
use crate::{Checker, Difference};
use generate::random::Random;
use generate::seals::{self, Seal};
use text::document::{ATOMS, GOOD, SECRETS};

/// A block, and the blocks in front of it.
pub struct Last<'a> {
    pub seal: Seal,
    front: &'a [u8],
}

/// Each block alone; those by hand also behind these others.
pub fn all(front: &[u8]) -> impl Iterator<Item = Last<'_>> {
    let last = |front| move |seal| Last { seal, front };
    let alone = seals::all().map(last(&[]));
    alone.chain(seals::by_hand().map(last(front)))
}

/// The first four blocks of the document's certificates.
pub fn front() -> Result<Vec<u8>, String> {
    text::assemble(&[ATOMS, SECRETS, GOOD].concat()).map_err(|e| e.to_string())
}

impl Last<'_> {
    pub fn differences(&self, checker: &Checker) -> Vec<Difference> {
        let after = self.seal.sealed();
        let before = self.seal.unsealed();
        let sealings = before.iter().filter_map(|b| sealing(checker, b, &after, 4));
        sealings.chain(self.check(checker)).collect()
    }

    /// Number 2 at this block if and only if its last bytes are not its check.
    fn check(&self, checker: &Checker) -> Option<Difference> {
        let right = self.seal.check();
        let stored = self.seal.mistaken(self.front, checker.check)?;
        let told = |is_right| match is_right {
            true => "not number 2",
            false => "number 2",
        };
        let question = format!("check with {stored:?} for {right:?}");
        Difference::between(&question, told(stored == right), told(stored != right))
    }
}

/// This answer, and these bytes after it.
pub fn sealing(checker: &Checker, before: &[u8], after: &[u8], answer: u32) -> Option<Difference> {
    let mut block = Lent::of(before, &mut Random::new(0));
    let mut right = Lent::of(after, &mut Random::new(0));
    let found = (checker.seal)(block.items());
    Difference::between(
        &format!("sealing {} bytes", right.items().len()),
        answer.to_string(),
        format!("{found}{}", block.unlike(&right)),
    )
}
