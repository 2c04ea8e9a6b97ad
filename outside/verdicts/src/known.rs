//! Files with answers that were written down for them.

use crate::compare;
use crate::lent::Lent;
use crate::tally::{Expected, COUNTS};
use crate::{failed, Checker, Difference, Spot};
use command::files;
use generate::random::Random;
use literal::numbers::{BLOCK, LOADERS};
use std::path::{Path, PathBuf};

#[derive(Clone)]
pub struct Known {
    pub name: String,
    pub file: Vec<u8>,
    /// The verdict line without its newline.
    pub line: String,
    /// The answer of the C call.
    pub packed: u32,
}

impl Known {
    /// With the answer that the line's own numbers make.
    pub fn by_line(name: &str, file: Vec<u8>, line: &str) -> Result<Known, String> {
        let spot = spot_in(line).ok_or(format!("{name}: `{line}` is no verdict line"))?;
        Ok(Known {
            name: name.to_string(),
            file,
            line: line.to_string(),
            packed: spot.packed(),
        })
    }

    fn spot(&self) -> Spot {
        let [_, number, block, place] = self.packed.to_be_bytes();
        Spot {
            number: number as u32,
            block,
            place,
        }
    }

    /// Against what is written down, then against `literal`.
    pub fn differences(&self, checker: &Checker) -> Vec<Difference> {
        let mut random = Random::new(self.file.len() as u64);
        let mut found = Vec::new();
        let answer = (checker.check)(&self.file);
        found.extend(Difference::between("check", self.packed, answer));
        for more in [0, 1, 100] {
            found.extend(self.line_difference(checker, more, &mut random));
        }
        found.extend(self.short_line_difference(checker, &mut random));
        found.extend(self.part_difference(checker, &mut random));
        found.extend(self.tally_difference(checker, &mut random));
        let verdict = literal::verdict(&self.file);
        let others = compare::differences(checker, &self.file, &verdict, &mut random);
        found.extend(others);
        found
    }

    /// In a buffer with so many bytes more than the line has.
    fn line_difference(
        &self,
        checker: &Checker,
        more: usize,
        r: &mut Random,
    ) -> Option<Difference> {
        let line = format!("{}\n", self.line);
        let mut buffer = Lent::new(line.len() + more, r);
        let mut right = buffer.clone();
        right.items()[..line.len()].copy_from_slice(line.as_bytes());
        let answer = (checker.line)(&self.file, buffer.items());
        let found = String::from_utf8_lossy(&buffer.items()[..line.len()]).into_owned();
        Difference::between(
            &format!("line with {more} bytes more"),
            format!("{line:?}, {}", line.len()),
            format!("{found:?}, {answer}{}", buffer.unlike(&right)),
        )
    }

    /// In a buffer with one byte less: 14, and the bytes stay.
    fn short_line_difference(&self, checker: &Checker, r: &mut Random) -> Option<Difference> {
        let mut buffer = Lent::new(self.line.len(), r);
        let right = buffer.clone();
        let answer = (checker.line)(&self.file, buffer.items());
        let found = format!("{answer}{}", buffer.unlike(&right));
        Difference::between("line with a byte less", failed(14).to_string(), found)
    }

    /// The block that is named; empty for acceptance, 1 and 4; a file has no 16.
    fn part_difference(&self, checker: &Checker, r: &mut Random) -> Option<Difference> {
        let spot = self.spot();
        let start = BLOCK * spot.block as usize;
        let part = match spot.number {
            0 | 1 | 4 => &[],
            _ => self.file.get(start..start + BLOCK).unwrap_or(&[]),
        };
        let mut buffer = Lent::new(BLOCK, r);
        let mut right = buffer.clone();
        right.items()[..part.len()].copy_from_slice(part);
        let answer = (checker.part)(&self.file, spot, buffer.items());
        let found = format!("{answer}{}", buffer.unlike(&right));
        Difference::between("refused part", part.len().to_string(), found)
    }

    /// From zeros, for some loader.
    fn tally_difference(&self, checker: &Checker, r: &mut Random) -> Option<Difference> {
        let loader = r.below(LOADERS);
        let mut after = [0; COUNTS];
        after[2 * loader + usize::from(self.packed != 0)] = 1;
        let expected = Expected {
            file: &self.file,
            loader: loader as u32,
            before: &[0; COUNTS],
            answer: self.packed,
            after: &after,
        };
        expected.difference(checker, r)
    }
}

/// The numbers in a verdict line.
pub fn spot_in(line: &str) -> Option<Spot> {
    let mut words = line.split(' ');
    let (number, block, place) = match words.next()? {
        "accepted" => {
            return Some(Spot {
                number: 0,
                block: 0,
                place: 0,
            })
        }
        "refused" => (words.next()?, words.next()?, words.next()?),
        _ => return None,
    };
    Some(Spot {
        number: number.parse().ok()?,
        block: block.strip_prefix("block=")?.parse().ok()?,
        place: place.strip_prefix("place=")?.parse().ok()?,
    })
}

/// The certificates of published protocols, from their bytes.
pub fn corpus() -> Result<Vec<Known>, String> {
    let of = |path: PathBuf| {
        let file = files::bytes(&path.with_extension("cert"))?;
        with_line(&path, file, text::level::expected_line)
    };
    texts_in("../corpus")?.into_iter().map(of).collect()
}

/// The texts of a folder, each with its own line.
pub fn texts(folder: &str) -> Result<Vec<Known>, String> {
    let of = |path: PathBuf| {
        let assembled = text::assemble(&files::text(&path)?);
        let file = assembled.map_err(|error| files::told(&path, error))?;
        with_line(&path, file, own_line)
    };
    texts_in(folder)?.into_iter().map(of).collect()
}

/// The check program's own test: what it reads and the line it prints.
pub fn program() -> Result<Vec<Known>, String> {
    let folder = here("../../crates/zepayong");
    let file = files::bytes(&folder.join("stdin"))?;
    let line = files::text(&folder.join("stdout"))?;
    let line = line.strip_suffix('\n').ok_or("stdout: no newline")?;
    Ok(vec![Known::by_line("the program's test", file, line)?])
}

/// A folder that is named from this crate's.
fn here(folder: &str) -> PathBuf {
    Path::new(env!("CARGO_MANIFEST_DIR")).join(folder)
}

fn texts_in(folder: &str) -> Result<Vec<PathBuf>, String> {
    files::ending_in("txt", &here(folder))
}

/// The only line that a text expects.
fn own_line(text: &str) -> Option<&str> {
    text.lines()
        .find_map(|line| line.strip_prefix("# expect: "))
}

/// With the line that is found in the text.
fn with_line(path: &Path, file: Vec<u8>, line: fn(&str) -> Option<&str>) -> Result<Known, String> {
    let (name, text) = (files::name(path), files::text(path)?);
    let line = line(&text).ok_or(format!("{name}: no line expected"))?;
    Known::by_line(&name, file, line)
}
