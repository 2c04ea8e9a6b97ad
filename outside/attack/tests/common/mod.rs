//! What the tests have in common.
#![allow(dead_code)]

pub mod planted;
pub mod sampler;
pub mod small;

use command::files;
use literal::read::{read, Certificate};
use literal::{verdict, Verdict};
use std::path::{Path, PathBuf};

/// The files of a folder with this ending, named from this crate's.
pub fn paths(folder: &str, ending: &str) -> Vec<PathBuf> {
    let folder = Path::new(env!("CARGO_MANIFEST_DIR")).join(folder);
    files::ending_in(ending, &folder).expect("the folder has such files")
}

pub fn text(path: &Path) -> String {
    files::text(path).expect("a text")
}

/// The certificate of a text in a folder, named without its ending.
pub fn example(folder: &str, name: &str) -> Certificate {
    let path = format!("{}/{folder}/{name}.txt", env!("CARGO_MANIFEST_DIR"));
    certificate(&text(Path::new(&path)))
}

pub fn certificate(text: &str) -> Certificate {
    let file = text::assemble(text).expect("a text that can be assembled");
    read(&file).expect("a certificate")
}

/// The number that refuses the file, 0 if it is accepted.
pub fn number(file: &[u8]) -> u8 {
    match verdict(file) {
        Verdict::Accepted(_) => 0,
        Verdict::Refused(refusal) => refusal.number,
    }
}
