//! The certificates to time, and their answers in words.

use command::files;
use std::path::{Path, PathBuf};

/// The file that others are compared to.
pub const TYPICAL: &str = "1-typical";

pub struct Certificate {
    pub name: String,
    pub bytes: Vec<u8>,
}

impl Certificate {
    pub fn read(path: &Path) -> Result<Certificate, String> {
        Ok(Certificate {
            name: files::name(path),
            bytes: files::bytes(path)?,
        })
    }
}

/// This crate's own folder of certificates.
pub fn own() -> PathBuf {
    Path::new(env!("CARGO_MANIFEST_DIR")).join("files")
}

/// The certificates of published protocols.
pub fn corpus() -> PathBuf {
    Path::new(env!("CARGO_MANIFEST_DIR")).join("../corpus")
}

pub fn certificates(folder: &Path) -> Result<Vec<Certificate>, String> {
    let paths = files::ending_in("cert", folder)?;
    paths.iter().map(|path| Certificate::read(path)).collect()
}

/// `accepted`, or number, block and place.
pub fn in_words(answer: u32) -> String {
    let [_, number, block, place] = answer.to_be_bytes();
    match answer {
        0 => "accepted".to_string(),
        _ => format!("{number} {block} {place}"),
    }
}
