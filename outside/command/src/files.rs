//! Files of a folder, with the path in every message.

use std::fs;
use std::path::{Path, PathBuf};

/// The folder's files with this ending, by name; none is an error.
pub fn ending_in(ending: &str, folder: &Path) -> Result<Vec<PathBuf>, String> {
    let items = fs::read_dir(folder).map_err(|error| told(folder, error))?;
    let mut found: Vec<PathBuf> = items.flatten().map(|item| item.path()).collect();
    found.retain(|path| path.extension().is_some_and(|end| end == ending));
    found.sort();
    match found.is_empty() {
        true => Err(told(folder, format!("no file ends in .{ending}"))),
        false => Ok(found),
    }
}

pub fn bytes(path: &Path) -> Result<Vec<u8>, String> {
    fs::read(path).map_err(|error| told(path, error))
}

pub fn text(path: &Path) -> Result<String, String> {
    fs::read_to_string(path).map_err(|error| told(path, error))
}

/// The file's name without its ending.
pub fn name(path: &Path) -> String {
    let stem = path.file_stem().unwrap_or_default();
    stem.to_string_lossy().into_owned()
}

/// The message with the path before it.
pub fn told(path: &Path, message: impl std::fmt::Display) -> String {
    format!("{}: {message}", path.display())
}
