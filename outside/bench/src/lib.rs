//! The proved check beside `fast`: how long both take, and files that are
//! meant to make them slow.

pub mod clock;
pub mod files;
pub mod proved;
pub mod search;
pub mod stack;
