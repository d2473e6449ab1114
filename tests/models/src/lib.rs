//! The models and the guide's examples: how they are read, run and compared.
//!
//! An [`example::Example`] is a model text, choices and what the runner writes. A
//! folder of models holds one, and so do three fenced blocks of the guide. A
//! [`walk`] is a table that tells it choice by choice. Every check gives the
//! [`Faults`] that it found, so that a test can say that a damaged file has some.

#![forbid(unsafe_code)]

pub mod calls;
pub mod claims;
pub mod example;
pub mod folder;
pub mod guide;
pub mod markdown;
pub mod walk;

use std::path::{Path, PathBuf};

use boundary::creol::Entries;

/// The engines that there are, by name: the independent one, and the library where it
/// is linked.
pub fn engines() -> Vec<(&'static str, Entries)> {
    let linked = Entries::linked().map(|entries| ("the library", entries));
    let independent = ("the independent engine", Entries::INDEPENDENT);
    [independent].into_iter().chain(linked).collect()
}

/// What is wrong, each in a sentence; none where all is well.
pub type Faults = Vec<String>;

/// The repository's root.
pub fn root() -> PathBuf {
    Path::new(env!("CARGO_MANIFEST_DIR")).join("../..")
}

/// A text file as a string.
pub fn read(path: &Path) -> Result<String, String> {
    std::fs::read_to_string(path).map_err(|error| format!("{}: {error}", path.display()))
}
