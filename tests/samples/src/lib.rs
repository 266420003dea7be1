//! The samples of examples/: a handler, its proof, and a page that gives both exactly.

mod findp;
mod guests;
mod small;
pub mod words;

use generate::pairs::Pair;
use std::path::{Path, PathBuf};

/// A sample before it is written.
pub struct Sample {
    /// Its folder.
    pub name: &'static str,
    /// What the handler is for, and what the proof says of it.
    pub about: &'static str,
    /// The names of the variables.
    pub variables: &'static [&'static str],
    pub pair: Pair,
}

impl Sample {
    /// The files of the sample's folder.
    pub fn files(&self) -> [(&'static str, Vec<u8>); 3] {
        [
            ("handler.bin", self.pair.handler_file.bytes.clone()),
            ("proof.bin", self.pair.proof_file.bytes.clone()),
            ("README.md", words::page(self).into_bytes()),
        ]
    }
}

pub fn all() -> Vec<Sample> {
    vec![
        small::first(),
        small::slot(),
        small::countdown(),
        small::ring(),
        small::counters(),
        findp::sample(),
        guests::producer(),
        guests::consumer(),
        guests::guests(),
    ]
}

/// The folder examples/ of the repository.
pub fn folder() -> PathBuf {
    Path::new(env!("CARGO_MANIFEST_DIR")).join("../../examples")
}
