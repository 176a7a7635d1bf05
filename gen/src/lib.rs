//! Prints the proof files that are lists over a function's parameters: a parameter more is a line in the list here, and
//! what is printed follows it. What a text says of one parameter alone stays to be written in that text.
//!
//!     cargo run --offline --release --manifest-path gen/Cargo.toml
//!
//! writes every printed file in its place, and `tests/committed.rs` holds the committed files to what is printed.
//!
//! A printed file is a text with holes, such as `grain_verify/invariants.txt`, which reads as the proof does, and a
//! module beside it that says what stands in each hole. What serves any wide proof is in the modules below:
//!
//! | module | what it has |
//! |---|---|
//! | `text` | lists and tuples as antt writes them, and lines broken where they may be |
//! | `template` | a text with holes, filled |
//! | `parameter` | a parameter's sort in Rattle, and what it is to the program logic where a walk is written by hand |
//! | `context` | such a walk's context by names, so that no position is counted by hand |
//! | `walk` | such a walk followed step by step, with a hole for each step that names positions |
//!
//! No file that is printed today is such a walk. Of the last three only `Sort` and `Width` are used; the rest print the
//! words of an older Rattle, and stand with their tests.

pub mod context;
pub mod grain_verify;
pub mod parameter;
pub mod template;
pub mod text;
pub mod walk;

use std::path::{Path, PathBuf};

/// A printed file.
pub struct File {
    /// Where it stands, from the repository's root.
    pub place: &'static str,
    pub text: String,
}

impl File {
    pub fn path(&self) -> PathBuf {
        Path::new(env!("CARGO_MANIFEST_DIR")).join("..").join(self.place)
    }
}

/// Every printed file.
pub fn files() -> Vec<File> {
    vec![File { place: "crates/grain/proofs/judged/Invariants.antt", text: grain_verify::invariants() }]
}
