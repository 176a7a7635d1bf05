//! The original verifier, compiled from its published text, behind the types of this crate.
//!
//! The text is not in this repository. `build.rs` takes it from `../shared/docs/src`, seen
//! from the repository's root, and puts document 01's tables in; docs/ORIGINAL.md lists what
//! it changes. Where that folder is absent, `PRESENT` is false and the functions that need
//! the text are not there.

use crate::input::Verdict;

/// Whether the original's text was there when this crate was built.
pub const PRESENT: bool = cfg!(original);

/// A refusal in document 01's numbers, without the counts that a refusal leaves at 0.
#[derive(Clone, Copy, Debug, PartialEq, Eq)]
pub struct Refusal {
    pub kind: u32,
    pub chunk: u32,
    pub at: u64,
    pub p: u64,
    pub q: u64,
}

impl Refusal {
    /// What a verdict tells, or nothing where it accepts.
    pub fn of(verdict: &Verdict) -> Option<Self> {
        (verdict.kind != 0).then_some(Self {
            kind: verdict.kind,
            chunk: verdict.chunk,
            at: verdict.at,
            p: verdict.p,
            q: verdict.q,
        })
    }
}

#[cfg(original)]
pub use adapter::{changes, disassemble, u16_at, u32_at, width, Translated};
#[cfg(original)]
pub use due::{Answer, Due, Subject};

#[cfg(original)]
#[path = "../original/stubs.rs"]
mod stubs;

/// The published texts with the stubs around them. What they leave unused or write in another
/// style is not ours to change.
#[cfg(original)]
#[allow(dead_code, unused_imports, clippy::all)]
mod text {
    pub use super::stubs::*;
    pub use chunk::Chunk;
    pub use code::disassemble;
    pub use op::{Op, Receiver};

    include!(concat!(env!("OUT_DIR"), "/original/modules.rs"));
}

#[cfg(original)]
#[path = "../original/adapter.rs"]
mod adapter;

#[cfg(original)]
#[path = "../original/due.rs"]
mod due;
