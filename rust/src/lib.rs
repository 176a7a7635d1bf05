//! The chunk verifier for Grain bytecode, proved, behind a safe interface.
//!
//! [`verify`] decides about a whole script: its code, its tables and its chunks. It answers any
//! input; a refusal says which test failed, where, and with which values.
//!
//! ```
//! use grain::{Chunk, Kind, Script, Workspace};
//!
//! # fn main() -> Result<(), Box<dyn std::error::Error>> {
//! // UNIT, RETURN, in one chunk that declares a stack of 9.
//! let script = Script { code: &[0x01, 0x07], ..Script::default() };
//! let mut chunks = [Chunk { entry: 0, end: 2, max_stack: 9 }];
//! let mut workspace = Workspace::for_script(&script, chunks.len())?;
//!
//! let accepted = grain::verify(&script, &chunks, &mut workspace)?;
//! assert_eq!(accepted.heights(), [1]);
//! assert_eq!((accepted.instructions, accepted.reached, accepted.taken), (2, 2, 2));
//!
//! // It needs a stack of 1.
//! chunks[0].max_stack = 0;
//! let refusal = grain::verify(&script, &chunks, &mut workspace).unwrap_err();
//! assert_eq!(refusal.chunk, Some(0));
//! assert_eq!(refusal.kind, Kind::StackExceedsDeclared { needed: 1, declared: 0 });
//! # Ok(())
//! # }
//! ```
//!
//! - [`Script`], [`Chunk`]: what is read.
//! - [`Workspace`], [`Room`]: the memory that a call works in, and how much of it is enough.
//! - [`Accepted`], [`Refusal`], [`Kind`]: the answer.
//! - [`verify_in`], [`Lent`], [`Verdict`]: the same for callers who keep their own memory and take
//!   the answer in numbers.
//! - [`item_at`], [`instructions`], [`Listed`]: the listing, for people and for tools.
//!
//! `include/grain.h` says what each number means. The library is linked statically and has to be
//! built before: `rt lib` in `crates/grain`.

#![deny(unsafe_op_in_unsafe_fn)]
#![warn(missing_docs)]

#[cfg(not(target_pointer_width = "64"))]
compile_error!("the proved library is for machines with 64-bit sizes");

mod call;
mod kind;
mod listing;
mod room;
mod script;
mod workspace;

pub use call::{verify_in, Lent, Verdict, NO_CHUNK};
pub use kind::{Buffer, Kind, Limit, Pool, Table};
pub use listing::{instructions, item_at, Instruction, Instructions, Listed};
pub use room::Room;
pub use script::{right, Chunk, Script};
pub use workspace::Workspace;

use std::error::Error;
use std::fmt;

/// A script that is sound.
#[derive(Clone, Copy, Debug, PartialEq, Eq)]
pub struct Accepted<'w> {
    /// The instructions in the code.
    pub instructions: u64,
    /// The instructions that a run can come to, in each chunk, summed over the chunks.
    pub reached: u64,
    /// One for each chunk, and the edges out of the instructions reached.
    pub taken: u64,
    heights: &'w [u16],
    marks: &'w [u64],
}

impl<'w> Accepted<'w> {
    /// For each chunk the greatest height of its stack.
    pub fn heights(&self) -> &'w [u16] {
        self.heights
    }

    /// Whether an instruction starts at this offset of the code.
    pub fn starts_at(&self, at: usize) -> bool {
        let word = self.marks.get(at / 64).copied().unwrap_or(0);
        word >> (at % 64) & 1 == 1
    }
}

/// Why a script is refused: the first test that failed.
#[derive(Clone, Copy, Debug, PartialEq, Eq)]
pub struct Refusal {
    /// The number of the chunk that it is about, if it is about one. Those before it are sound.
    pub chunk: Option<u32>,
    /// What failed, and with which values. Never [`Kind::Accepted`].
    pub kind: Kind,
}

impl fmt::Display for Refusal {
    fn fmt(&self, f: &mut fmt::Formatter) -> fmt::Result {
        match self.chunk {
            Some(chunk) => write!(f, "chunk {chunk}: {}", self.kind),
            None => self.kind.fmt(f),
        }
    }
}

impl Error for Refusal {}

/// Verifies a script with these chunks, in this memory.
///
/// The workspace may be larger than the script needs, and may have served other calls. Where it is
/// too small, the refusal is [`Kind::NoRoom`].
pub fn verify<'w>(
    script: &Script,
    chunks: &[Chunk],
    workspace: &'w mut Workspace,
) -> Result<Accepted<'w>, Refusal> {
    let verdict = verify_in(script, chunks, workspace.lend());
    let kind =
        Kind::of(&verdict).expect("the library gives each kind the values that belong to it");
    match kind {
        Kind::Accepted {
            instructions,
            reached,
            taken,
        } => Ok(Accepted {
            instructions,
            reached,
            taken,
            heights: &workspace.heights()[..chunks.len()],
            marks: workspace.marks(),
        }),
        kind => Err(Refusal {
            chunk: (verdict.chunk != NO_CHUNK).then_some(verdict.chunk),
            kind,
        }),
    }
}
