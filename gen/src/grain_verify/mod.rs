//! The invariant of the loop of `grain_verify`, which stands in its inner function `judged`, over the lent buffers.
//! `invariants.txt` is its text; its `use` lines stand there too.
//!
//! A parameter more is a line in `PARAMETERS`. A buffer more is a field of the memory that the text speaks of, too.

use crate::parameter::{Sort, Width};
use crate::template::Holes;
use crate::text::{laid_out, words};
use Sort::{Buffer, Number, Records, Shared};
use Width::{Usize, U16, U32, U64, U8};

/// Each parameter and its sort.
const PARAMETERS: &[(&str, Sort)] = &[
    ("rights", Number(U32)),
    ("functions", Number(U32)),
    ("constants", Shared(U32)),
    ("names", Shared(U8)),
    ("tokens", Number(Usize)),
    ("op_assignments", Number(Usize)),
    ("chains", Shared(U32)),
    ("steps", Shared(U32)),
    ("switches", Shared(U32)),
    ("cases", Shared(U32)),
    ("ranges", Shared(U32)),
    ("code", Shared(U8)),
    ("chunks", Records("T", "Chunk")),
    ("marks", Buffer(U64)),
    ("heights", Buffer(U16)),
    ("records", Buffer(U32)),
    ("work", Buffer(U32)),
];

/// The parameters as Rattle writes them: `rights: u32`.
pub fn signature() -> Vec<String> {
    PARAMETERS.iter().map(|(name, sort)| format!("{name}: {}", sort.rattle())).collect()
}

/// The printed file.
pub fn invariants() -> String {
    let mut holes = Holes::default();
    let buffers = || PARAMETERS.iter().filter(|(_, sort)| matches!(sort, Buffer(_))).map(|(name, _)| name);
    let lent: Vec<String> = buffers().map(|name| format!("{name} = l.fn.{name}")).collect();
    holes.set("buffers as lent", lent.join("; "));
    holes.set("buffers in the loop", words(buffers().map(|name| format!("l.{name}"))));
    laid_out(&holes.fill(include_str!("invariants.txt")))
}
