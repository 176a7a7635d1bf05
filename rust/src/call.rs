//! The call itself: the one place that names the library's verifier, and one of the two that are not safe.

use crate::{Chunk, Script};

/// The chunk of an answer that is about none: an acceptance, or a refusal before the chunks.
pub const NO_CHUNK: u32 = u32::MAX;

/// The answer in numbers. [`Kind::of`](crate::Kind::of) says what they mean.
#[repr(C)]
#[derive(Clone, Copy, Debug, PartialEq, Eq)]
pub struct Verdict {
    /// 0 for an acceptance, 1 to 16 for a refusal.
    pub kind: u32,
    /// The number of the chunk that is refused, or [`NO_CHUNK`].
    pub chunk: u32,
    /// An offset in the code, for the kinds that name one.
    pub at: u64,
    /// What the kind says.
    pub p: u64,
    /// What the kind says.
    pub q: u64,
    /// On acceptance, the instructions in the code.
    pub instructions: u64,
    /// On acceptance, the instructions that a run can come to, in each chunk, summed.
    pub reached: u64,
    /// On acceptance, one for each chunk, and the edges out of the instructions reached.
    pub taken: u64,
}

/// The memory lent to one call. It may hold anything before it.
#[derive(Debug, Default)]
pub struct Lent<'a> {
    /// A bit for each byte of the code.
    pub marks: &'a mut [u64],
    /// An element for each chunk.
    pub heights: &'a mut [u16],
    /// As [`Room`](crate::Room) says.
    pub records: &'a mut [u32],
    /// As [`Room`](crate::Room) says.
    pub work: &'a mut [u32],
}

#[link(name = "grain", kind = "static")]
extern "C" {
    fn grain_verify(
        rights: u32,
        functions: u32,
        constants: *const u32,
        constants_len: usize,
        names: *const u8,
        names_len: usize,
        tokens: usize,
        op_assignments: usize,
        chains: *const u32,
        chains_len: usize,
        steps: *const u32,
        steps_len: usize,
        switches: *const u32,
        switches_len: usize,
        cases: *const u32,
        cases_len: usize,
        ranges: *const u32,
        ranges_len: usize,
        code: *const u8,
        code_len: usize,
        chunks: *const Chunk,
        chunks_len: usize,
        marks: *mut u64,
        marks_len: usize,
        heights: *mut u16,
        heights_len: usize,
        records: *mut u32,
        records_len: usize,
        work: *mut u32,
        work_len: usize,
    ) -> Verdict;
}

/// Verifies a script with these chunks, in memory that the caller keeps.
///
/// `include/grain.h` says how much of each buffer is needed and what it holds on return.
pub fn verify_in(script: &Script, chunks: &[Chunk], lent: Lent) -> Verdict {
    // SAFETY: each pointer comes from a slice and goes with its length. The four buffers are
    // borrowed alone, so none overlaps another or what is read. The structs are laid out as in C.
    unsafe {
        grain_verify(
            script.rights,
            script.functions,
            script.constants.as_ptr(),
            script.constants.len(),
            script.names.as_ptr(),
            script.names.len(),
            script.tokens,
            script.op_assignments,
            script.chains.as_ptr(),
            script.chains.len(),
            script.steps.as_ptr(),
            script.steps.len(),
            script.switches.as_ptr(),
            script.switches.len(),
            script.cases.as_ptr(),
            script.cases.len(),
            script.ranges.as_ptr(),
            script.ranges.len(),
            script.code.as_ptr(),
            script.code.len(),
            chunks.as_ptr(),
            chunks.len(),
            lent.marks.as_mut_ptr(),
            lent.marks.len(),
            lent.heights.as_mut_ptr(),
            lent.heights.len(),
            lent.records.as_mut_ptr(),
            lent.records.len(),
            lent.work.as_mut_ptr(),
            lent.work.len(),
        )
    }
}
