//! The proved verifier behind its C exports. The names of the libraries and of their functions
//! stand here and nowhere else.
//!
//! The crate itself does not hold this module, so that it can be built where the libraries are
//! not: each program that links them takes the module in by its path.

use oracle::input::{Chunk, Input, Lent, Verdict};
use std::ptr;

/// A function that asks an export: all exports take the same, but for the lists of chunks.
macro_rules! asking {
    ($function:ident, $export:ident of $library:literal, $($list:ident: $element:ty),+) => {
        fn $function(input: &Input, $($list: &[$element],)+ lent: Lent) -> Verdict {
            #[link(name = $library, kind = "static")]
            extern "C" {
                fn $export(
                    rights: u32,
                    functions: u32,
                    constants: *const u32,
                    constants_len: usize,
                    names: *const u8,
                    names_len: usize,
                    tokens: usize,
                    op_assignments: usize,
                    chains: *const u32,
                    chains_len: usize,
                    steps: *const u32,
                    steps_len: usize,
                    switches: *const u32,
                    switches_len: usize,
                    cases: *const u32,
                    cases_len: usize,
                    ranges: *const u32,
                    ranges_len: usize,
                    code: *const u8,
                    code_len: usize,
                    $($list: *const $element, _: usize,)+
                    marks: *mut u64,
                    marks_len: usize,
                    heights: *mut u16,
                    heights_len: usize,
                    records: *mut u32,
                    records_len: usize,
                    work: *mut u32,
                    work_len: usize,
                ) -> Verdict;
            }
            let Lent {
                marks,
                heights,
                records,
                work,
            } = lent;
            // Every pointer comes from a slice and goes with its length, and no two of what is
            // lent overlap, which is all that the export asks.
            unsafe {
                $export(
                    input.rights,
                    input.functions,
                    first(&input.constants),
                    input.constants.len(),
                    first(&input.names),
                    input.names.len(),
                    input.tokens as usize,
                    input.op_assignments as usize,
                    first(&input.chains),
                    input.chains.len(),
                    first(&input.steps),
                    input.steps.len(),
                    first(&input.switches),
                    input.switches.len(),
                    first(&input.cases),
                    input.cases.len(),
                    first(&input.ranges),
                    input.ranges.len(),
                    first(&input.code),
                    input.code.len(),
                    $(first($list), $list.len(),)+
                    first_mut(marks),
                    marks.len(),
                    first_mut(heights),
                    heights.len(),
                    first_mut(records),
                    records.len(),
                    first_mut(work),
                    work.len(),
                )
            }
        }
    };
}

asking! { over_records, grain_verify of "grain", chunks: Chunk }
asking! { over_lists, probe_verify of "probe", entries: u32, ends: u32, declared: u16 }

/// Where a slice lies: null for an empty one, which is the harder of the two that a C caller
/// may hand over.
fn first<T>(slice: &[T]) -> *const T {
    if slice.is_empty() {
        ptr::null()
    } else {
        slice.as_ptr()
    }
}

/// As `first`, for what is lent.
fn first_mut<T>(slice: &mut [T]) -> *mut T {
    if slice.is_empty() {
        ptr::null_mut()
    } else {
        slice.as_mut_ptr()
    }
}

/// The product's answer.
pub fn verify(input: &Input, lent: Lent) -> Verdict {
    over_records(input, &input.chunks, lent)
}

/// The chunks as the call over flat spans takes them: three lists, of which the shortest says
/// how many chunks there are.
#[derive(Clone, Debug, PartialEq, Eq)]
pub struct Spans {
    pub entries: Vec<u32>,
    pub ends: Vec<u32>,
    pub declared: Vec<u16>,
}

impl Spans {
    pub fn of(chunks: &[Chunk]) -> Spans {
        Spans {
            entries: chunks.iter().map(|chunk| chunk.entry).collect(),
            ends: chunks.iter().map(|chunk| chunk.end).collect(),
            declared: chunks.iter().map(|chunk| chunk.declared).collect(),
        }
    }
}

/// The answer of the call over flat spans, about an input with these chunks instead of its own.
pub fn verify_flat(input: &Input, spans: &Spans, lent: Lent) -> Verdict {
    let Spans {
        entries,
        ends,
        declared,
    } = spans;
    over_lists(input, entries, ends, declared, lent)
}
