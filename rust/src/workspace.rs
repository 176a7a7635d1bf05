//! The memory of a call, owned.

use crate::{Lent, Room, Script};
use std::collections::TryReserveError;

/// Memory for calls of [`verify`](crate::verify), one after the other.
#[derive(Clone, Debug, Default)]
pub struct Workspace {
    marks: Vec<u64>,
    heights: Vec<u16>,
    records: Vec<u32>,
    work: Vec<u32>,
}

impl Workspace {
    /// So many elements of each, if there is memory for them.
    pub fn new(room: Room) -> Result<Workspace, TryReserveError> {
        Ok(Workspace {
            marks: zeros(room.marks)?,
            heights: zeros(room.heights)?,
            records: zeros(room.records)?,
            work: zeros(room.work)?,
        })
    }

    /// Enough for a script with so many chunks, if there is memory for it.
    ///
    /// A script decides how much that is, and a few KiB of code can ask for gigabytes. For scripts
    /// from outside, set a bound: `Workspace::new(script.room(chunk_count).at_most(elements))`.
    pub fn for_script(script: &Script, chunk_count: usize) -> Result<Workspace, TryReserveError> {
        Workspace::new(script.room(chunk_count))
    }

    /// The heights as the last call left them: after a refusal of chunk n, the first n are the
    /// heights of the chunks before it.
    pub fn heights(&self) -> &[u16] {
        &self.heights
    }

    /// The marks as the last call left them.
    pub(crate) fn marks(&self) -> &[u64] {
        &self.marks
    }

    /// All four buffers, for one call.
    pub fn lend(&mut self) -> Lent<'_> {
        Lent {
            marks: &mut self.marks,
            heights: &mut self.heights,
            records: &mut self.records,
            work: &mut self.work,
        }
    }
}

fn zeros<T: Clone + Default>(count: usize) -> Result<Vec<T>, TryReserveError> {
    let mut all = Vec::new();
    all.try_reserve_exact(count)?;
    all.resize(count, T::default());
    Ok(all)
}
