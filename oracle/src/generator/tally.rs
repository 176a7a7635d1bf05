//! How often each answer came in a run: a comparison over inputs that all get the same
//! answer would tell nothing.

use super::Case;
use crate::input::{Verdict, NO_CHUNK};
use std::fmt;

/// Counts over a run.
#[derive(Clone, Debug, Default, PartialEq, Eq)]
pub struct Tally {
    pub cases: u64,
    pub kinds: [u64; 17],
    /// Kind 1 by the number of the limit, from 1.
    pub limits: [u64; 11],
    /// Kind 2 by table, from 1.
    pub tables: [u64; 4],
    /// Kind 3 by buffer, from 1.
    pub buffers: [u64; 4],
    /// Kind 4 for a constant, for FUNCTION, in a walk.
    pub rights: [u64; 3],
    /// Kind 6 by pool, from 1.
    pub pools: [u64; 7],
    /// Kind 11 with equal operands: only iterators or handlers differ.
    pub hidden_conflicts: u64,
    /// Refusals of a chunk after one that was good.
    pub later_chunks: u64,
    /// Accepted with two chunks or more, where some place is arrived at twice.
    pub merging: u64,
}

impl Tally {
    /// Sees to it that each of these counts is large enough.
    #[track_caller]
    pub fn at_least(&self, what: &str, counts: &[u64], least: u64) {
        for (number, &count) in counts.iter().enumerate() {
            assert!(
                count >= least,
                "{what}, element {number}: {count} < {least}\n{self}"
            );
        }
    }

    pub fn add(&mut self, case: &Case, verdict: &Verdict) {
        self.cases += 1;
        self.kinds[verdict.kind as usize] += 1;
        match verdict.kind {
            0 => self.merging += u64::from(merges(case, verdict)),
            1 => count(&mut self.limits, verdict.p),
            2 => count(&mut self.tables, verdict.p),
            3 => count(&mut self.buffers, verdict.q),
            4 => count(&mut self.rights, sort_of_rights(case, verdict)),
            6 => count(&mut self.pools, verdict.q),
            11 => self.hidden_conflicts += u64::from(verdict.p == verdict.q),
            _ => (),
        }
        let later = verdict.chunk != NO_CHUNK && verdict.chunk > 0;
        self.later_chunks += u64::from(later);
    }
}

/// Numbers run from 1.
fn count(counts: &mut [u64], number: u64) {
    counts[number as usize - 1] += 1;
}

/// Each item taken arrives somewhere, and the places are the ones reached: more items than
/// places means that one was arrived at twice.
fn merges(case: &Case, verdict: &Verdict) -> bool {
    case.input.chunks.len() >= 2 && verdict.taken > verdict.reached
}

fn sort_of_rights(case: &Case, verdict: &Verdict) -> u64 {
    let lacks = |word: &u32| word & !case.input.rights != 0;
    if verdict.chunk != NO_CHUNK {
        3
    } else if case.input.constants.iter().any(lacks) {
        1
    } else {
        2
    }
}

impl fmt::Display for Tally {
    fn fmt(&self, f: &mut fmt::Formatter) -> fmt::Result {
        writeln!(f, "cases {}", self.cases)?;
        writeln!(f, "kinds from 0: {:?}", self.kinds)?;
        writeln!(f, "kind 1 by limit: {:?}", self.limits)?;
        writeln!(f, "kind 2 by table: {:?}", self.tables)?;
        writeln!(f, "kind 3 by buffer: {:?}", self.buffers)?;
        writeln!(
            f,
            "kind 4 of a constant, of FUNCTION, in a walk: {:?}",
            self.rights
        )?;
        writeln!(f, "kind 6 by pool: {:?}", self.pools)?;
        writeln!(f, "kind 11 with equal operands: {}", self.hidden_conflicts)?;
        writeln!(f, "refused after a good chunk: {}", self.later_chunks)?;
        writeln!(
            f,
            "accepted, two chunks or more, with a merge: {}",
            self.merging
        )
    }
}
