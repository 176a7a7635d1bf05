//! What has to come back for an input, told by the original, and a verifier held to it. No other
//! verifier is asked.
//!
//! Document 01 adds four refusals, which the original does not know. Whether one of them is due
//! is found out here: 1 where a count is over its limit, 2 where a table has no form in the
//! original's types, 8 at the first chunk that begins inside an instruction of the original's
//! listing. 3 is never due, since enough room is lent.

use super::adapter::{disassemble, Translated};
use super::Refusal;
use crate::compare::{Buffer, Memory};
use crate::generator::{Room, LIMITS};
use crate::input::{Chunk, Input, Verdict, NO_CHUNK};
use crate::tables::{case, chain, step, switch};

/// A verifier with all memory of its call, guards and all.
pub type Subject<'a> = dyn Fn(&Input, &mut Memory) -> Verdict + 'a;

/// What has to come back.
#[derive(Clone, Debug, PartialEq, Eq)]
pub enum Due {
    /// A refusal of this kind, of which the original tells nothing more.
    Kind(u32),
    Answer(Answer),
}

/// An answer as far as the original tells it.
#[derive(Clone, Debug, PartialEq, Eq)]
pub struct Answer {
    pub refusal: Option<Refusal>,
    /// Of each chunk before the refused one, or of all.
    pub heights: Vec<u16>,
    /// How many instructions the original lists.
    pub instructions: u64,
}

impl Due {
    /// Nothing where the chunks take more room than is ever lent: the original would take as much.
    pub fn of(input: &Input) -> Option<Due> {
        if over_a_limit(input) {
            return Some(Due::Kind(1));
        }
        let Some(translated) = Translated::of(input) else {
            return Some(Due::Kind(2));
        };
        let room = Room::ample(input);
        room.suffices(input)
            .then(|| Due::Answer(Answer::of(input, &translated)))
    }

    pub fn kind(&self) -> u32 {
        match self {
            Due::Kind(kind) => *kind,
            Due::Answer(answer) => answer.refusal.map_or(0, |refusal| refusal.kind),
        }
    }

    /// Asks a verifier about the input, with enough room, and says in what its answer is not the
    /// one that is due.
    pub fn hold(&self, input: &Input, subject: &Subject) -> Result<(), String> {
        let room = Room::ample(input);
        let mut memory = Memory::new(room);
        let verdict = subject(input, &mut memory);
        let heights = match self {
            Due::Kind(kind) if verdict.kind == *kind => &[][..],
            Due::Answer(answer) if answer.agrees(&verdict) => &answer.heights[..],
            _ => return Err(format!("{self:?} is due, not {verdict:?}")),
        };
        let mut due = Buffer::new(room.heights);
        due.lent()[..heights.len()].copy_from_slice(heights);
        if memory.heights != due {
            return Err(format!(
                "{heights:?} is due, and left is {:?}",
                memory.heights
            ));
        }
        Ok(())
    }
}

impl Answer {
    fn of(input: &Input, translated: &Translated) -> Answer {
        let listed = disassemble(&input.code);
        let starts: Vec<usize> = listed.iter().map(|&(at, _, _)| at).collect();
        let split = input
            .chunks
            .iter()
            .position(|chunk| begins_inside(chunk, input.code.len(), &starts));
        let answer = translated.verify_first(split.unwrap_or(input.chunks.len()));
        let refusal = match (&answer, split) {
            (Err(refusal), _) => Some(*refusal),
            (Ok(_), Some(chunk)) => Some(misaligned(input, chunk)),
            (Ok(_), None) => None,
        };
        let heights = match answer {
            Ok(heights) => heights,
            Err(refusal) if refusal.chunk == NO_CHUNK => Vec::new(),
            Err(refusal) => translated
                .verify_first(refusal.chunk as usize)
                .expect("the refused chunk is the first that is refused"),
        };
        Answer {
            refusal,
            heights,
            instructions: listed.len() as u64,
        }
    }

    fn agrees(&self, verdict: &Verdict) -> bool {
        let counted = verdict.kind != 0 || verdict.instructions == self.instructions;
        counted && Refusal::of(verdict) == self.refusal
    }
}

/// Whether a chunk lies in the code, and its first byte inside an instruction.
fn begins_inside(chunk: &Chunk, length: usize, starts: &[usize]) -> bool {
    let (entry, end) = (chunk.entry as usize, chunk.end as usize);
    entry <= end && end <= length && entry != length && starts.binary_search(&entry).is_err()
}

fn misaligned(input: &Input, chunk: usize) -> Refusal {
    Refusal {
        kind: 8,
        chunk: chunk as u32,
        at: 0,
        p: input.chunks[chunk].entry.into(),
        q: 0,
    }
}

/// Whether one of the eleven counts, over whole entries, is above its limit.
fn over_a_limit(input: &Input) -> bool {
    let counts = [
        input.code.len() as u64,
        input.constants.len() as u64,
        input.names.len() as u64,
        input.tokens,
        input.op_assignments,
        (input.steps.len() / step::WORDS) as u64,
        (input.cases.len() / case::WORDS) as u64,
        input.ranges.len() as u64,
        (input.chains.len() / chain::WORDS) as u64,
        (input.switches.len() / switch::WORDS) as u64,
        input.chunks.len() as u64,
    ];
    counts
        .iter()
        .zip(LIMITS)
        .any(|(&count, limit)| count > limit)
}
