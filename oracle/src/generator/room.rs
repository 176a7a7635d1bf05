//! How much memory a case lends.

use super::rng::Rng;
use super::shapes::{self, Field};
use crate::input::{Chunk, Input};
use crate::tables::{switch, tag};

/// The elements lent in each of the four buffers.
#[derive(Clone, Copy, Debug, Default, PartialEq, Eq)]
pub struct Room {
    pub marks: usize,
    pub heights: usize,
    pub records: usize,
    pub work: usize,
}

/// The most that is lent in one buffer. The few inputs that need more are there to be refused
/// for it.
const MOST: usize = 1 << 20;

/// What is lent where so much is needed.
fn affordable(need: usize) -> usize {
    if need > MOST {
        8
    } else {
        need
    }
}

impl Room {
    /// Just enough of everything, counted here a second time and not asked of the oracle, so
    /// that exactly full and one short are tested against an outside count.
    pub fn exact(input: &Input) -> Room {
        let needs = input.chunks.iter().map(|chunk| chunk_needs(input, chunk));
        let (records, work) = needs.fold((0, 0), |most, need| {
            (most.0.max(need.0), most.1.max(need.1))
        });
        Room {
            marks: input.code.len() / 64 + 1,
            heights: input.chunks.len(),
            records: affordable(records),
            work: affordable(work),
        }
    }

    /// Enough of everything, and something over.
    pub fn ample(input: &Input) -> Room {
        let exact = Room::exact(input);
        Room {
            marks: exact.marks + 1,
            heights: exact.heights + 2,
            records: exact.records + 5,
            work: exact.work + 3,
        }
    }

    /// Whether each chunk of the input finds the records and the work that it takes.
    pub fn suffices(&self, input: &Input) -> bool {
        let mut needs = input.chunks.iter().map(|chunk| chunk_needs(input, chunk));
        needs.all(|(records, work)| records <= self.records && work <= self.work)
    }

    /// Enough: full to the last element in half of the draws, else larger by a little.
    pub fn enough(rng: &mut Rng, input: &Input) -> Room {
        let mut room = Room::exact(input);
        if rng.one_in(2) {
            room.marks += rng.below(3);
            room.heights += rng.below(4);
            room.records += rng.below(9);
            room.work += rng.below(9);
        }
        room
    }

    /// The number of elements of a buffer, numbered from 1 as in the answers.
    pub fn size(&mut self, buffer: usize) -> &mut usize {
        match buffer {
            1 => &mut self.marks,
            2 => &mut self.heights,
            3 => &mut self.records,
            _ => &mut self.work,
        }
    }
}

/// The elements of records and of work that one chunk takes.
pub fn chunk_needs(input: &Input, chunk: &Chunk) -> (usize, usize) {
    let (entry, end) = (chunk.entry as usize, chunk.end as usize);
    let (mut targets, mut edges) = (0, 0);
    for at in shapes::starts(&input.code) {
        if (entry..end).contains(&at) {
            let (named, out) = arms(input, at);
            targets += named;
            edges += out;
        }
    }
    (4 * (1 + targets), 4 * (1 + edges))
}

/// The targets that an instruction names, and the edges that leave it.
fn arms(input: &Input, at: usize) -> (usize, usize) {
    match input.code[at] {
        tag::RETURN | tag::THROW => (0, 0),
        tag::JUMP => (1, 1),
        tag::SWITCH => {
            let arms = switch_arms(input, at);
            (arms, arms)
        }
        byte if shapes::fields(byte).first() == Some(&Field::Target) => (1, 2),
        _ => (0, 1),
    }
}

/// Cases, ranges and default; none where no table stands behind the index. A span that runs
/// past its table is refused long before, so it is not counted in full.
fn switch_arms(input: &Input, at: usize) -> usize {
    let bytes = [input.code[at + 1], input.code[at + 2]];
    let index = usize::from(u16::from_le_bytes(bytes));
    let Some(table) = input.switches.chunks_exact(switch::WORDS).nth(index) else {
        return 0;
    };
    let cases = table[switch::CASES] as usize;
    let ranges = table[switch::RANGES] as usize;
    cases.min(input.cases.len()) + ranges.min(input.ranges.len()) + 1
}
