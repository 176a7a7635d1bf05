//! Inputs at the bounds: the eleven limits, the edges of the marks, rooms that are full or
//! one short, and numbers that pass 16 or 32 bits. Some are large, so they are drawn rarely.

use super::program::good;
use super::rng::Rng;
use super::room::{chunk_needs, Room};
use super::Case;
use crate::input::{Chunk, Input};
use crate::tables::{chain, limit, step, switch, tag};

/// The most of each of the eleven counts, in the order of their numbers.
pub const LIMITS: [u64; 11] = [
    limit::CODE,
    limit::CONSTANTS,
    limit::NAMES,
    limit::TOKENS,
    limit::OP_ASSIGNMENTS,
    limit::STEPS,
    limit::CASES,
    limit::RANGES,
    limit::CHAINS,
    limit::SWITCHES,
    limit::CHUNKS,
];

/// One of the counts one below its limit, at it, or one above; at times a second count is
/// over too, or a table is ragged.
pub fn at_a_limit(rng: &mut Rng) -> Case {
    let number = rng.between(1, LIMITS.len());
    let mut input = with_count(number, LIMITS[number - 1] as usize + rng.below(3) - 1);
    match rng.below(14) {
        0 => input.tokens = limit::TOKENS + 1,
        1 => input.op_assignments = u64::MAX,
        2 => input.tokens = 1 << 32,
        3 => input.chains.extend_from_slice(&[0; chain::WORDS - 1]),
        4 => input.steps.push(0),
        5 => input.switches.extend_from_slice(&[0; switch::WORDS - 1]),
        6 => input.cases.push(0),
        _ => (),
    }
    let room = Room::enough(rng, &input);
    Case { input, room }
}

/// A program with `count` entries in the pool of this number, the last one used where the
/// code can name it.
pub fn with_count(number: usize, count: usize) -> Input {
    let last = (count - 1).min(65_535) as u16;
    let mut input = Input {
        rights: 0x1_ffff,
        code: vec![tag::UNIT, tag::RETURN],
        ..Input::default()
    };
    match number {
        1 => input.code = filled(count),
        2..=5 => fill_pool(&mut input, number, count, last.to_le_bytes()),
        6..=10 => fill_table(&mut input, number, count, last.to_le_bytes()),
        _ => (),
    }
    let copies = if number == 11 { count } else { 1 };
    input.chunks = vec![over_all(&input, 1); copies];
    input
}

fn fill_pool(input: &mut Input, number: usize, count: usize, [low, high]: [u8; 2]) {
    match number {
        2 => {
            input.constants = vec![0; count];
            input.code = vec![tag::LOAD_CONST, low, high, tag::RETURN];
        }
        3 => {
            input.names = vec![0; count];
            input.code = vec![tag::LOAD_NAMED, low, high, tag::RETURN];
        }
        4 => {
            input.names = vec![0];
            input.tokens = count as u64;
            input.code = vec![tag::CALL_OP, 0, 0, 0, low, high, tag::RETURN];
        }
        _ => {
            input.op_assignments = count as u64;
            let assign = [tag::ASSIGN_THIS_OP, low, high, tag::UNIT];
            input.code.splice(1..1, assign);
        }
    }
}

fn fill_table(input: &mut Input, number: usize, count: usize, [low, high]: [u8; 2]) {
    match number {
        6 => {
            input.steps = vec![0; count * step::WORDS];
            input.chains = vec![3, 0, 0, 0, 0, 0, count as u32];
            input.code = vec![tag::CHAIN, 0, 0, tag::RETURN];
        }
        7 | 8 => switched(input, number == 7, count),
        9 => {
            input.chains = [3, 0, 0, 0, 0, 0, 0].repeat(count);
            input.code = vec![tag::CHAIN, low, high, tag::RETURN];
        }
        _ => {
            input.switches = [0, 0, 0, 0, 4].repeat(count);
            let switch = [tag::SWITCH, low, high, tag::UNIT];
            input.code.splice(1..1, switch);
        }
    }
}

fn over_all(input: &Input, declared: u16) -> Chunk {
    Chunk {
        entry: 0,
        end: input.code.len() as u32,
        declared,
    }
}

/// Code of just this many bytes: idle instructions, then a return.
fn filled(len: usize) -> Vec<u8> {
    let mut code = vec![tag::TICK; len];
    code[len - 2] = tag::UNIT;
    code[len - 1] = tag::RETURN;
    code
}

/// One switch over all the cases or all the ranges, which meet in one place.
fn switched(input: &mut Input, cases: bool, count: usize) {
    let counts = if cases { (count, 0) } else { (0, count) };
    input.constants = vec![0];
    input.cases = [4, 0].repeat(counts.0);
    input.ranges = vec![4; counts.1];
    input.switches = vec![0, counts.0 as u32, 0, counts.1 as u32, 4];
    input.code = vec![tag::UNIT, tag::SWITCH, 0, 0, tag::UNIT, tag::RETURN];
}

/// Numbers that pass 16 or 32 bits on the way.
pub fn extreme(rng: &mut Rng) -> Case {
    let operands = rng.pick(&[65_536, u32::MAX]);
    let input = match rng.below(4) {
        0 => deepest(rng),
        1 => crowded(rng),
        2 => hungry(rng, &[tag::MAKE_MAP, 0, 0x80], operands),
        _ => hungry(rng, &[tag::CHAIN, 0, 0], operands),
    };
    let room = Room::enough(rng, &input);
    Case { input, room }
}

/// The greatest height that there can be, declared in full or one short.
fn deepest(rng: &mut Rng) -> Input {
    let mut input = Input {
        code: vec![tag::UNIT; 65_536],
        ..Input::default()
    };
    input.code[65_535] = tag::RETURN;
    input.chunks = vec![over_all(&input, rng.pick(&[65_535, 65_534, 0]))];
    input
}

/// So many switches over one table that the room they need passes 32 bits.
fn crowded(rng: &mut Rng) -> Input {
    let switches = rng.pick(&[16_384, 21_845]);
    let mut input = Input {
        ranges: vec![0; 65_536],
        switches: vec![0, 0, 0, 65_536, 0],
        code: [tag::SWITCH, 0, 0].repeat(switches),
        ..Input::default()
    };
    input.chunks = vec![over_all(&input, 9)];
    input
}

/// An instruction that asks for more operands than 16 bits hold.
fn hungry(rng: &mut Rng, instruction: &[u8], operands: u32) -> Input {
    let mut input = Input {
        rights: 0x1_ffff,
        chains: vec![3, 0, operands, 0, 0, 0, 0],
        code: vec![tag::UNIT; rng.below(3)],
        ..Input::default()
    };
    input.code.extend_from_slice(instruction);
    input.code.push(tag::RETURN);
    input.chunks = vec![over_all(&input, 9)];
    input
}

/// Code whose length is at or beside a multiple of 64, where the last word of the marks may
/// hold no bit.
pub fn at_a_word(rng: &mut Rng) -> Case {
    let len = 64 * rng.between(1, 3) + rng.below(3) - 1;
    let mut input = good(rng);
    while input.code.len() < len {
        input.code.push(tag::TICK);
    }
    if rng.one_in(4) {
        input.code.truncate(len);
    }
    let room = Room::enough(rng, &input);
    Case { input, room }
}

/// Buffers that are full to the last element, or one short, or empty.
pub fn at_the_room(rng: &mut Rng) -> Case {
    let input = good(rng);
    let mut room = Room::enough(rng, &input);
    let mut exact = Room::exact(&input);
    for _ in 0..rng.pick(&[1, 1, 2]) {
        let buffer = rng.between(1, 4);
        let most = *exact.size(buffer);
        *room.size(buffer) = rng.pick(&[most, most.saturating_sub(1), 0, most + 64]);
    }
    if rng.one_in(4) {
        let chunk = rng.pick(&input.chunks);
        (room.records, room.work) = chunk_needs(&input, &chunk);
    }
    Case { input, room }
}
