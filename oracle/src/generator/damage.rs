//! Good programs with something broken, so that refusals come from deep inside.

use super::program::good;
use super::rng::Rng;
use super::room::Room;
use super::shapes::{self, Field};
use super::Case;
use crate::input::{Chunk, Input};
use crate::tables::{case, chain, limit, rights, step, switch, tag};

type Damage = fn(&mut Rng, &mut Input);

/// What may be broken; what takes more draws to show stands here more than once.
const DAMAGES: &[Damage] = &[
    bit,
    byte,
    other_tag,
    other_tag,
    other_tag,
    other_tag,
    target,
    target,
    target,
    operand,
    operand,
    fewer,
    fewer,
    span,
    span,
    word,
    word,
    word,
    right,
    right,
    right,
    ragged,
    declared,
    declared,
    cut,
    insert,
    swap,
    empty_chunk,
    constant,
    foreign_site,
    crowd,
];

/// A good program with one thing changed, or up to three.
pub fn damaged(rng: &mut Rng) -> Case {
    let mut input = good(rng);
    for _ in 0..rng.pick(&[1, 1, 1, 1, 2, 3]) {
        rng.pick(DAMAGES)(rng, &mut input);
    }
    let room = Room::enough(rng, &input);
    Case { input, room }
}

fn bit(rng: &mut Rng, input: &mut Input) {
    if let Some(at) = place(rng, &input.code) {
        input.code[at] ^= 1 << rng.below(8);
    }
}

fn byte(rng: &mut Rng, input: &mut Input) {
    if let Some(at) = place(rng, &input.code) {
        input.code[at] = rng.byte();
    }
}

/// Some index into a list, where it has one.
fn place<T>(rng: &mut Rng, list: &[T]) -> Option<usize> {
    (!list.is_empty()).then(|| rng.below(list.len()))
}

/// Some instruction of the code.
fn start(rng: &mut Rng, input: &Input) -> Option<usize> {
    let starts = shapes::starts(&input.code);
    place(rng, &starts).map(|index| starts[index])
}

/// Another instruction of the same width: all that follows stays where it was, so the
/// depths go wrong and not the decoding.
fn other_tag(rng: &mut Rng, input: &mut Input) {
    if let Some(at) = start(rng, input) {
        let width = shapes::width(input.code[at]);
        let same = tag::ALL.iter().filter(|tag| shapes::width(tag.0) == width);
        let same: Vec<u8> = same.map(|tag| tag.0).collect();
        input.code[at] = rng.pick(&same);
    }
}

/// Some jump, or some arm of some switch, goes elsewhere.
fn target(rng: &mut Rng, input: &mut Input) {
    let jumps = |at: &usize| shapes::fields(input.code[*at]).first() == Some(&Field::Target);
    let jumps: Vec<usize> = shapes::starts(&input.code)
        .into_iter()
        .filter(jumps)
        .collect();
    let goal = goal(rng, input);
    match place(rng, &jumps) {
        Some(index) if !rng.one_in(4) => {
            let at = jumps[index] + 1;
            input.code[at..at + 4].copy_from_slice(&goal.to_le_bytes());
        }
        _ => arm(rng, input, goal),
    }
}

fn arm(rng: &mut Rng, input: &mut Input, goal: u32) {
    let (table, field, words) = match rng.below(3) {
        0 => (&mut input.cases, case::TARGET, case::WORDS),
        1 => (&mut input.ranges, 0, 1),
        _ => (&mut input.switches, switch::DEFAULT, switch::WORDS),
    };
    if table.len() >= words {
        let entry = rng.below(table.len() / words);
        table[entry * words + field] = goal;
    }
}

/// A place to jump to that is often just beside a good one.
fn goal(rng: &mut Rng, input: &Input) -> u32 {
    let len = input.code.len() as u32;
    let start = start(rng, input).unwrap_or(0) as u32;
    let chunk = place(rng, &input.chunks).map_or((0, 0), |index| {
        let chunk = input.chunks[index];
        (chunk.entry, chunk.end)
    });
    let near = [start, start, start + 1, chunk.0, chunk.1];
    let far = [
        chunk.1.wrapping_sub(1),
        chunk.0.wrapping_sub(1),
        len,
        len + 1,
        u32::MAX,
    ];
    if rng.one_in(3) {
        rng.pick(&far)
    } else {
        rng.pick(&near)
    }
}

/// Some operand gets a value near the size of a pool.
fn operand(rng: &mut Rng, input: &mut Input) {
    let Some(at) = start(rng, input) else {
        return;
    };
    let mut offset = at + 1;
    let fields = shapes::fields(input.code[at]);
    let chosen = rng.below(fields.len());
    for (index, field) in fields.iter().enumerate() {
        if index == chosen {
            let value = near_size(rng, input).to_le_bytes();
            let bytes = &mut input.code[offset..offset + field.size()];
            bytes.copy_from_slice(&value[..field.size()]);
        }
        offset += field.size();
    }
}

/// A number at or beside the size of some pool, or a number at a bound.
fn near_size(rng: &mut Rng, input: &Input) -> u32 {
    let size = rng.pick(&[
        input.constants.len(),
        input.names.len(),
        input.tokens as usize,
        input.op_assignments as usize,
        input.chains.len() / chain::WORDS,
        input.steps.len() / step::WORDS,
        input.switches.len() / switch::WORDS,
        input.cases.len() / case::WORDS,
        input.ranges.len(),
    ]) as u32;
    rng.pick(&[
        size,
        size,
        size + 1,
        size.saturating_sub(1),
        0,
        1,
        2,
        3,
        65_535,
        u32::MAX,
    ])
}

/// A pool loses its last entry.
fn fewer(rng: &mut Rng, input: &mut Input) {
    match rng.below(5) {
        0 => drop(input.constants.pop()),
        1 => drop(input.names.pop()),
        2 => input.tokens = input.tokens.saturating_sub(1),
        3 => input.op_assignments = input.op_assignments.saturating_sub(1),
        _ => shorten(rng, input),
    }
}

/// A table loses its last whole entry.
fn shorten(rng: &mut Rng, input: &mut Input) {
    let (table, words) = some_table(rng, input);
    table.truncate(table.len().saturating_sub(words));
}

fn some_table<'a>(rng: &mut Rng, input: &'a mut Input) -> (&'a mut Vec<u32>, usize) {
    match rng.below(5) {
        0 => (&mut input.chains, chain::WORDS),
        1 => (&mut input.steps, step::WORDS),
        2 => (&mut input.switches, switch::WORDS),
        3 => (&mut input.cases, case::WORDS),
        _ => (&mut input.ranges, 1),
    }
}

/// A table gets some words too many or too few.
fn ragged(rng: &mut Rng, input: &mut Input) {
    let (table, words) = some_table(rng, input);
    if rng.one_in(2) {
        table.resize(table.len() + rng.between(1, words), 0);
    } else {
        table.truncate(table.len().saturating_sub(rng.between(1, words)));
    }
}

/// Some word of some table gets another value.
fn word(rng: &mut Rng, input: &mut Input) {
    let value = near_size(rng, input);
    let (table, _) = some_table(rng, input);
    if let Some(at) = place(rng, table) {
        table[at] = value;
    }
}

/// The script may do one thing less than it could, or nothing.
fn right(rng: &mut Rng, input: &mut Input) {
    let given: Vec<u32> = (0..17).filter(|bit| input.rights >> bit & 1 == 1).collect();
    match place(rng, &given) {
        Some(index) if !rng.one_in(6) => input.rights &= !(1 << given[index]),
        _ => input.rights = 0,
    }
    if rng.one_in(2) {
        input.functions = 0;
    }
}

/// A constant asks for more than there is, or for part of it only.
fn constant(rng: &mut Rng, input: &mut Input) {
    if let Some(at) = place(rng, &input.constants) {
        input.constants[at] = rng.pick(&[rights::BLOB, 768, 1 << 17, u32::MAX]);
    }
}

/// A chunk declares a little more or less than it did.
fn declared(rng: &mut Rng, input: &mut Input) {
    if let Some(at) = place(rng, &input.chunks) {
        let height = input.chunks[at].declared;
        let less = height.saturating_sub(1);
        input.chunks[at].declared = rng.pick(&[less, less, height.saturating_sub(2), 0]);
    }
}

/// A chunk's span moves.
fn span(rng: &mut Rng, input: &mut Input) {
    let Some(index) = place(rng, &input.chunks) else {
        return;
    };
    let start = start(rng, input).unwrap_or(0) as u32;
    let len = input.code.len() as u32;
    let chunk = &mut input.chunks[index];
    match rng.below(8) {
        0 => chunk.entry = chunk.entry.wrapping_add(1),
        1 => chunk.end = chunk.end.wrapping_sub(1),
        2 => chunk.end = rng.pick(&[len, len + 1, u32::MAX]),
        3 => chunk.entry = rng.pick(&[len, len + 1, u32::MAX]),
        4 => chunk.entry = start,
        5 => chunk.end = start,
        6 => chunk.end = chunk.entry,
        _ => std::mem::swap(&mut chunk.entry, &mut chunk.end),
    }
}

/// One more chunk that holds nothing.
fn empty_chunk(rng: &mut Rng, input: &mut Input) {
    let len = input.code.len();
    let start = start(rng, input).unwrap_or(0);
    let at = rng.pick(&[len, start, start + 1]).min(len) as u32;
    let declared = rng.below(3) as u16;
    input.chunks.push(Chunk {
        entry: at,
        end: at,
        declared,
    });
}

/// The code stops short.
fn cut(rng: &mut Rng, input: &mut Input) {
    let less = rng.between(1, 6);
    input.code.truncate(input.code.len().saturating_sub(less));
}

/// One instruction more or one fewer, and every target as it was.
fn insert(rng: &mut Rng, input: &mut Input) {
    let Some(at) = start(rng, input) else {
        return;
    };
    if rng.one_in(2) {
        let more = rng.pick(&[tag::UNIT, tag::POP, tag::ITER_DROP, tag::POP_HANDLER]);
        input.code.insert(at, more);
    } else {
        let width = shapes::width(input.code[at]);
        input.code.drain(at..at + width);
    }
}

/// Two instructions of the same width change places.
fn swap(rng: &mut Rng, input: &mut Input) {
    let (Some(one), Some(other)) = (start(rng, input), start(rng, input)) else {
        return;
    };
    let width = shapes::width(input.code[one]);
    if width == shapes::width(input.code[other]) {
        for offset in 0..width {
            input.code.swap(one + offset, other + offset);
        }
    }
}

/// There are no custom syntax sites, so the index is bad even where it is never reached.
fn foreign_site(rng: &mut Rng, input: &mut Input) {
    let index = rng.pick(&[0, 1, 255]);
    let instruction = [tag::CUSTOM_SYNTAX, index, 0];
    input.code.extend_from_slice(&instruction);
}

/// A bare count at its limit or past it, which costs nothing to make.
fn crowd(rng: &mut Rng, input: &mut Input) {
    let size = rng.pick(&[0, 1, 1, 1 << 32, u64::MAX - limit::TOKENS]);
    match rng.below(2) {
        0 => input.tokens = limit::TOKENS + size,
        _ => input.op_assignments = limit::OP_ASSIGNMENTS + size,
    }
}
