//! Inputs without a plan: they find the tests that come early, and combinations that no
//! plan would make.

use super::rng::Rng;
use super::room::Room;
use super::shapes::{self, Field};
use super::Case;
use crate::input::{Chunk, Input};
use crate::tables::{rights, tag};

/// Instructions drawn one by one, with operands that mostly name something.
pub fn instructions(rng: &mut Rng) -> Case {
    let mut input = pools(rng);
    let count = rng.between(0, 12);
    let bytes = draw(rng, count);
    let len: usize = bytes.iter().map(|&byte| shapes::width(byte)).sum();
    for byte in bytes {
        input.code.push(byte);
        for &field in shapes::fields(byte) {
            let value = value(rng, field, len).to_le_bytes();
            input.code.extend_from_slice(&value[..field.size()]);
        }
    }
    finish(rng, input)
}

/// Mostly the tags that move the depths about, so that some of the codes are good.
fn draw(rng: &mut Rng, count: usize) -> Vec<u8> {
    const SMALL: &[u8] = &[
        tag::UNIT,
        tag::UNIT,
        tag::UNIT,
        tag::POP,
        tag::RETURN,
        tag::THROW,
        tag::ITER_INIT,
        tag::ITER_DROP,
        tag::POP_HANDLER,
        tag::JUMP,
        tag::JUMP_IF_TRUE,
        tag::SKIP_IF_NOT_UNIT,
        tag::ITER_NEXT,
        tag::PUSH_HANDLER,
        tag::SWITCH,
    ];
    let mixed = rng.one_in(3);
    let mut bytes: Vec<u8> = (0..count)
        .map(|_| match mixed {
            true => rng.pick(tag::ALL).0,
            false => rng.pick(SMALL),
        })
        .collect();
    if rng.one_in(2) {
        bytes.extend([tag::UNIT, tag::RETURN]);
    }
    bytes
}

fn value(rng: &mut Rng, field: Field, len: usize) -> u32 {
    match field {
        Field::Target => rng.below(len + 1) as u32,
        Field::Slot => rng.word() as u32,
        Field::Few | Field::Many => rng.pick(&[0, 0, 1, 1, 2, 3, 255]),
        _ => rng.pick(&[0, 0, 0, 1, 1, 2, 3]),
    }
}

/// Bytes drawn from the tags, and at times from all there are.
pub fn bytes(rng: &mut Rng) -> Case {
    let mut input = pools(rng);
    let wild = rng.one_in(3);
    let count = rng.between(0, 20);
    input.code = (0..count)
        .map(|_| match rng.below(4) {
            0 => rng.below(8) as u8,
            _ if wild => rng.byte(),
            _ => rng.pick(tag::ALL).0,
        })
        .collect();
    finish(rng, input)
}

/// Tables drawn word by word, with a code that names some entry of each.
pub fn words(rng: &mut Rng) -> Case {
    let mut input = pools(rng);
    input.chains = entries(rng, &[4, 3, 3, 3, 3, 2, 2]);
    input.steps = entries(rng, &[3, 3, 3, 3]);
    input.switches = entries(rng, &[2, 2, 2, 2, 10]);
    input.cases = entries(rng, &[10, 3]);
    input.ranges = entries(rng, &[10]);
    let chain = [tag::CHAIN, rng.below(2) as u8, 0];
    let switch = [tag::SWITCH, rng.below(2) as u8, 0];
    input.code = vec![tag::UNIT; rng.between(1, 3)];
    input.code.extend_from_slice(&chain);
    input.code.extend_from_slice(&switch);
    input.code.extend_from_slice(&[tag::UNIT, tag::RETURN]);
    finish(rng, input)
}

/// Up to three entries whose words are mostly below these bounds.
fn entries(rng: &mut Rng, bounds: &[u32]) -> Vec<u32> {
    let count = rng.between(0, 3);
    let mut words = Vec::new();
    for &bound in bounds.repeat(count).iter() {
        let beyond = [bound, bound + 1, u32::MAX];
        words.push(match rng.below(40) {
            0 => rng.pick(&beyond),
            _ => rng.below(bound as usize) as u32,
        });
    }
    words
}

/// Pools of a few entries each, all of them good.
fn pools(rng: &mut Rng) -> Input {
    let names = rng.between(0, 3);
    let constants = rng.between(0, 3);
    let mut input = Input {
        rights: rng.pick(&[u32::MAX, 0x1_ffff, 0x1_ffff, 0]),
        functions: rng.pick(&[0, 0, 1]),
        constants: (0..constants)
            .map(|_| rng.pick(&[0, 0, 0, rights::FLOAT]))
            .collect(),
        names: (0..names).map(|_| rng.pick(&[0, 0, 1])).collect(),
        tokens: rng.below(3) as u64,
        op_assignments: rng.below(3) as u64,
        ..Input::default()
    };
    tables(rng, &mut input);
    input
}

/// Chains without steps, and switches over one case and one range or none.
fn tables(rng: &mut Rng, input: &mut Input) {
    for _ in 0..rng.below(3) {
        let operands = rng.below(3) as u32;
        let entry = [
            rng.below(4) as u32,
            0,
            operands,
            rng.below(3) as u32,
            0,
            0,
            0,
        ];
        input.chains.extend_from_slice(&entry);
    }
    for _ in 0..rng.below(3) {
        let targets = [
            rng.below(20) as u32,
            rng.below(20) as u32,
            rng.below(20) as u32,
        ];
        let spans = [0, rng.below(2) as u32, 0, rng.below(2) as u32, targets[0]];
        input.switches.extend_from_slice(&spans);
        input.cases.extend_from_slice(&[targets[1], 0]);
        input.ranges.push(targets[2]);
    }
}

/// Puts chunks over the code: one over all of it, or some at starts, or some anywhere.
fn finish(rng: &mut Rng, mut input: Input) -> Case {
    let len = input.code.len();
    let starts = shapes::starts(&input.code);
    let plan = rng.below(4);
    for _ in 0..rng.pick(&[0, 1, 1, 1, 2, 3]) {
        let (entry, end) = match plan {
            0 | 1 => (0, len),
            2 if !starts.is_empty() => (rng.pick(&starts), len),
            _ => (rng.below(len + 2), rng.below(len + 2)),
        };
        input.chunks.push(Chunk {
            entry: entry as u32,
            end: end as u32,
            declared: rng.pick(&[0, 1, 2, 9]),
        });
    }
    let room = Room::enough(rng, &input);
    Case { input, room }
}
