//! A program as it grows: code with known depths, and pools that get an entry when one is
//! named.

use super::rng::Rng;
use super::shapes::{self, Field};
use crate::input::{Chunk, Input};
use crate::oracle;
use crate::tables::{self, chain, rights, step, switch, tag};

pub struct Builder<'r> {
    pub rng: &'r mut Rng,
    pub input: Input,
    /// Operands at the place written next.
    pub depth: usize,
    /// How many statements and expressions may still branch out.
    pub fuel: usize,
    /// The greatest depth of this chunk so far.
    height: usize,
    /// The rights that the code needs on its paths. Dead code adds nothing.
    needed: u32,
}

impl Builder<'_> {
    pub fn new(rng: &mut Rng) -> Builder<'_> {
        Builder {
            rng,
            input: Input::default(),
            depth: 0,
            fuel: 0,
            height: 0,
            needed: 0,
        }
    }

    pub fn here(&self) -> usize {
        self.input.code.len()
    }

    /// Writes an instruction that no path comes to. `number` is its count, its target or
    /// the entry that it names, whichever it has.
    pub fn dead(&mut self, byte: u8, number: usize) -> usize {
        let at = self.here();
        self.input.code.push(byte);
        for &field in shapes::fields(byte) {
            let value = self.operand(field, number) as u32;
            let bytes = value.to_le_bytes();
            self.input.code.extend_from_slice(&bytes[..field.size()]);
        }
        at
    }

    /// Writes an instruction that is reached, with what it takes and what it leaves.
    pub fn live(&mut self, byte: u8, number: usize, pops: usize, pushes: usize) -> usize {
        let at = self.dead(byte, number);
        self.needed |= oracle::required_caps(byte, &self.input.code, at, &self.input);
        self.depth = self.depth - pops + pushes;
        self.height = self.height.max(self.depth);
        at
    }

    /// Lets the jump at `at` go to the place written next.
    pub fn land(&mut self, at: usize) {
        let target = (self.here() as u32).to_le_bytes();
        self.input.code[at + 1..at + 5].copy_from_slice(&target);
    }

    fn operand(&mut self, field: Field, number: usize) -> usize {
        match field {
            Field::Slot => self.slot(),
            Field::Name => self.name(),
            Field::Constant => self.constant(),
            Field::Token => {
                self.input.tokens = self.input.tokens.max(1);
                self.within(self.input.tokens as usize)
            }
            Field::OpAssignment => self.op_assignment(),
            _ => number,
        }
    }

    /// Nobody looks a slot up, so any value has to do.
    fn slot(&mut self) -> usize {
        match self.rng.below(8) {
            0 => usize::from(u16::MAX),
            1 => self.rng.below(1 << 16),
            _ => self.rng.below(4),
        }
    }

    pub fn name(&mut self) -> usize {
        if self.input.names.is_empty() || self.rng.one_in(8) {
            let flag = self.rng.pick(&[0, 0, 0, 1, 2, 128]);
            self.input.names.push(flag);
        }
        self.within(self.input.names.len())
    }

    pub fn constant(&mut self) -> usize {
        if self.input.constants.is_empty() || self.rng.one_in(8) {
            let words = [0, 0, rights::FLOAT, rights::ARRAY | rights::MAP, 1 << 31];
            let word = self.rng.pick(&words);
            self.input.constants.push(word);
            self.needed |= word;
        }
        self.within(self.input.constants.len())
    }

    fn op_assignment(&mut self) -> usize {
        self.input.op_assignments = self.input.op_assignments.max(1);
        self.within(self.input.op_assignments as usize)
    }

    /// An index below `len`, the last one more often than the others.
    fn within(&mut self, len: usize) -> usize {
        if self.rng.one_in(3) {
            len - 1
        } else {
            self.rng.below(len)
        }
    }

    /// A chain that takes `operands`: one that is there already, or a new one.
    pub fn chain(&mut self, operands: usize) -> usize {
        let entries = self.input.chains.chunks_exact(chain::WORDS);
        let count = entries.len();
        let same = |entry: &[u32]| entry[chain::OPERANDS] as usize == operands;
        let known = entries.clone().position(same);
        match known {
            Some(index) if self.rng.one_in(2) => index,
            _ => {
                self.new_chain(operands);
                count
            }
        }
    }

    fn new_chain(&mut self, operands: usize) {
        let root = self.rng.below(4) as u32;
        let tail = self.rng.below(3) as u32;
        let named = root == chain::ROOT_LOCAL || root == chain::ROOT_NAMED;
        let name = self.word_if(named, Builder::name);
        let operator = self.word_if(tail == chain::TAIL_ASSIGN_OP, Builder::op_assignment);
        let (first, steps) = self.steps();
        let entry = [root, name, operands as u32, tail, operator, first, steps];
        self.input.chains.extend_from_slice(&entry);
    }

    /// A word that is looked up, or any word where it is not.
    fn word_if(&mut self, used: bool, index: fn(&mut Self) -> usize) -> u32 {
        if used {
            index(self) as u32
        } else {
            self.rng.pick(&[0, 1, 7, u32::MAX])
        }
    }

    /// A span of steps: new ones at the end, or any that are there.
    fn steps(&mut self) -> (u32, u32) {
        let whole = self.input.steps.len() / step::WORDS;
        if self.rng.one_in(3) {
            let first = self.rng.below(whole + 1);
            return (first as u32, self.rng.below(whole - first + 1) as u32);
        }
        let count = self.rng.below(3);
        for _ in 0..count {
            self.new_step();
        }
        (whole as u32, count as u32)
    }

    fn new_step(&mut self) {
        let kind = self.rng.below(3) as u32;
        let name = self.word_if(kind != step::INDEX, Builder::name);
        let getter = self.word_if(kind == step::PROPERTY, Builder::name);
        let setter = self.word_if(kind == step::PROPERTY, Builder::name);
        let entry = [kind, name, getter, setter];
        self.input.steps.extend_from_slice(&entry);
    }

    /// A new switch whose targets are still to be set.
    pub fn switch(&mut self, cases: usize, ranges: usize) -> usize {
        let index = self.input.switches.len() / switch::WORDS;
        let first_case = self.input.cases.len() / tables::case::WORDS;
        let first_range = self.input.ranges.len();
        for _ in 0..cases {
            let constant = self.constant() as u32;
            self.input.cases.extend_from_slice(&[0, constant]);
        }
        self.input.ranges.resize(first_range + ranges, 0);
        let entry = [first_case, cases, first_range, ranges, 0];
        self.input.switches.extend(entry.map(|word| word as u32));
        index
    }

    /// Sets the target of an arm, counted in the order cases, ranges, default.
    pub fn set_arm(&mut self, index: usize, arm: usize, target: usize) {
        let base = index * switch::WORDS;
        let word = |field: usize| self.input.switches[base + field] as usize;
        let (cases, ranges) = (word(switch::CASES), word(switch::RANGES));
        if arm < cases {
            let case = word(switch::FIRST_CASE) + arm;
            self.input.cases[case * tables::case::WORDS] = target as u32;
        } else if arm < cases + ranges {
            let range = word(switch::FIRST_RANGE) + arm - cases;
            self.input.ranges[range] = target as u32;
        } else {
            self.input.switches[base + switch::DEFAULT] = target as u32;
        }
    }

    /// Opens a chunk at the place written next.
    pub fn open(&mut self, fuel: usize) -> usize {
        self.depth = 0;
        self.height = 0;
        self.fuel = fuel;
        self.here()
    }

    /// Closes the chunk that began at `entry` at `end`, which declares what it measures or
    /// a little more.
    pub fn close(&mut self, entry: usize, end: usize) {
        let slack = if self.rng.one_in(2) {
            0
        } else {
            self.rng.below(4)
        };
        self.input.chunks.push(Chunk {
            entry: entry as u32,
            end: end as u32,
            declared: (self.height + slack) as u16,
        });
    }

    /// The finished input. Its rights are all there are, or just those that it needs.
    pub fn finish(mut self) -> Input {
        if self.rng.one_in(2) {
            self.input.functions = self.rng.pick(&[1, 2, u32::MAX]);
            self.needed |= rights::FUNCTION;
        }
        self.input.rights = match self.rng.below(4) {
            0 => u32::MAX,
            1 => self.needed | 0x1_ffff,
            _ => self.needed,
        };
        self.input
    }
}

/// A tag that a chunk may hold where it is never reached.
pub fn any_tag(rng: &mut Rng) -> u8 {
    loop {
        let (byte, _) = rng.pick(tag::ALL);
        if byte != tag::CUSTOM_SYNTAX {
            return byte;
        }
    }
}
