//! Hands the flat tables to the original in its own types, and its errors back as numbers.

use super::text::verify::{Pools, VerifyError};
use super::text::{self, Caps, Cases, Chain, Chunk, Dynamic, Function, Root, Span, Step};
use super::text::{Strings, Switch, SwitchRange, Tail};
use super::Refusal;
use crate::input::{Input, NO_CHUNK};
use std::rc::Rc;

/// The pools in the order of document 01's numbers for them, as the original's errors name
/// them.
const POOLS: [&str; 7] = [
    "constant",
    "name",
    "operator",
    "op-assignment",
    "chain",
    "switch",
    "custom syntax site",
];

/// An input in the original's types, which can be asked about without translating it again.
pub struct Translated<'a> {
    tables: Tables<'a>,
    chunks: Vec<Chunk>,
}

impl<'a> Translated<'a> {
    /// Nothing where a table has no form in the original's types: it is ragged, a word of it has
    /// no meaning, or a span runs past its table. There document 01 gives kind 2.
    pub fn of(input: &'a Input) -> Option<Self> {
        Some(Self {
            tables: Tables::of(input)?,
            chunks: input.chunks.iter().map(chunk).collect(),
        })
    }

    /// The measured heights, or why the original refuses.
    pub fn verify(&self) -> Result<Vec<u16>, Refusal> {
        self.verify_first(self.chunks.len())
    }

    /// The same with so many chunks alone, from the first on.
    pub fn verify_first(&self, count: usize) -> Result<Vec<u16>, Refusal> {
        let chunks = &self.chunks[..count];
        let answer = self.tables.ask(chunks);
        answer.map_err(|error| refusal(&error, refused_chunk(&self.tables, chunks)))
    }
}

/// The original's listing: offset, tag and width of each instruction in turn, up to the
/// first byte that starts none.
pub fn disassemble(code: &[u8]) -> Vec<(usize, u8, usize)> {
    text::disassemble(code)
        .map(|(at, _)| (at, code[at], width(code, at).expect("it was decoded")))
        .collect()
}

/// The original's width of the instruction at an offset.
pub fn width(code: &[u8], at: usize) -> Option<usize> {
    text::code::width(code, at)
}

/// The original's little-endian number at an offset.
///
/// # Panics
///
/// In a debug build, where the number would end past the largest `usize`.
pub fn u16_at(code: &[u8], at: usize) -> Option<u16> {
    text::code::u16_at(code, at)
}

/// As `u16_at`, of four bytes.
pub fn u32_at(code: &[u8], at: usize) -> Option<u32> {
    text::code::u32_at(code, at)
}

/// What the build step changed, as a unified list of lines.
pub fn changes() -> &'static str {
    include_str!(concat!(env!("OUT_DIR"), "/original/changes.diff"))
}

/// An input's tables in the original's types.
struct Tables<'a> {
    input: &'a Input,
    constants: Vec<Dynamic>,
    chains: Vec<Chain>,
    switches: Vec<Switch>,
}

impl<'a> Tables<'a> {
    fn of(input: &'a Input) -> Option<Self> {
        Some(Self {
            input,
            constants: input.constants.iter().copied().map(Dynamic).collect(),
            chains: chains(input)?,
            switches: switches(input)?,
        })
    }

    fn ask(&self, chunks: &[Chunk]) -> Result<Vec<u16>, VerifyError> {
        let pools = Pools {
            consts: self.constants.len(),
            names: &Strings(&self.input.names),
            tokens: counted(self.input.tokens),
            assign_ops: counted(self.input.op_assignments),
            chains: &self.chains,
            switches: &self.switches,
            custom_syntax: &[],
        };
        // The original asks only whether there is a function.
        let functions = &[Function][..usize::from(self.input.functions != 0)];
        let rights = Caps(self.input.rights);
        let code = &self.input.code;
        text::verify::verify(rights, &self.constants, code, functions, chunks, &pools)
    }
}

/// The original's errors name no chunk. It takes the chunks in order and stops at the first
/// that it refuses, so that is the last of the shortest row of chunks that it refuses.
fn refused_chunk(tables: &Tables, chunks: &[Chunk]) -> u32 {
    let (mut low, mut high) = (0, chunks.len());
    while low < high {
        let middle = (low + high) / 2;
        match tables.ask(&chunks[..middle]) {
            Ok(_) => low = middle + 1,
            Err(_) => high = middle,
        }
    }
    match low.checked_sub(1) {
        Some(chunk) => chunk as u32,
        None => NO_CHUNK,
    }
}

/// A bare count as the original's `usize`. A larger one is over document 01's limit anyway.
fn counted(count: u64) -> usize {
    usize::try_from(count).unwrap_or(usize::MAX)
}

fn chunk(chunk: &crate::input::Chunk) -> Chunk {
    Chunk::new(chunk.entry, chunk.end, chunk.declared)
}

fn chains(input: &Input) -> Option<Vec<Chain>> {
    let steps: Rc<[Step]> = records(&input.steps)?.map(step).collect::<Option<_>>()?;
    let chain = |[root, name, operands, tail, operator, first, count]: [u32; 7]| {
        Some(Chain {
            root: match root {
                0 => Root::Local { name },
                1 => Root::Named { name },
                2 => Root::This,
                3 => Root::Temporary,
                _ => return None,
            },
            steps: span(&steps, first, count)?,
            tail: match tail {
                0 => Tail::Read,
                1 => Tail::Assign { op: None },
                2 => Tail::Assign { op: Some(operator) },
                _ => return None,
            },
            operands,
        })
    };
    records(&input.chains)?.map(chain).collect()
}

fn step([kind, name, getter, setter]: [u32; 4]) -> Option<Step> {
    match kind {
        0 => Some(Step::Index),
        1 => Some(Step::Property {
            name,
            getter,
            setter,
        }),
        2 => Some(Step::Method { name }),
        _ => None,
    }
}

fn switches(input: &Input) -> Option<Vec<Switch>> {
    let cases: Rc<[(u32, u32)]> = records(&input.cases)?
        .map(|[target, constant]| (target, constant))
        .collect();
    let ranges: Rc<[SwitchRange]> = records(&input.ranges)?
        .map(|[target]| SwitchRange { target })
        .collect();
    let switch = |[case, case_count, range, range_count, default]: [u32; 5]| {
        Some(Switch {
            cases: Some(Cases(span(&cases, case, case_count)?)),
            ranges: span(&ranges, range, range_count)?,
            default,
        })
    };
    records(&input.switches)?.map(switch).collect()
}

/// The entries of a flat table, unless it is ragged.
fn records<const N: usize>(words: &[u32]) -> Option<impl Iterator<Item = [u32; N]> + '_> {
    let entries = words.chunks_exact(N);
    let whole = entries.remainder().is_empty();
    whole.then(|| entries.map(|words| words.try_into().expect("it has this length")))
}

fn span<T>(table: &Rc<[T]>, first: u32, count: u32) -> Option<Span<T>> {
    let (first, count) = (first as usize, count as usize);
    (first + count <= table.len()).then(|| Span {
        table: Rc::clone(table),
        first,
        count,
    })
}

/// The original's error as document 01's kind, offset and two numbers.
fn refusal(error: &VerifyError, chunk: u32) -> Refusal {
    let (kind, at, p, q) = numbers(error);
    Refusal {
        kind,
        chunk,
        at: at as u64,
        p,
        q,
    }
}

fn numbers(error: &VerifyError) -> (u32, usize, u64, u64) {
    use VerifyError::*;
    match *error {
        MissingCaps {
            at, ref missing, ..
        } => (4, at, word(missing), 0),
        Undecodable { at } => (5, at, 0, 0),
        BadIndex { at, what, index } => (6, at, u64::from(index), pool(what)),
        ChunkOutOfRange { entry, end, .. } => (7, 0, u64::from(entry), u64::from(end)),
        JumpOutOfRange { at, target } => (9, at, u64::from(target), 0),
        JumpIntoAnInstruction { at, target } => (10, at, u64::from(target), 0),
        DepthConflict {
            at,
            expected,
            found,
        } => (11, at, expected as u64, found as u64),
        Underflow { at, need, have } => (12, at, need as u64, have as u64),
        FallsOffTheEnd => (13, 0, 0, 0),
        StackExceedsDeclared { needed, declared } => (14, 0, needed as u64, u64::from(declared)),
        IteratorUnderflow { at } => (15, at, 0, 0),
        HandlerUnderflow { at } => (16, at, 0, 0),
        TrailingBytes { .. } => unreachable!("a width never passes the end of the code"),
    }
}

/// A rights word as the stub for `Caps` prints it.
fn word(printed: &str) -> u64 {
    printed.parse().expect("the stub prints a number")
}

fn pool(what: &str) -> u64 {
    let place = POOLS.iter().position(|name| *name == what);
    place.expect("a pool of document 01") as u64 + 1
}
