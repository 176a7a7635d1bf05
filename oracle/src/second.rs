//! A second opinion on what a walk decides, from the definition instead of from the walk.
//!
//! A chunk is good when depths can be written beside some of its instruction starts such that
//! the entry has zeros, each edge leads to a start in the chunk that bears just the depths
//! the edge's rule gives, and each written instruction has the depths and rights it needs.
//! What must be written follows from the entry alone, so it is spread over a table with one
//! cell for each byte of the chunk, breadth first, every start compared and not only named
//! targets. The finished table is then held against the definition once more. Heights and
//! counts are read off the table.
//!
//! Nothing of `oracle` is used here; only document 01's tables are shared.

use crate::input::{Chunk, Input, Verdict, NO_CHUNK};
use crate::tables::{
    self, case, chain, limit, rights, step, switch, tag, Count, Effect, Flow, Needs, Pool,
};
use std::collections::{BTreeSet, VecDeque};

/// Operands, iterators, handlers.
pub type Depths = (u64, u64, u64);

/// What is thought of one chunk.
#[derive(Clone, Copy, Debug, PartialEq, Eq)]
pub enum Opinion {
    /// The span is out of range or its entry inside an instruction: nothing to explore.
    NoSpan,
    /// No depths can be written.
    NoDepths,
    /// Depths can be written; the chunk is good if it declares at least this height.
    Depths {
        height: u64,
        reached: u64,
        taken: u64,
    },
}

/// What is thought of each chunk; none where the call is refused before its chunks.
pub fn judge(input: &Input) -> Option<Vec<Opinion>> {
    let starts = sound(input)?;
    let opinions = input
        .chunks
        .iter()
        .map(|c| chunk_opinion(input, &starts, c));
    Some(opinions.collect())
}

/// Whether an answer that was given with enough room can be right, heights and counts
/// included. Of the kinds that refuse a walk it asks only that one is given.
pub fn agrees(input: &Input, verdict: &Verdict, heights: &[u16]) -> Result<(), String> {
    let refused = verdict.kind != 0;
    if refused {
        let counts = (verdict.instructions, verdict.reached, verdict.taken);
        same("counts of a refusal", counts, (0, 0, 0))?;
    }
    match (sound(input), refused && verdict.chunk == NO_CHUNK) {
        (Some(starts), false) => chunks_agree(input, verdict, heights, &starts),
        (None, false) => Err("has to be refused before the chunks".into()),
        // Room for marks and heights is not looked at here.
        (Some(_), true) if verdict.kind != 3 => Err("refused for nothing".into()),
        (_, true) => Ok(()),
    }
}

fn chunks_agree(
    input: &Input,
    verdict: &Verdict,
    heights: &[u16],
    starts: &[bool],
) -> Result<(), String> {
    let passed = match verdict.kind {
        0 => input.chunks.len(),
        _ => verdict.chunk as usize,
    };
    let (mut reached, mut taken) = (0, 0);
    for (number, chunk) in input.chunks.iter().enumerate().take(passed) {
        let opinion = chunk_opinion(input, starts, chunk);
        let counts = passed_chunk(opinion, chunk, heights[number])
            .map_err(|why| format!("chunk {number}: {why}"))?;
        reached += counts.0;
        taken += counts.1;
    }
    match (verdict.kind, input.chunks.get(passed)) {
        (0, _) => {
            let instructions = starts.iter().filter(|&&start| start).count() as u64;
            let counts = (verdict.instructions, verdict.reached, verdict.taken);
            same("counts", counts, (instructions, reached, taken))
        }
        (_, None) => Err(format!("there is no chunk {passed}")),
        // Nor is room for records and work.
        (3, _) => Ok(()),
        (_, Some(chunk)) => refused_chunk(chunk_opinion(input, starts, chunk), chunk, verdict),
    }
}

/// A chunk that was passed; gives its reached and taken counts.
fn passed_chunk(opinion: Opinion, chunk: &Chunk, found: u16) -> Result<(u64, u64), String> {
    match opinion {
        Opinion::Depths {
            height,
            reached,
            taken,
        } if height <= u64::from(chunk.declared) => {
            same("height", u64::from(found), height)?;
            Ok((reached, taken))
        }
        _ => Err(format!("passed, but {opinion:?}")),
    }
}

/// A chunk that was refused.
fn refused_chunk(opinion: Opinion, chunk: &Chunk, verdict: &Verdict) -> Result<(), String> {
    let declared = u64::from(chunk.declared);
    let fits = match opinion {
        Opinion::NoSpan => matches!(verdict.kind, 7 | 8),
        Opinion::NoDepths => matches!(verdict.kind, 4 | 9..=13 | 15 | 16),
        Opinion::Depths { height, .. } => {
            height > declared && (verdict.kind, verdict.p, verdict.q) == (14, height, declared)
        }
    };
    match fits {
        true => Ok(()),
        false => Err(format!("{verdict:?} for a chunk with {opinion:?}")),
    }
}

fn same<T: PartialEq + std::fmt::Debug>(what: &str, found: T, right: T) -> Result<(), String> {
    match found == right {
        true => Ok(()),
        false => Err(format!("{what} {found:?}, but {right:?} is right")),
    }
}

// ---------------------------------------------------------------------------------------------
// Before the chunks
// ---------------------------------------------------------------------------------------------

/// Whether a call that has room comes to its chunks: then, for each code byte, whether an
/// instruction starts there.
fn sound(input: &Input) -> Option<Vec<bool>> {
    let constants = input.constants.iter().fold(0, |all, word| all | word);
    let functions = match input.functions {
        0 => 0,
        _ => rights::FUNCTION,
    };
    let allowed = (constants | functions) & !input.rights == 0;
    if !(sizes_fit(input) && tables_whole(input) && allowed) {
        return None;
    }
    let starts = starts(&input.code)?;
    indices_exist(input, &starts).then_some(starts)
}

fn sizes_fit(input: &Input) -> bool {
    let whole = |words: &[u32], each| (words.len() / each) as u64;
    input.code.len() as u64 <= limit::CODE
        && input.constants.len() as u64 <= limit::CONSTANTS
        && input.names.len() as u64 <= limit::NAMES
        && input.tokens <= limit::TOKENS
        && input.op_assignments <= limit::OP_ASSIGNMENTS
        && whole(&input.steps, step::WORDS) <= limit::STEPS
        && whole(&input.cases, case::WORDS) <= limit::CASES
        && input.ranges.len() as u64 <= limit::RANGES
        && whole(&input.chains, chain::WORDS) <= limit::CHAINS
        && whole(&input.switches, switch::WORDS) <= limit::SWITCHES
        && input.chunks.len() as u64 <= limit::CHUNKS
}

fn tables_whole(input: &Input) -> bool {
    let whole = |words: &[u32], each: usize| words.chunks_exact(each).remainder().is_empty();
    let inside = |first: u32, count: u32, table: &[u32], each: usize| {
        u128::from(first) + u128::from(count) <= (table.len() / each) as u128
    };
    let mut chains = input.chains.chunks(chain::WORDS);
    let mut steps = input.steps.chunks(step::WORDS);
    let mut switches = input.switches.chunks(switch::WORDS);
    whole(&input.chains, chain::WORDS)
        && whole(&input.steps, step::WORDS)
        && whole(&input.switches, switch::WORDS)
        && whole(&input.cases, case::WORDS)
        && chains.all(|c| c[chain::ROOT] < 4 && c[chain::TAIL] < 3)
        && steps.all(|s| s[step::KIND] < 3)
        && input.chains.chunks(chain::WORDS).all(|c| {
            let (first, count) = (c[chain::FIRST_STEP], c[chain::STEPS]);
            inside(first, count, &input.steps, step::WORDS)
        })
        && switches.all(|s| {
            let (cases, ranges) = (s[switch::CASES], s[switch::RANGES]);
            inside(s[switch::FIRST_CASE], cases, &input.cases, case::WORDS)
                && inside(s[switch::FIRST_RANGE], ranges, &input.ranges, 1)
        })
}

/// Which bytes are the first of an instruction; none if some byte has no width.
fn starts(code: &[u8]) -> Option<Vec<bool>> {
    let mut starts = vec![false; code.len()];
    let mut rest = code;
    while let Some(&tag) = rest.first() {
        let width = tables::width(tag);
        if width == 0 || width > rest.len() {
            return None;
        }
        starts[code.len() - rest.len()] = true;
        rest = &rest[width..];
    }
    Some(starts)
}

/// Whether everything that the code names exists. An entry that is named often is looked
/// into once.
fn indices_exist(input: &Input, starts: &[bool]) -> bool {
    let mut named = BTreeSet::new();
    for at in (0..starts.len()).filter(|&at| starts[at]) {
        for &(offset, pool) in tables::indices(input.code[at]) {
            named.insert((pool as u64, number(&input.code, at + offset, 2)));
        }
    }
    let mut inside = BTreeSet::new();
    for &(pool, index) in &named {
        if index >= size(input, pool) {
            return false;
        }
        inside.extend(match pool {
            CHAIN => named_by_chain(input, index as usize),
            SWITCH => named_by_switch(input, index as usize),
            _ => Vec::new(),
        });
    }
    inside
        .iter()
        .all(|&(pool, index)| index < size(input, pool))
}

const CHAIN: u64 = Pool::Chain as u64;
const SWITCH: u64 = Pool::Switch as u64;

/// How many entries each pool has, sites being none.
fn size(input: &Input, pool: u64) -> u64 {
    let sizes = [
        0,
        input.constants.len() as u64,
        input.names.len() as u64,
        input.tokens,
        input.op_assignments,
        (input.chains.len() / chain::WORDS) as u64,
        (input.switches.len() / switch::WORDS) as u64,
        0,
    ];
    sizes[pool as usize]
}

fn named_by_chain(input: &Input, number: usize) -> Vec<(u64, u64)> {
    let name = |word: u32| (Pool::Name as u64, u64::from(word));
    let entry = &input.chains[number * chain::WORDS..][..chain::WORDS];
    let mut named = Vec::new();
    if entry[chain::ROOT] == chain::ROOT_LOCAL || entry[chain::ROOT] == chain::ROOT_NAMED {
        named.push(name(entry[chain::NAME]));
    }
    for step in steps(input, number) {
        if step[step::KIND] != step::INDEX {
            named.push(name(step[step::NAME]));
        }
        if step[step::KIND] == step::PROPERTY {
            named.push(name(step[step::GETTER]));
            named.push(name(step[step::SETTER]));
        }
    }
    if entry[chain::TAIL] == chain::TAIL_ASSIGN_OP {
        let operator = u64::from(entry[chain::OPERATOR]);
        named.push((Pool::OpAssignment as u64, operator));
    }
    named
}

fn named_by_switch(input: &Input, number: usize) -> Vec<(u64, u64)> {
    let constant = |case: &[u32]| (Pool::Constant as u64, u64::from(case[case::CONSTANT]));
    cases(input, number)
        .chunks(case::WORDS)
        .map(constant)
        .collect()
}

fn steps(input: &Input, number: usize) -> std::slice::Chunks<'_, u32> {
    let entry = &input.chains[number * chain::WORDS..];
    let first = entry[chain::FIRST_STEP] as usize * step::WORDS;
    let words = entry[chain::STEPS] as usize * step::WORDS;
    input.steps[first..first + words].chunks(step::WORDS)
}

/// The words of a switch's cases.
fn cases(input: &Input, number: usize) -> &[u32] {
    let entry = &input.switches[number * switch::WORDS..];
    let first = entry[switch::FIRST_CASE] as usize * case::WORDS;
    let words = entry[switch::CASES] as usize * case::WORDS;
    &input.cases[first..first + words]
}

// ---------------------------------------------------------------------------------------------
// One chunk
// ---------------------------------------------------------------------------------------------

/// The depths beside each byte of a chunk, none beside what is not reached.
type Written = Vec<Option<Depths>>;

fn chunk_opinion(input: &Input, starts: &[bool], chunk: &Chunk) -> Opinion {
    let (entry, end) = (chunk.entry as usize, chunk.end as usize);
    let length = input.code.len();
    let spanned = entry <= end && end <= length;
    if !spanned || (entry < length && !starts[entry]) {
        return Opinion::NoSpan;
    }
    let Some(written) = explore(input, starts, entry, end) else {
        return Opinion::NoDepths;
    };
    assert!(
        holds(input, starts, entry, &written),
        "what was written does not hold"
    );
    measure(input, entry, &written)
}

/// Writes what has to be written; none where that is impossible.
fn explore(input: &Input, starts: &[bool], entry: usize, end: usize) -> Option<Written> {
    let mut written = vec![None; end - entry];
    *written.first_mut()? = Some((0, 0, 0));
    let mut fresh = VecDeque::from([entry]);
    while let Some(at) = fresh.pop_front() {
        for (place, depths) in edges(input, at, written[at - entry]?)? {
            let cell = cell(starts, entry, end, place)?;
            match written[cell] {
                None => {
                    written[cell] = Some(depths);
                    fresh.push_back(entry + cell);
                }
                Some(other) if other != depths => return None,
                Some(_) => {}
            }
        }
    }
    Some(written)
}

/// The number of a place's cell, if it is a start in the chunk.
fn cell(starts: &[bool], entry: usize, end: usize, place: u64) -> Option<usize> {
    let inside = (entry as u64..end as u64).contains(&place);
    (inside && starts[place as usize]).then(|| place as usize - entry)
}

/// The definition, read off a finished table.
fn holds(input: &Input, starts: &[bool], entry: usize, written: &Written) -> bool {
    let end = entry + written.len();
    let bears = |(place, depths): (u64, Depths)| {
        cell(starts, entry, end, place).is_some_and(|cell| written[cell] == Some(depths))
    };
    let instruction_holds = |(cell, depths): (usize, &Option<Depths>)| match *depths {
        None => true,
        Some(depths) => {
            let edges = edges(input, entry + cell, depths);
            starts[entry + cell] && edges.is_some_and(|edges| edges.into_iter().all(bears))
        }
    };
    written[0] == Some((0, 0, 0)) && written.iter().enumerate().all(instruction_holds)
}

/// Height and counts, read off a finished table.
fn measure(input: &Input, entry: usize, written: &Written) -> Opinion {
    let (mut height, mut reached, mut taken) = (0, 0, 1);
    for (cell, depths) in written.iter().enumerate() {
        let Some(depths) = *depths else { continue };
        let (_, pops, pushes) = effect(input, entry + cell);
        height = height.max(depths.0).max(depths.0 - pops + pushes);
        reached += 1;
        taken += edges(input, entry + cell, depths).map_or(0, |edges| edges.len() as u64);
    }
    Opinion::Depths {
        height,
        reached,
        taken,
    }
}

// ---------------------------------------------------------------------------------------------
// One instruction
// ---------------------------------------------------------------------------------------------

/// The little-endian number of `bytes` bytes at `at`.
fn number(code: &[u8], at: usize, bytes: usize) -> u64 {
    let bytes = code[at..at + bytes].iter().rev();
    bytes.fold(0, |high, &low| high << 8 | u64::from(low))
}

/// The number of the pool entry that an instruction names by the u16 at 1.
fn named(input: &Input, at: usize) -> usize {
    number(&input.code, at + 1, 2) as usize
}

/// Needs, pops, pushes.
fn effect(input: &Input, at: usize) -> (u64, u64, u64) {
    let tag = input.code[at];
    let n = match tables::count(tag) {
        Some(Count::Byte(offset)) => number(&input.code, at + offset, 1),
        Some(Count::U16(offset)) => number(&input.code, at + offset, 2),
        None => 0,
    };
    let replaced_by_one = |k| (k, k, 1);
    match tables::effect(tag) {
        Effect::Fixed(needs, pops, pushes) => (needs, pops, pushes),
        Effect::Reorder => (n, 0, 0),
        Effect::Gather { times, plus } => replaced_by_one(n * times + plus),
        Effect::Chain => {
            let word = named(input, at) * chain::WORDS + chain::OPERANDS;
            replaced_by_one(u64::from(input.chains[word]))
        }
    }
}

/// The rights that an instruction needs.
fn rights_needed(input: &Input, at: usize) -> u32 {
    match tables::needs(input.code[at]) {
        Needs::Word(word) => word,
        Needs::WordAndName(word) if input.names[named(input, at)] == 0 => word,
        Needs::WordAndName(word) => word | rights::MODULE,
        Needs::Chain => {
            let number = named(input, at);
            let kinds = [rights::INDEXING, rights::PROPERTY, rights::METHOD];
            let steps = steps(input, number).map(|step| kinds[step[step::KIND] as usize]);
            let this = input.chains[number * chain::WORDS + chain::ROOT] == chain::ROOT_THIS;
            steps.fold(u32::from(this) * rights::THIS, |all, one| all | one)
        }
    }
}

/// Where control goes from an instruction that is met with these depths, and with which; none
/// if it lacks a right, an operand, an iterator or a handler.
fn edges(input: &Input, at: usize, depths: Depths) -> Option<Vec<(u64, Depths)>> {
    let code = &input.code;
    let (operands, iterators, handlers) = depths;
    let (needs, pops, pushes) = effect(input, at);
    if rights_needed(input, at) & !input.rights != 0 || operands < needs {
        return None;
    }

    let left = operands - pops + pushes;
    let next = (at + tables::width(code[at])) as u64;
    let target = || number(code, at + 1, 4);
    Some(match tables::flow(code[at]) {
        Flow::Stop => vec![],
        Flow::Jump => vec![(target(), (left, iterators, handlers))],
        Flow::Branch => {
            let either = (left, iterators, handlers);
            vec![(target(), either), (next, either)]
        }
        Flow::Handler => {
            let armed = (operands, iterators, handlers + 1);
            vec![(target(), armed), (next, armed)]
        }
        Flow::IterNext => {
            let exit = (operands, iterators.checked_sub(1)?, handlers);
            vec![
                (target(), exit),
                (next, (operands + 1, iterators, handlers)),
            ]
        }
        Flow::Switch => {
            let arms = arms(input, named(input, at));
            arms.map(|arm| (arm, (left, iterators, handlers))).collect()
        }
        Flow::Plain => vec![(next, plain(code[at], left, iterators, handlers)?)],
    })
}

/// The depths after an instruction with one way on.
fn plain(tag: u8, operands: u64, iterators: u64, handlers: u64) -> Option<Depths> {
    Some(match tag {
        tag::ITER_INIT => (operands, iterators + 1, handlers),
        tag::ITER_DROP => (operands, iterators.checked_sub(1)?, handlers),
        tag::POP_HANDLER => (operands, iterators, handlers.checked_sub(1)?),
        _ => (operands, iterators, handlers),
    })
}

/// The targets of a switch.
fn arms(input: &Input, number: usize) -> impl Iterator<Item = u64> + '_ {
    let entry = &input.switches[number * switch::WORDS..][..switch::WORDS];
    let first = entry[switch::FIRST_RANGE] as usize;
    let ranges = &input.ranges[first..first + entry[switch::RANGES] as usize];
    let cases = cases(input, number).iter().step_by(case::WORDS);
    let default = std::iter::once(&entry[switch::DEFAULT]);
    let arms = cases.chain(ranges).chain(default);
    arms.map(|&target| u64::from(target))
}
