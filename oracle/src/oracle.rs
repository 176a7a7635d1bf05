//! The oracle: the verifier of source documents 000 and 001 in plain Rust, with document 01's
//! tables put in and everything that document 01 adds.
//!
//! Functions that have a counterpart in those sources bear its name, so that both can be read
//! side by side. Memory of its own is taken freely; of the lent memory only the lengths of
//! records and work matter, and what all four buffers hold on return.

use crate::input::{Chunk, Input, Lent, Verdict, NO_CHUNK};
use crate::tables::{
    self, buffer, case, chain, limit, rights, step, switch, table, tag, Count, Effect, Flow, Needs,
    Pool,
};

/// Wrong readings, each to be switched on by itself: a comparison that is worth something
/// tells each of them from the right one. All off is the oracle. Each stands in the code where
/// it deviates, as `slips.` and its name.
///
/// `height_at_only` gives the right answers: in an accepted chunk an instruction that leaves
/// more than it met has a successor that meets as much, and a refused chunk has no height.
#[derive(Clone, Copy, Debug, Default, PartialEq, Eq)]
pub struct Slips {
    /// A merge compares the operands and forgets iterators and handlers.
    pub operands_only_at_merge: bool,
    /// Rights are asked of every instruction of a chunk, reached or not.
    pub rights_over_unreached: bool,
    /// Pool indices are tested where the walk comes by, not over the whole code.
    pub indices_over_reached_only: bool,
    /// The height counts what an instruction pushes on top of what it is about to pop.
    pub pushes_before_pops: bool,
    /// ITER_NEXT* tests its target before it asks for an iterator.
    pub iter_next_target_first: bool,
    /// A switch's default is left out of T.
    pub default_not_in_t: bool,
    /// A jump is tested for 10 before 9.
    pub range_tested_after_start: bool,
    /// The fall-through is pushed before the target, so that the target is followed first.
    pub fall_through_pushed_first: bool,
    /// ITER_NEXT*'s exit carries the item too.
    pub iter_next_exit_one_deeper: bool,
    /// The height looks at depths at instructions only, not just after them.
    pub height_at_only: bool,
    /// An item dropped at a merge counts as reached again.
    pub reached_counts_dropped: bool,
    /// first + count is taken modulo 2^32.
    pub first_plus_count_wraps_32: bool,
    /// An entry inside an instruction is not refused.
    pub kind_8_missing: bool,
    /// The names in a chain's steps are not tested.
    pub chain_steps_skipped: bool,
    /// A size that is just at its limit is refused.
    pub limit_off_by_one: bool,
}

/// Why a call was refused, one case for each kind above 0.
#[derive(Clone, Copy, Debug, PartialEq, Eq)]
pub enum Refusal {
    TooLarge {
        limit: u64,
    },
    BadTable {
        table: u64,
        entry: u64,
    },
    NoRoom {
        needed: u64,
        buffer: u64,
    },
    MissingCaps {
        at: usize,
        missing: u32,
    },
    Undecodable {
        at: usize,
    },
    BadIndex {
        at: usize,
        index: u32,
        pool: Pool,
    },
    ChunkOutOfRange {
        entry: u32,
        end: u32,
    },
    Misaligned {
        entry: u32,
    },
    JumpOutOfRange {
        at: usize,
        target: u32,
    },
    JumpIntoAnInstruction {
        at: usize,
        target: u32,
    },
    DepthConflict {
        at: usize,
        expected: u64,
        found: u64,
    },
    Underflow {
        at: usize,
        need: u64,
        have: u64,
    },
    FallsOffTheEnd,
    StackExceedsDeclared {
        needed: u64,
        declared: u16,
    },
    IteratorUnderflow {
        at: usize,
    },
    HandlerUnderflow {
        at: usize,
    },
}

impl Refusal {
    /// Kind, at, p and q.
    pub fn numbers(self) -> (u32, u64, u64, u64) {
        use Refusal::*;
        match self {
            TooLarge { limit } => (1, 0, limit, 0),
            BadTable { table, entry } => (2, 0, table, entry),
            NoRoom { needed, buffer } => (3, 0, needed, buffer),
            MissingCaps { at, missing } => (4, at as u64, u64::from(missing), 0),
            Undecodable { at } => (5, at as u64, 0, 0),
            BadIndex { at, index, pool } => (6, at as u64, u64::from(index), pool as u64),
            ChunkOutOfRange { entry, end } => (7, 0, u64::from(entry), u64::from(end)),
            Misaligned { entry } => (8, 0, u64::from(entry), 0),
            JumpOutOfRange { at, target } => (9, at as u64, u64::from(target), 0),
            JumpIntoAnInstruction { at, target } => (10, at as u64, u64::from(target), 0),
            DepthConflict {
                at,
                expected,
                found,
            } => (11, at as u64, expected, found),
            Underflow { at, need, have } => (12, at as u64, need, have),
            FallsOffTheEnd => (13, 0, 0, 0),
            StackExceedsDeclared { needed, declared } => (14, 0, needed, u64::from(declared)),
            IteratorUnderflow { at } => (15, at as u64, 0, 0),
            HandlerUnderflow { at } => (16, at as u64, 0, 0),
        }
    }
}

// ---------------------------------------------------------------------------------------------
// The call
// ---------------------------------------------------------------------------------------------

/// The oracle.
pub fn verify(input: &Input, lent: Lent) -> Verdict {
    verify_with(&Slips::default(), input, lent)
}

/// The oracle with wrong readings put in.
pub fn verify_with(slips: &Slips, input: &Input, lent: Lent) -> Verdict {
    if let Err(refusal) = before_any_store(slips, input, &lent) {
        return refused(NO_CHUNK, refusal);
    }

    let room = Room {
        records: lent.records.len() as u64,
        work: lent.work.len() as u64,
    };
    let outcome = verify_code_and_chunks(slips, input, room, lent.heights);

    lent.marks.fill(0);
    lent.records.fill(0);
    lent.work.fill(0);
    match outcome {
        Ok(accepted) => {
            lent.marks[..accepted.starts.len()].copy_from_slice(&accepted.starts);
            accepted.verdict()
        }
        Err((chunk, refusal)) => refused(chunk, refusal),
    }
}

/// The answer that refuses.
pub(crate) fn refused(chunk: u32, refusal: Refusal) -> Verdict {
    let (kind, at, p, q) = refusal.numbers();
    Verdict::refused(kind, chunk, at, p, q)
}

/// How many words of records and of work are lent.
#[derive(Clone, Copy)]
struct Room {
    records: u64,
    work: u64,
}

struct Accepted {
    starts: Vec<u64>,
    reached: u64,
    taken: u64,
}

impl Accepted {
    fn verdict(&self) -> Verdict {
        let instructions = self.starts.iter().map(|w| u64::from(w.count_ones())).sum();
        Verdict::accepted(instructions, self.reached, self.taken)
    }
}

/// Everything after the first store: a refusal comes with the number of its chunk.
fn verify_code_and_chunks(
    slips: &Slips,
    input: &Input,
    room: Room,
    heights: &mut [u16],
) -> Result<Accepted, (u32, Refusal)> {
    let starts = verify_code(slips, input).map_err(|refusal| (NO_CHUNK, refusal))?;
    let (mut reached, mut taken) = (0, 0);
    for (number, chunk) in input.chunks.iter().enumerate() {
        let walked = verify_chunk(slips, input, chunk, &starts, room)
            .map_err(|refusal| (number as u32, refusal))?;
        heights[number] = walked.height;
        reached += walked.reached;
        taken += walked.taken;
    }
    Ok(Accepted {
        starts,
        reached,
        taken,
    })
}

// ---------------------------------------------------------------------------------------------
// Limits, tables, room for marks and heights
// ---------------------------------------------------------------------------------------------

/// The tests whose refusals leave the lent memory as it was.
pub(crate) fn before_any_store(slips: &Slips, input: &Input, lent: &Lent) -> Result<(), Refusal> {
    check_limits(slips, input)?;
    check_ragged(input)?;
    check_entries(slips, input)?;
    let marks = (input.code.len() / 64 + 1) as u64;
    check_room(marks, lent.marks.len() as u64, buffer::MARKS)?;
    let heights = input.chunks.len() as u64;
    check_room(heights, lent.heights.len() as u64, buffer::HEIGHTS)
}

/// Kind 1: sizes are whole entries, so words left over don't count here.
fn check_limits(slips: &Slips, input: &Input) -> Result<(), Refusal> {
    let sizes = [
        (input.code.len() as u64, limit::CODE),
        (input.constants.len() as u64, limit::CONSTANTS),
        (input.names.len() as u64, limit::NAMES),
        (input.tokens, limit::TOKENS),
        (input.op_assignments, limit::OP_ASSIGNMENTS),
        (entries(&input.steps, step::WORDS), limit::STEPS),
        (entries(&input.cases, case::WORDS), limit::CASES),
        (input.ranges.len() as u64, limit::RANGES),
        (entries(&input.chains, chain::WORDS), limit::CHAINS),
        (entries(&input.switches, switch::WORDS), limit::SWITCHES),
        (input.chunks.len() as u64, limit::CHUNKS),
    ];
    for (number, (size, most)) in (1..).zip(sizes) {
        let slip = slips.limit_off_by_one && size == most;
        if size > most || slip {
            return Err(Refusal::TooLarge { limit: number });
        }
    }
    Ok(())
}

/// Kind 2, first half: all four tables are whole before any entry is looked at.
fn check_ragged(input: &Input) -> Result<(), Refusal> {
    let tables = [
        (&input.chains, chain::WORDS, table::CHAIN),
        (&input.steps, step::WORDS, table::STEP),
        (&input.switches, switch::WORDS, table::SWITCH),
        (&input.cases, case::WORDS, table::CASE),
    ];
    for (words, each, table) in tables {
        if words.len() % each != 0 {
            let entry = entries(words, each);
            return Err(Refusal::BadTable { table, entry });
        }
    }
    Ok(())
}

/// Kind 2, second half: a case has nothing to test, nor has a range.
fn check_entries(slips: &Slips, input: &Input) -> Result<(), Refusal> {
    let steps = entries(&input.steps, step::WORDS);
    let cases = entries(&input.cases, case::WORDS);
    let ranges = input.ranges.len() as u64;

    all_good(&input.chains, chain::WORDS, table::CHAIN, |entry| {
        entry[chain::ROOT] <= chain::ROOT_TEMPORARY
            && entry[chain::TAIL] <= chain::TAIL_ASSIGN_OP
            && within(slips, entry[chain::FIRST_STEP], entry[chain::STEPS], steps)
    })?;
    all_good(&input.steps, step::WORDS, table::STEP, |entry| {
        entry[step::KIND] <= step::METHOD
    })?;
    all_good(&input.switches, switch::WORDS, table::SWITCH, |entry| {
        let (first_case, first_range) = (entry[switch::FIRST_CASE], entry[switch::FIRST_RANGE]);
        within(slips, first_case, entry[switch::CASES], cases)
            && within(slips, first_range, entry[switch::RANGES], ranges)
    })
}

/// The first entry of a table that is not good, if there is one, as kind 2.
fn all_good(
    words: &[u32],
    each: usize,
    table: u64,
    good: impl Fn(&[u32]) -> bool,
) -> Result<(), Refusal> {
    match words.chunks_exact(each).position(|entry| !good(entry)) {
        Some(number) => Err(Refusal::BadTable {
            table,
            entry: number as u64,
        }),
        None => Ok(()),
    }
}

/// Whether first + count, as a number, is not past a table of `length` entries.
fn within(slips: &Slips, first: u32, count: u32, length: u64) -> bool {
    if slips.first_plus_count_wraps_32 {
        return u64::from(first.wrapping_add(count)) <= length;
    }
    u64::from(first) + u64::from(count) <= length
}

/// Kind 3.
fn check_room(needed: u64, lent: u64, buffer: u64) -> Result<(), Refusal> {
    if lent < needed {
        return Err(Refusal::NoRoom { needed, buffer });
    }
    Ok(())
}

// ---------------------------------------------------------------------------------------------
// The flat pools
// ---------------------------------------------------------------------------------------------

/// How many whole entries a table holds.
fn entries(words: &[u32], each: usize) -> u64 {
    (words.len() / each) as u64
}

/// The words of one entry.
fn entry_at(words: &[u32], each: usize, index: u32) -> Option<&[u32]> {
    words.chunks_exact(each).nth(index as usize)
}

/// The entries from `first`, `count` of them. Kind 2 has made sure that they are there; cut
/// off at the table's end so that the public functions below answer for any table.
fn span(words: &[u32], each: usize, first: u32, count: u32) -> std::slice::ChunksExact<'_, u32> {
    let length = entries(words, each);
    let from = u64::from(first).min(length) as usize;
    let past = (u64::from(first) + u64::from(count)).min(length) as usize;
    words[from * each..past * each].chunks_exact(each)
}

/// The chain that an instruction names by the u16 at 1.
fn chain_of<'a>(code: &[u8], at: usize, input: &'a Input) -> Option<&'a [u32]> {
    entry_at(&input.chains, chain::WORDS, index(code, at, 1))
}

/// The switch that an instruction names by the u16 at 1.
fn switch_of<'a>(code: &[u8], at: usize, input: &'a Input) -> Option<&'a [u32]> {
    entry_at(&input.switches, switch::WORDS, index(code, at, 1))
}

fn steps_of<'a>(chain: &[u32], input: &'a Input) -> std::slice::ChunksExact<'a, u32> {
    let (first, count) = (chain[chain::FIRST_STEP], chain[chain::STEPS]);
    span(&input.steps, step::WORDS, first, count)
}

fn cases_of<'a>(switch: &[u32], input: &'a Input) -> std::slice::ChunksExact<'a, u32> {
    let (first, count) = (switch[switch::FIRST_CASE], switch[switch::CASES]);
    span(&input.cases, case::WORDS, first, count)
}

fn ranges_of<'a>(switch: &[u32], input: &'a Input) -> std::slice::ChunksExact<'a, u32> {
    let (first, count) = (switch[switch::FIRST_RANGE], switch[switch::RANGES]);
    span(&input.ranges, 1, first, count)
}

// ---------------------------------------------------------------------------------------------
// 001: widths, numbers, listing
// ---------------------------------------------------------------------------------------------

/// What there is to say about the width at an offset.
#[derive(Clone, Copy, Debug, PartialEq, Eq)]
pub enum WidthAt {
    Width(usize),
    /// The offset is at or past the code's end.
    NoByte,
    /// The byte there is no tag.
    UnknownTag,
    /// The code ends before the instruction does.
    CutOff,
}

pub fn width_at(code: &[u8], at: usize) -> WidthAt {
    let Some(&tag) = code.get(at) else {
        return WidthAt::NoByte;
    };
    match tables::width(tag) {
        0 => WidthAt::UnknownTag,
        size if size > code.len() - at => WidthAt::CutOff,
        size => WidthAt::Width(size),
    }
}

pub fn width(code: &[u8], at: usize) -> Option<usize> {
    match width_at(code, at) {
        WidthAt::Width(size) => Some(size),
        WidthAt::NoByte | WidthAt::UnknownTag | WidthAt::CutOff => None,
    }
}

/// The little-endian number at `at`; none where its bytes pass the end, wherever that is.
pub fn u16_at(code: &[u8], at: usize) -> Option<u16> {
    let bytes = code.get(at..at.checked_add(2)?)?;
    Some(u16::from_le_bytes(bytes.try_into().ok()?))
}

/// The little-endian number at `at`; none where its bytes pass the end, wherever that is.
pub fn u32_at(code: &[u8], at: usize) -> Option<u32> {
    let bytes = code.get(at..at.checked_add(4)?)?;
    Some(u32::from_le_bytes(bytes.try_into().ok()?))
}

/// Where a listing came to its end.
#[derive(Clone, Copy, Debug, PartialEq, Eq)]
pub enum Ending {
    /// At the end of the code.
    End,
    /// At this offset, where a byte has no width.
    NoWidth(usize),
}

/// Offset, tag and width of each instruction in turn, from 0.
pub fn listing(code: &[u8]) -> (Vec<(usize, u8, usize)>, Ending) {
    let mut lines = Vec::new();
    let mut at = 0;
    while at < code.len() {
        let Some(size) = width(code, at) else {
            return (lines, Ending::NoWidth(at));
        };
        lines.push((at, code[at], size));
        at += size;
    }
    (lines, Ending::End)
}

/// The u16 at an offset from a tag, 0 where there is none.
fn index(code: &[u8], at: usize, offset: usize) -> u32 {
    let place = at.checked_add(offset);
    place.and_then(|p| u16_at(code, p)).map_or(0, u32::from)
}

/// The target that an instruction names by the u32 at 1, 0 where there is none.
fn target_at(code: &[u8], at: usize) -> u32 {
    let place = at.checked_add(1);
    place.and_then(|p| u32_at(code, p)).unwrap_or(0)
}

/// The count n of an instruction, 0 where it has none.
fn count_at(tag: u8, code: &[u8], at: usize) -> u64 {
    match tables::count(tag) {
        Some(Count::Byte(offset)) => {
            let place = at.checked_add(offset);
            place.and_then(|p| code.get(p)).map_or(0, |&n| u64::from(n))
        }
        Some(Count::U16(offset)) => u64::from(index(code, at, offset)),
        None => 0,
    }
}

// ---------------------------------------------------------------------------------------------
// 000: constants, code, indices
// ---------------------------------------------------------------------------------------------

/// What 000's `verify` does before its chunks: constants, pass one, FUNCTION. Gives the
/// bits of the instruction starts.
fn verify_code(slips: &Slips, input: &Input) -> Result<Vec<u64>, Refusal> {
    // The word given back is all that the constant needs, not only what lacks.
    for &needed in &input.constants {
        if needed & !input.rights != 0 {
            return Err(Refusal::MissingCaps {
                at: 0,
                missing: needed,
            });
        }
    }

    let code = &input.code;
    let mut starts = vec![0u64; code.len() / 64 + 1];
    let mut at = 0;
    while at < code.len() {
        starts[at / 64] |= 1 << (at % 64);
        let size = width(code, at).ok_or(Refusal::Undecodable { at })?;
        if !slips.indices_over_reached_only {
            check_indices(slips, at, input)?;
        }
        at += size;
    }

    if input.functions != 0 && input.rights & rights::FUNCTION == 0 {
        return Err(Refusal::MissingCaps {
            at: 0,
            missing: rights::FUNCTION,
        });
    }
    Ok(starts)
}

/// How many entries there are behind an index of this sort.
fn pool_size(pool: Pool, input: &Input) -> u64 {
    match pool {
        Pool::Constant => input.constants.len() as u64,
        Pool::Name => input.names.len() as u64,
        Pool::Operator => input.tokens,
        Pool::OpAssignment => input.op_assignments,
        Pool::Chain => entries(&input.chains, chain::WORDS),
        Pool::Switch => entries(&input.switches, switch::WORDS),
        Pool::Site => 0,
    }
}

fn bounded(at: usize, index: u32, pool: Pool, input: &Input) -> Result<(), Refusal> {
    if u64::from(index) >= pool_size(pool, input) {
        return Err(Refusal::BadIndex { at, index, pool });
    }
    Ok(())
}

fn check_indices(slips: &Slips, at: usize, input: &Input) -> Result<(), Refusal> {
    let tag = input.code[at];
    for &(offset, pool) in tables::indices(tag) {
        bounded(at, index(&input.code, at, offset), pool, input)?;
    }
    match tag {
        tag::CHAIN => check_chain_indices(slips, at, input),
        tag::SWITCH => check_switch_indices(at, input),
        _ => Ok(()),
    }
}

/// Root, steps, tail.
fn check_chain_indices(slips: &Slips, at: usize, input: &Input) -> Result<(), Refusal> {
    let Some(chain) = chain_of(&input.code, at, input) else {
        return Ok(());
    };
    if matches!(chain[chain::ROOT], chain::ROOT_LOCAL | chain::ROOT_NAMED) {
        bounded(at, chain[chain::NAME], Pool::Name, input)?;
    }
    let skipped = slips.chain_steps_skipped;
    for step in steps_of(chain, input).filter(|_| !skipped) {
        check_step_indices(at, step, input)?;
    }
    if chain[chain::TAIL] == chain::TAIL_ASSIGN_OP {
        bounded(at, chain[chain::OPERATOR], Pool::OpAssignment, input)?;
    }
    Ok(())
}

fn check_step_indices(at: usize, step: &[u32], input: &Input) -> Result<(), Refusal> {
    let names: &[usize] = match step[step::KIND] {
        step::PROPERTY => &[step::NAME, step::GETTER, step::SETTER],
        step::METHOD => &[step::NAME],
        _ => &[],
    };
    for &word in names {
        bounded(at, step[word], Pool::Name, input)?;
    }
    Ok(())
}

/// The constants of the cases; a range and the default name none.
fn check_switch_indices(at: usize, input: &Input) -> Result<(), Refusal> {
    let Some(switch) = switch_of(&input.code, at, input) else {
        return Ok(());
    };
    for case in cases_of(switch, input) {
        bounded(at, case[case::CONSTANT], Pool::Constant, input)?;
    }
    Ok(())
}

// ---------------------------------------------------------------------------------------------
// 000: what an instruction needs, does and names
// ---------------------------------------------------------------------------------------------

/// The rights that an instruction needs when it is reached.
pub fn required_caps(tag: u8, code: &[u8], at: usize, input: &Input) -> u32 {
    match tables::needs(tag) {
        Needs::Word(word) => word,
        Needs::WordAndName(word) => {
            let name = index(code, at, 1) as usize;
            match input.names.get(name) {
                Some(&flag) if flag != 0 => word | rights::MODULE,
                _ => word,
            }
        }
        Needs::Chain => chain_of(code, at, input).map_or(0, |chain| chain_caps(chain, input)),
    }
}

fn chain_caps(chain: &[u32], input: &Input) -> u32 {
    let root = match chain[chain::ROOT] {
        chain::ROOT_THIS => rights::THIS,
        _ => 0,
    };
    let joined = |caps, step: &[u32]| {
        caps | match step[step::KIND] {
            step::INDEX => rights::INDEXING,
            step::PROPERTY => rights::PROPERTY,
            step::METHOD => rights::METHOD,
            _ => 0,
        }
    };
    steps_of(chain, input).fold(root, joined)
}

/// How many operands an instruction needs, pops and pushes.
pub fn effect(tag: u8, code: &[u8], at: usize, input: &Input) -> (u64, u64, u64) {
    let n = count_at(tag, code, at);
    match tables::effect(tag) {
        Effect::Fixed(needs, pops, pushes) => (needs, pops, pushes),
        Effect::Reorder => (n, 0, 0),
        Effect::Gather { times, plus } => {
            let k = times * n + plus;
            (k, k, 1)
        }
        Effect::Chain => {
            let k = chain_of(code, at, input).map_or(0, |chain| u64::from(chain[chain::OPERANDS]));
            (k, k, 1)
        }
    }
}

/// Every target that an instruction names, repeats and all, in table order, onto `out`.
pub fn jump_targets(tag: u8, code: &[u8], at: usize, input: &Input, out: &mut Vec<u32>) {
    match tables::flow(tag) {
        Flow::Jump | Flow::Branch | Flow::Handler | Flow::IterNext => {
            out.push(target_at(code, at));
        }
        Flow::Switch => {
            if let Some(switch) = switch_of(code, at, input) {
                out.extend(cases_of(switch, input).map(|case| case[case::TARGET]));
                out.extend(ranges_of(switch, input).map(|range| range[0]));
                out.push(switch[switch::DEFAULT]);
            }
        }
        Flow::Stop | Flow::Plain => {}
    }
}

/// An instruction's share of T: how many targets it names.
pub fn target_count(tag: u8, code: &[u8], at: usize, input: &Input) -> u64 {
    match tables::flow(tag) {
        Flow::Jump | Flow::Branch | Flow::Handler | Flow::IterNext => 1,
        Flow::Switch => switch_of(code, at, input).map_or(0, |switch| {
            u64::from(switch[switch::CASES]) + u64::from(switch[switch::RANGES]) + 1
        }),
        Flow::Stop | Flow::Plain => 0,
    }
}

/// An instruction's share of E: how many edges lead out of it.
pub fn edge_count(tag: u8, code: &[u8], at: usize, input: &Input) -> u64 {
    match tables::flow(tag) {
        Flow::Stop => 0,
        Flow::Jump | Flow::Plain => 1,
        Flow::Branch | Flow::Handler | Flow::IterNext => 2,
        Flow::Switch => target_count(tag, code, at, input),
    }
}

/// Is the bit of this offset set among the starts? Past the words none is.
fn starts_at(starts: &[u64], at: usize) -> bool {
    let word = starts.get(at / 64);
    word.is_some_and(|bits| bits >> (at % 64) & 1 == 1)
}

// ---------------------------------------------------------------------------------------------
// 000: one chunk
// ---------------------------------------------------------------------------------------------

/// What the walk of an accepted chunk measured.
struct Walked {
    height: u16,
    reached: u64,
    taken: u64,
}

fn verify_chunk(
    slips: &Slips,
    input: &Input,
    chunk: &Chunk,
    starts: &[u64],
    room: Room,
) -> Result<Walked, Refusal> {
    let &Chunk {
        entry,
        end,
        declared,
    } = chunk;
    let length = input.code.len();
    if end as usize > length || entry > end {
        return Err(Refusal::ChunkOutOfRange { entry, end });
    }
    let aligned = starts_at(starts, entry as usize) || entry as usize == length;
    if !aligned && !slips.kind_8_missing {
        return Err(Refusal::Misaligned { entry });
    }

    let (t, e) = targets_and_edges(slips, input, entry as usize, end as usize)?;
    check_room(4 * (1 + t), room.records, buffer::RECORDS)?;
    check_room(4 * (1 + e), room.work, buffer::WORK)?;

    let mut walk = Walk::new(slips, input, chunk, starts)?;
    walk.run()?;
    if walk.high_water > u64::from(declared) {
        return Err(Refusal::StackExceedsDeclared {
            needed: walk.high_water,
            declared,
        });
    }
    Ok(Walked {
        height: walk.high_water as u16,
        reached: walk.reached,
        taken: walk.taken,
    })
}

/// T and E: over every instruction that starts in the chunk, reached or not. Summed before
/// any target is collected, since the sums may be far larger than what is lent.
fn targets_and_edges(
    slips: &Slips,
    input: &Input,
    entry: usize,
    end: usize,
) -> Result<(u64, u64), Refusal> {
    let code = &input.code;
    let (mut targets, mut edges) = (0, 0);
    let mut at = entry;
    while at < end {
        let size = width(code, at).ok_or(Refusal::Undecodable { at })?;
        let tag = code[at];
        let slip = slips.default_not_in_t && tag == tag::SWITCH;
        targets += target_count(tag, code, at, input).saturating_sub(u64::from(slip));
        edges += edge_count(tag, code, at, input);
        at += size;
    }
    Ok((targets, edges))
}

/// The three depths that all paths to an instruction have to agree on.
#[derive(Clone, Copy, Debug, Default, PartialEq, Eq)]
struct State {
    operands: u64,
    iters: u64,
    handlers: u64,
}

/// A walk over the reachable instructions of one chunk.
struct Walk<'a> {
    slips: &'a Slips,
    input: &'a Input,
    starts: &'a [u64],
    entry: usize,
    end: usize,
    /// The entry and the named targets, ascending, each once.
    targets: Vec<u32>,
    /// The state in which each of them was met first.
    seen: Vec<Option<State>>,
    work_list: Vec<(usize, State)>,
    high_water: u64,
    reached: u64,
    taken: u64,
}

impl<'a> Walk<'a> {
    fn new(
        slips: &'a Slips,
        input: &'a Input,
        chunk: &Chunk,
        starts: &'a [u64],
    ) -> Result<Self, Refusal> {
        let (entry, end) = (chunk.entry as usize, chunk.end as usize);
        let code = &input.code;
        let mut targets = vec![chunk.entry];
        let mut at = entry;
        while at < end {
            let size = width(code, at).ok_or(Refusal::Undecodable { at })?;
            jump_targets(code[at], code, at, input, &mut targets);
            if slips.rights_over_unreached {
                check_caps(at, input)?;
            }
            at += size;
        }
        targets.sort_unstable();
        targets.dedup();
        Ok(Walk {
            slips,
            input,
            starts,
            entry,
            end,
            seen: vec![None; targets.len()],
            targets,
            work_list: vec![(entry, State::default())],
            high_water: 0,
            reached: 0,
            taken: 0,
        })
    }

    fn run(&mut self) -> Result<(), Refusal> {
        while let Some((at, state)) = self.work_list.pop() {
            self.taken += 1;
            if at >= self.end {
                return Err(Refusal::FallsOffTheEnd);
            }
            let first_time = self.merge(at, state)?;
            if first_time || self.slips.reached_counts_dropped {
                self.reached += 1;
            }
            if first_time {
                self.visit(at, state)?;
            }
        }
        Ok(())
    }

    /// Whether an item has to be followed. Only the entry and named targets can be come to
    /// from more than one side, so other places are always new.
    fn merge(&mut self, at: usize, state: State) -> Result<bool, Refusal> {
        let Ok(slot) = self.targets.binary_search(&(at as u32)) else {
            return Ok(true);
        };
        let Some(seen) = self.seen[slot] else {
            self.seen[slot] = Some(state);
            return Ok(true);
        };
        let slip = self.slips.operands_only_at_merge && seen.operands == state.operands;
        if seen == state || slip {
            return Ok(false);
        }
        Err(Refusal::DepthConflict {
            at,
            expected: seen.operands,
            found: state.operands,
        })
    }

    /// Rights, depths, then edges of one instruction.
    fn visit(&mut self, at: usize, state: State) -> Result<(), Refusal> {
        let code = &self.input.code;
        self.high_water = self.high_water.max(state.operands);
        let size = width(code, at).ok_or(Refusal::Undecodable { at })?;
        if self.slips.indices_over_reached_only {
            check_indices(self.slips, at, self.input)?;
        }
        check_caps(at, self.input)?;

        let (needs, pops, pushes) = effect(code[at], code, at, self.input);
        if state.operands < needs {
            return Err(Refusal::Underflow {
                at,
                need: needs,
                have: state.operands,
            });
        }
        let next_state = State {
            operands: state.operands - pops + pushes,
            iters: next_iters(code[at], at, state)?,
            handlers: next_handlers(code[at], at, state)?,
        };
        let just_after = if self.slips.pushes_before_pops {
            state.operands + pushes
        } else {
            next_state.operands
        };
        if !self.slips.height_at_only {
            self.high_water = self.high_water.max(just_after);
        }
        self.edges(at, at + size, state, next_state)
    }

    /// The work items that an instruction leaves behind.
    fn edges(
        &mut self,
        at: usize,
        next: usize,
        state: State,
        next_state: State,
    ) -> Result<(), Refusal> {
        let tag = self.input.code[at];
        let target = target_at(&self.input.code, at);
        match tables::flow(tag) {
            // A frame that is left takes its iterators and handlers with it.
            Flow::Stop => Ok(()),
            Flow::Jump => self.go(at, target, next_state),
            Flow::Branch => self.go_or_fall(at, target, next_state, next, next_state),
            Flow::Handler => {
                let caught = State {
                    operands: state.operands,
                    iters: state.iters,
                    handlers: next_state.handlers,
                };
                self.go_or_fall(at, target, caught, next, next_state)
            }
            Flow::IterNext => {
                let exit = self.iter_exit(at, target, state)?;
                self.go_or_fall(at, target, exit, next, next_state)
            }
            Flow::Switch => {
                let mut arms = Vec::new();
                jump_targets(tag, &self.input.code, at, self.input, &mut arms);
                arms.into_iter()
                    .try_for_each(|arm| self.go(at, arm, next_state))
            }
            Flow::Plain if next >= self.end => Err(Refusal::FallsOffTheEnd),
            Flow::Plain => {
                self.work_list.push((next, next_state));
                Ok(())
            }
        }
    }

    /// The depths on ITER_NEXT*'s exit, where the item is not and the iterator is no more.
    fn iter_exit(&self, at: usize, target: u32, state: State) -> Result<State, Refusal> {
        if self.slips.iter_next_target_first {
            self.check_target(at, target)?;
        }
        if state.iters == 0 {
            return Err(Refusal::IteratorUnderflow { at });
        }
        Ok(State {
            operands: state.operands + u64::from(self.slips.iter_next_exit_one_deeper),
            iters: state.iters - 1,
            handlers: state.handlers,
        })
    }

    /// Both ways on, the fall-through pushed last.
    fn go_or_fall(
        &mut self,
        at: usize,
        target: u32,
        target_state: State,
        next: usize,
        next_state: State,
    ) -> Result<(), Refusal> {
        if self.slips.fall_through_pushed_first {
            self.work_list.push((next, next_state));
            return self.go(at, target, target_state);
        }
        self.go(at, target, target_state)?;
        self.work_list.push((next, next_state));
        Ok(())
    }

    fn go(&mut self, at: usize, target: u32, state: State) -> Result<(), Refusal> {
        self.check_target(at, target)?;
        // An edge to a place that is not held as a merge point can't arise from an aligned
        // entry; 000 refuses it rather than pass it by.
        if self.targets.binary_search(&target).is_err() {
            return Err(Refusal::Undecodable { at });
        }
        self.work_list.push((target as usize, state));
        Ok(())
    }

    /// Kind 9, then 10.
    fn check_target(&self, at: usize, target: u32) -> Result<(), Refusal> {
        let place = target as usize;
        let in_chunk = self.entry <= place && place < self.end;
        let start = starts_at(self.starts, place);
        if self.slips.range_tested_after_start && !start {
            return Err(Refusal::JumpIntoAnInstruction { at, target });
        }
        if !in_chunk {
            return Err(Refusal::JumpOutOfRange { at, target });
        }
        if !start {
            return Err(Refusal::JumpIntoAnInstruction { at, target });
        }
        Ok(())
    }
}

/// Kind 4 of a walk: the word given back is only what lacks.
fn check_caps(at: usize, input: &Input) -> Result<(), Refusal> {
    let missing = required_caps(input.code[at], &input.code, at, input) & !input.rights;
    if missing != 0 {
        return Err(Refusal::MissingCaps { at, missing });
    }
    Ok(())
}

fn next_iters(tag: u8, at: usize, state: State) -> Result<u64, Refusal> {
    match tag {
        tag::ITER_INIT => Ok(state.iters + 1),
        tag::ITER_DROP if state.iters == 0 => Err(Refusal::IteratorUnderflow { at }),
        tag::ITER_DROP => Ok(state.iters - 1),
        _ => Ok(state.iters),
    }
}

fn next_handlers(tag: u8, at: usize, state: State) -> Result<u64, Refusal> {
    match tag {
        tag::PUSH_HANDLER | tag::PUSH_HANDLER_VAR => Ok(state.handlers + 1),
        tag::POP_HANDLER if state.handlers == 0 => Err(Refusal::HandlerUnderflow { at }),
        tag::POP_HANDLER => Ok(state.handlers - 1),
        _ => Ok(state.handlers),
    }
}
