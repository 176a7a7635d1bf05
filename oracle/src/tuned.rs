//! The verifier once more, tuned: the mark to measure the proved library against.
//!
//! It gives the oracle's answers and leaves the lent memory as the oracle does, in safe Rust
//! with vectors of its own. What makes it fast: one entry for all that is looked up by a tag; a
//! fall-through goes on at once, so only jumps are stored; the targets of a chunk stand in
//! order, so that falling through compares with one of them and only a jump searches; and each
//! instruction is decoded once by the first pass, once by the listing, and once when reached.

use crate::input::{Chunk, Input, Lent, Verdict, NO_CHUNK};
use crate::oracle::{self, Refusal};
use crate::tables::{
    self, buffer, case, chain, rights, step, switch, tag, Count, Effect, Flow, Needs, Pool,
};
use std::sync::LazyLock;

// ---------------------------------------------------------------------------------------------
// What is looked up by a tag
// ---------------------------------------------------------------------------------------------

/// Everything that the tables say about a tag, in sixteen bytes.
#[derive(Clone, Copy)]
struct Shape {
    /// 0 for a byte that is no tag.
    width: u8,
    /// Whether needs, pops and pushes are fixed and the next instruction follows, with nothing
    /// else to test or to do.
    simple: bool,
    /// What is needed besides the counted operands.
    needs: u8,
    pops: u8,
    pushes: u8,
    counted: Counted,
    /// How often the count is needed.
    times: u8,
    /// Where the count stands, seen from the tag.
    offset: u8,
    flow: Flow,
    asks: Asks,
    /// The rights needed in any case. No instruction has a right from bit 16 on.
    word: u16,
    /// Offset and pool of each index that the instruction holds.
    indices: [(u8, Option<Pool>); 2],
}

/// What is counted by operands or tables. Where something is pushed, all that is needed gives
/// way to it; ROTATE pushes nothing and only needs.
#[derive(Clone, Copy, PartialEq, Eq)]
enum Counted {
    Nothing,
    Byte,
    U16,
    /// The operands word of the chain that the u16 at 1 names.
    Chain,
}

/// Which rights are needed besides the fixed ones.
#[derive(Clone, Copy, PartialEq, Eq)]
enum Asks {
    Nothing,
    /// MODULE if the name that the u16 at 1 names is qualified.
    Name,
    /// What the chain that the u16 at 1 names asks for.
    Chain,
}

static SHAPES: LazyLock<[Shape; 256]> =
    LazyLock::new(|| std::array::from_fn(|tag| shape(tag as u8)));

fn shape(tag: u8) -> Shape {
    let (needs, pops, pushes, times) = match tables::effect(tag) {
        Effect::Fixed(needs, pops, pushes) => (needs, pops, pushes, 0),
        Effect::Reorder => (0, 0, 0, 1),
        Effect::Gather { times, plus } => (plus, 0, 1, times),
        Effect::Chain => (0, 0, 1, 1),
    };
    let (counted, offset) = match tables::count(tag) {
        Some(Count::Byte(offset)) => (Counted::Byte, offset),
        Some(Count::U16(offset)) => (Counted::U16, offset),
        None if tag == tag::CHAIN => (Counted::Chain, 0),
        None => (Counted::Nothing, 0),
    };
    let (asks, word) = match tables::needs(tag) {
        Needs::Word(word) => (Asks::Nothing, word),
        Needs::WordAndName(word) => (Asks::Name, word),
        Needs::Chain => (Asks::Chain, 0),
    };
    let mut indices = [(0, None); 2];
    for (slot, &(offset, pool)) in indices.iter_mut().zip(tables::indices(tag)) {
        *slot = (offset as u8, Some(pool));
    }
    let flow = tables::flow(tag);
    let free = asks == Asks::Nothing && word == 0;
    let alike = !matches!(tag, tag::ITER_INIT | tag::ITER_DROP | tag::POP_HANDLER);
    Shape {
        width: tables::width(tag) as u8,
        simple: counted == Counted::Nothing && flow == Flow::Plain && free && alike,
        needs: needs as u8,
        pops: pops as u8,
        pushes: pushes as u8,
        counted,
        times: times as u8,
        offset: offset as u8,
        flow,
        asks,
        word: word as u16,
        indices,
    }
}

// ---------------------------------------------------------------------------------------------
// The call
// ---------------------------------------------------------------------------------------------

/// The tuned verifier. What comes before any store has nothing to tune and is the oracle's.
pub fn verify(input: &Input, lent: Lent) -> Verdict {
    if let Err(refusal) = oracle::before_any_store(&oracle::Slips::default(), input, &lent) {
        return oracle::refused(NO_CHUNK, refusal);
    }
    let Lent {
        marks,
        heights,
        records,
        work,
    } = lent;
    marks.fill(0);
    records.fill(0);
    work.fill(0);
    let room = Room {
        records: records.len() as u64,
        work: work.len() as u64,
    };
    judge(input, marks, heights, room).unwrap_or_else(|(chunk, refusal)| {
        marks.fill(0);
        oracle::refused(chunk, refusal)
    })
}

/// How many words of records and of work are lent.
#[derive(Clone, Copy)]
struct Room {
    records: u64,
    work: u64,
}

/// Everything after the first store: a refusal comes with the number of its chunk.
fn judge(
    input: &Input,
    marks: &mut [u64],
    heights: &mut [u16],
    room: Room,
) -> Result<Verdict, (u32, Refusal)> {
    let before = |refusal| (NO_CHUNK, refusal);
    check_constants(input).map_err(before)?;
    let instructions = first_pass(input, marks).map_err(before)?;
    check_functions(input).map_err(before)?;
    let mut walk = Walk::new(input, marks);
    for (number, (chunk, height)) in input.chunks.iter().zip(heights).enumerate() {
        let measured = walk.chunk(chunk, room);
        *height = measured.map_err(|refusal| (number as u32, refusal))?;
    }
    Ok(Verdict::accepted(instructions, walk.reached, walk.taken))
}

fn check_constants(input: &Input) -> Result<(), Refusal> {
    let lacks = |&&word: &&u32| word & !input.rights != 0;
    match input.constants.iter().find(lacks) {
        Some(&missing) => Err(Refusal::MissingCaps { at: 0, missing }),
        None => Ok(()),
    }
}

fn check_functions(input: &Input) -> Result<(), Refusal> {
    if input.functions != 0 && input.rights & rights::FUNCTION == 0 {
        let missing = rights::FUNCTION;
        return Err(Refusal::MissingCaps { at: 0, missing });
    }
    Ok(())
}

// ---------------------------------------------------------------------------------------------
// The first pass
// ---------------------------------------------------------------------------------------------

/// How many entries each pool has, at its number. No count is above its limit, so 32 bits hold
/// it; of sites there are none.
struct Sizes([u32; 8]);

impl Sizes {
    fn of(input: &Input) -> Sizes {
        let mut sizes = [0; 8];
        let mut set = |pool: Pool, size: usize| sizes[pool as usize] = size as u32;
        set(Pool::Constant, input.constants.len());
        set(Pool::Name, input.names.len());
        set(Pool::Operator, input.tokens as usize);
        set(Pool::OpAssignment, input.op_assignments as usize);
        set(Pool::Chain, input.chains.len() / chain::WORDS);
        set(Pool::Switch, input.switches.len() / switch::WORDS);
        Sizes(sizes)
    }

    fn bounded(&self, at: usize, index: u32, pool: Pool) -> Result<(), Refusal> {
        if index >= self.0[pool as usize] {
            return Err(Refusal::BadIndex { at, index, pool });
        }
        Ok(())
    }
}

/// Marks the starts and tests the indices; gives the number of instructions.
fn first_pass(input: &Input, marks: &mut [u64]) -> Result<u64, Refusal> {
    let shapes = &*SHAPES;
    let sizes = Sizes::of(input);
    let code = &input.code[..];
    let (mut at, mut instructions) = (0, 0);
    while at < code.len() {
        let shape = &shapes[usize::from(code[at])];
        let width = usize::from(shape.width);
        if width == 0 || width > code.len() - at {
            return Err(Refusal::Undecodable { at });
        }
        marks[at / 64] |= 1 << (at % 64);
        if shape.indices[0].1.is_some() {
            check_indices(input, &sizes, at, shape)?;
        }
        instructions += 1;
        at += width;
    }
    Ok(instructions)
}

fn check_indices(input: &Input, sizes: &Sizes, at: usize, shape: &Shape) -> Result<(), Refusal> {
    for (offset, pool) in shape.indices {
        let Some(pool) = pool else {
            break;
        };
        let index = number16(&input.code, at + usize::from(offset));
        sizes.bounded(at, index, pool)?;
    }
    match input.code[at] {
        tag::CHAIN => check_chain(input, sizes, at),
        tag::SWITCH => check_switch(input, sizes, at),
        _ => Ok(()),
    }
}

fn check_chain(input: &Input, sizes: &Sizes, at: usize) -> Result<(), Refusal> {
    let chain = chain_at(input, at);
    if chain[chain::ROOT] <= chain::ROOT_NAMED {
        sizes.bounded(at, chain[chain::NAME], Pool::Name)?;
    }
    for step in steps_of(input, chain) {
        let names = match step[step::KIND] {
            step::PROPERTY => step::NAME..=step::SETTER,
            step::METHOD => step::NAME..=step::NAME,
            _ => continue,
        };
        for &name in &step[names] {
            sizes.bounded(at, name, Pool::Name)?;
        }
    }
    if chain[chain::TAIL] == chain::TAIL_ASSIGN_OP {
        sizes.bounded(at, chain[chain::OPERATOR], Pool::OpAssignment)?;
    }
    Ok(())
}

fn check_switch(input: &Input, sizes: &Sizes, at: usize) -> Result<(), Refusal> {
    for case in cases_of(input, switch_at(input, at)) {
        sizes.bounded(at, case[case::CONSTANT], Pool::Constant)?;
    }
    Ok(())
}

// ---------------------------------------------------------------------------------------------
// Code and tables, once they are known to be whole
// ---------------------------------------------------------------------------------------------

fn number16(code: &[u8], at: usize) -> u32 {
    u32::from(u16::from_le_bytes([code[at], code[at + 1]]))
}

fn target_of(code: &[u8], at: usize) -> u32 {
    let bytes = &code[at + 1..at + 5];
    u32::from_le_bytes(bytes.try_into().expect("four bytes"))
}

fn chain_at(input: &Input, at: usize) -> &[u32; chain::WORDS] {
    &input.chains.as_chunks().0[number16(&input.code, at + 1) as usize]
}

fn steps_of<'a>(input: &'a Input, chain: &[u32; chain::WORDS]) -> &'a [[u32; step::WORDS]] {
    let first = chain[chain::FIRST_STEP] as usize;
    &input.steps.as_chunks().0[first..][..chain[chain::STEPS] as usize]
}

fn switch_at(input: &Input, at: usize) -> &[u32; switch::WORDS] {
    &input.switches.as_chunks().0[number16(&input.code, at + 1) as usize]
}

fn cases_of<'a>(input: &'a Input, switch: &[u32; switch::WORDS]) -> &'a [[u32; case::WORDS]] {
    let first = switch[switch::FIRST_CASE] as usize;
    &input.cases.as_chunks().0[first..][..switch[switch::CASES] as usize]
}

fn ranges_of<'a>(input: &'a Input, switch: &[u32; switch::WORDS]) -> &'a [u32] {
    let first = switch[switch::FIRST_RANGE] as usize;
    &input.ranges[first..][..switch[switch::RANGES] as usize]
}

// ---------------------------------------------------------------------------------------------
// One chunk
// ---------------------------------------------------------------------------------------------

/// The three depths that all paths to an instruction have to agree on. No depth passes the
/// length of the code.
#[derive(Clone, Copy, PartialEq, Eq)]
struct Depths {
    operands: u32,
    iterators: u32,
    handlers: u32,
}

const NONE: Depths = Depths {
    operands: 0,
    iterators: 0,
    handlers: 0,
};

/// What stands beside a target that was not come to: no path has such depths.
const UNSEEN: Depths = Depths {
    operands: u32::MAX,
    ..NONE
};

/// A jump to be followed: the number of its target in their order, and the depths there.
#[derive(Clone, Copy)]
struct Item {
    slot: usize,
    depths: Depths,
}

/// The walks over the chunks, one after another in the same vectors.
struct Walk<'a> {
    shapes: &'a [Shape; 256],
    input: &'a Input,
    marks: &'a [u64],
    entry: usize,
    end: usize,
    /// The entry and the named targets, ascending, each once; then the largest number, which is
    /// no place, so that there is always a next one.
    targets: Vec<u32>,
    /// The depths with which each of them was met first.
    seen: Vec<Depths>,
    work: Vec<Item>,
    height: u32,
    reached: u64,
    taken: u64,
}

impl<'a> Walk<'a> {
    fn new(input: &'a Input, marks: &'a [u64]) -> Self {
        Walk {
            shapes: &SHAPES,
            input,
            marks,
            entry: 0,
            end: 0,
            targets: Vec::new(),
            seen: Vec::new(),
            work: Vec::new(),
            height: 0,
            reached: 0,
            taken: 0,
        }
    }

    /// The height of a chunk.
    fn chunk(&mut self, chunk: &Chunk, room: Room) -> Result<u16, Refusal> {
        let &Chunk {
            entry,
            end,
            declared,
        } = chunk;
        let length = self.input.code.len();
        (self.entry, self.end) = (entry as usize, end as usize);
        if self.end > length || entry > end {
            return Err(Refusal::ChunkOutOfRange { entry, end });
        }
        if self.entry != length && !self.starts_at(self.entry) {
            return Err(Refusal::Misaligned { entry });
        }
        self.list(room)?;
        self.targets.sort_unstable();
        self.targets.dedup();
        self.seen.clear();
        self.seen.resize(self.targets.len(), UNSEEN);
        self.targets.push(u32::MAX);
        self.height = 0;
        self.run()?;
        match u16::try_from(self.height) {
            Ok(height) if height <= declared => Ok(height),
            _ => Err(Refusal::StackExceedsDeclared {
                needed: u64::from(self.height),
                declared,
            }),
        }
    }

    /// Collects the targets named in the chunk and tests the room. T and E can be far larger
    /// than any room, so a switch that doesn't fit is counted and left out.
    fn list(&mut self, room: Room) -> Result<(), Refusal> {
        let code = &self.input.code[..];
        self.targets.clear();
        self.targets.push(self.entry as u32);
        let (mut named, mut edges) = (0, 0);
        let mut at = self.entry;
        while at < self.end {
            let shape = &self.shapes[usize::from(code[at])];
            match shape.flow {
                Flow::Plain => edges += 1,
                Flow::Stop => {}
                Flow::Switch => {
                    let switch = switch_at(self.input, at);
                    let (cases, ranges) = (switch[switch::CASES], switch[switch::RANGES]);
                    let arms = u64::from(cases) + u64::from(ranges) + 1;
                    named += arms;
                    edges += arms;
                    if needed(named) <= room.records {
                        self.list_arms(switch);
                    }
                }
                flow => {
                    named += 1;
                    edges += 1 + u64::from(flow != Flow::Jump);
                    self.targets.push(target_of(code, at));
                }
            }
            at += usize::from(shape.width);
        }
        check_room(needed(named), room.records, buffer::RECORDS)?;
        check_room(needed(edges), room.work, buffer::WORK)
    }

    fn list_arms(&mut self, switch: &[u32; switch::WORDS]) {
        let cases = cases_of(self.input, switch).iter();
        self.targets.extend(cases.map(|case| case[case::TARGET]));
        self.targets.extend(ranges_of(self.input, switch));
        self.targets.push(switch[switch::DEFAULT]);
    }

    fn run(&mut self) -> Result<(), Refusal> {
        self.work.clear();
        self.work.push(Item {
            slot: self.slot(self.entry as u32),
            depths: NONE,
        });
        self.taken += 1;
        while let Some(item) = self.work.pop() {
            self.follow(item)?;
        }
        Ok(())
    }

    /// Follows an item along its fall-throughs, until it is dropped or nothing follows.
    fn follow(&mut self, item: Item) -> Result<(), Refusal> {
        let (shapes, code, end) = (self.shapes, &self.input.code[..], self.end);
        let Item {
            mut slot,
            mut depths,
        } = item;
        let mut ahead = self.targets[slot] as usize;
        let mut at = ahead;
        // What is counted on the way stays out of memory up to the end.
        let (mut height, mut reached, mut fallen) = (0, 0, 0);
        loop {
            if at >= end {
                return Err(Refusal::FallsOffTheEnd);
            }
            // A named target inside an instruction is passed by.
            while ahead < at {
                slot += 1;
                ahead = self.targets[slot] as usize;
            }
            if ahead == at && !self.is_new(slot, depths)? {
                break;
            }
            reached += 1;
            let shape = &shapes[usize::from(code[at])];
            if shape.simple {
                let needs = u32::from(shape.needs);
                if depths.operands < needs {
                    return Err(underflow(at, needs, depths));
                }
                depths.operands = depths.operands - u32::from(shape.pops) + u32::from(shape.pushes);
            } else if let Some(after) = self.visit(at, shape, depths)? {
                depths = after;
            } else {
                break;
            }
            height = depths.operands.max(height);
            fallen += 1;
            at += usize::from(shape.width);
        }
        self.height = self.height.max(height);
        self.reached += reached;
        self.taken += fallen;
        Ok(())
    }

    /// Whether a target is come to for the first time; it is then no longer new.
    fn is_new(&mut self, slot: usize, depths: Depths) -> Result<bool, Refusal> {
        let seen = self.seen[slot];
        if seen == UNSEEN {
            self.seen[slot] = depths;
            return Ok(true);
        }
        if seen == depths {
            return Ok(false);
        }
        Err(Refusal::DepthConflict {
            at: self.targets[slot] as usize,
            expected: u64::from(seen.operands),
            found: u64::from(depths.operands),
        })
    }

    /// Rights, depths, then jumps of an instruction that is not a simple one. Gives the depths
    /// at the next instruction, where that is come to.
    fn visit(&mut self, at: usize, shape: &Shape, met: Depths) -> Result<Option<Depths>, Refusal> {
        let missing = self.required(at, shape) & !self.input.rights;
        if missing != 0 {
            return Err(Refusal::MissingCaps { at, missing });
        }
        let (needs, pops, pushes) = self.effect(at, shape);
        if met.operands < needs {
            return Err(underflow(at, needs, met));
        }
        let mut after = met;
        after.operands = met.operands - pops + pushes;
        self.height = self.height.max(after.operands);
        match shape.flow {
            Flow::Stop => return Ok(None),
            Flow::Plain => count(self.input.code[at], at, &mut after)?,
            Flow::Jump => {
                self.go(at, self.target(at), after)?;
                return Ok(None);
            }
            Flow::Branch => self.go(at, self.target(at), after)?,
            Flow::Handler => {
                after.handlers += 1;
                let caught = Depths {
                    handlers: after.handlers,
                    ..met
                };
                self.go(at, self.target(at), caught)?;
            }
            Flow::IterNext => {
                let iterators = one_less(met.iterators, Refusal::IteratorUnderflow { at })?;
                self.go(at, self.target(at), Depths { iterators, ..met })?;
            }
            Flow::Switch => {
                self.go_to_arms(at, after)?;
                return Ok(None);
            }
        }
        Ok(Some(after))
    }

    fn go_to_arms(&mut self, at: usize, after: Depths) -> Result<(), Refusal> {
        let switch = switch_at(self.input, at);
        for case in cases_of(self.input, switch) {
            self.go(at, case[case::TARGET], after)?;
        }
        for &range in ranges_of(self.input, switch) {
            self.go(at, range, after)?;
        }
        self.go(at, switch[switch::DEFAULT], after)
    }

    /// Kind 9, then 10. A target that was met with the same depths would be dropped when its
    /// turn comes, so it is only counted.
    fn go(&mut self, at: usize, target: u32, depths: Depths) -> Result<(), Refusal> {
        let place = target as usize;
        if place < self.entry || place >= self.end {
            return Err(Refusal::JumpOutOfRange { at, target });
        }
        if !self.starts_at(place) {
            return Err(Refusal::JumpIntoAnInstruction { at, target });
        }
        self.taken += 1;
        let slot = self.slot(target);
        if self.seen[slot] != depths {
            self.work.push(Item { slot, depths });
        }
        Ok(())
    }

    /// The number of a target that is among the named ones.
    fn slot(&self, target: u32) -> usize {
        self.targets.partition_point(|&named| named < target)
    }

    fn target(&self, at: usize) -> u32 {
        target_of(&self.input.code, at)
    }

    fn starts_at(&self, at: usize) -> bool {
        self.marks[at / 64] >> (at % 64) & 1 == 1
    }

    fn required(&self, at: usize, shape: &Shape) -> u32 {
        let word = u32::from(shape.word);
        match shape.asks {
            Asks::Nothing => word,
            Asks::Name => {
                let name = number16(&self.input.code, at + 1) as usize;
                let qualified = self.input.names[name] != 0;
                word | if qualified { rights::MODULE } else { 0 }
            }
            Asks::Chain => chain_rights(self.input, chain_at(self.input, at)),
        }
    }

    /// Needs, pops, pushes.
    fn effect(&self, at: usize, shape: &Shape) -> (u32, u32, u32) {
        let code = &self.input.code[..];
        let (fixed, pushes) = (u32::from(shape.needs), u32::from(shape.pushes));
        let place = at + usize::from(shape.offset);
        let count = match shape.counted {
            Counted::Nothing => return (fixed, u32::from(shape.pops), pushes),
            Counted::Byte => u32::from(code[place]),
            Counted::U16 => number16(code, place),
            Counted::Chain => chain_at(self.input, at)[chain::OPERANDS],
        };
        let needs = fixed + u32::from(shape.times) * count;
        (needs, needs * pushes, pushes)
    }
}

/// The words that so many targets or edges take, with the one for the entry.
fn needed(count: u64) -> u64 {
    4 * (1 + count)
}

fn check_room(needed: u64, lent: u64, buffer: u64) -> Result<(), Refusal> {
    if lent < needed {
        return Err(Refusal::NoRoom { needed, buffer });
    }
    Ok(())
}

fn underflow(at: usize, needs: u32, met: Depths) -> Refusal {
    Refusal::Underflow {
        at,
        need: u64::from(needs),
        have: u64::from(met.operands),
    }
}

/// Iterators and handlers after a plain instruction.
fn count(tag: u8, at: usize, depths: &mut Depths) -> Result<(), Refusal> {
    match tag {
        tag::ITER_INIT => depths.iterators += 1,
        tag::ITER_DROP => {
            depths.iterators = one_less(depths.iterators, Refusal::IteratorUnderflow { at })?;
        }
        tag::POP_HANDLER => {
            depths.handlers = one_less(depths.handlers, Refusal::HandlerUnderflow { at })?;
        }
        _ => {}
    }
    Ok(())
}

fn one_less(count: u32, refusal: Refusal) -> Result<u32, Refusal> {
    count.checked_sub(1).ok_or(refusal)
}

fn chain_rights(input: &Input, chain: &[u32; chain::WORDS]) -> u32 {
    let mut word = match chain[chain::ROOT] {
        chain::ROOT_THIS => rights::THIS,
        _ => 0,
    };
    for step in steps_of(input, chain) {
        word |= match step[step::KIND] {
            step::INDEX => rights::INDEXING,
            step::PROPERTY => rights::PROPERTY,
            _ => rights::METHOD,
        };
    }
    word
}
